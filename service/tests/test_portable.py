"""Records that leave a job of the service and become jobs, here and over the durable coordinator; and a database that is lost. Each command is ended before and
after each of its writes, and each of its requests."""
import contextlib
import glob
import json
import os
import pathlib
import random
import re
import shutil
import signal
import subprocess
import sys
import tempfile
import time

from harness import COMMAND, ENVIRONMENT, HERE, PROGRAM, TOP, Server, content, free_port, served
from harness import folder as temporary
from places import Bucket
from postgres import postgres
from publishing_engine import PREFIX, SETTINGS, SUFFIX, TASKS, write
from relkvanu_service import Failed, Service, cancel, savepoint
from test_payloads import whole

LOSSES = int(os.environ.get("RELKVANU_LOST_LOGS", "4"))
ALL_JOBS = int(os.environ.get("RELKVANU_ALL_JOBS", "3"))
EACH = int(os.environ.get("RELKVANU_EACH", "12"))  # of so many writes and requests one is an end's, on average
SEED = os.environ.get("SEED", "1")
ENGINE = [sys.executable, f"{HERE}/publishing_engine.py"]
KILLED, INPUTS = 9, 10 ** 9


def ran(words, **env):
    given = [str(it) for it in words]
    return subprocess.run(given, env={**ENVIRONMENT, **env}, stdout=subprocess.PIPE, stderr=subprocess.STDOUT, text=True, timeout=COMMAND, check=False)


def place_of(server, folder):
    return "--url", server.url, "--folder", folder, "--prefix", PREFIX, "--suffix", SUFFIX


def did(words, status=0, text=""):
    told = ran(words)
    assert told.returncode == status and text in told.stdout, (words, told.returncode, told.stdout)
    return told.stdout


def record_of(told):
    """The record that a job goes on from."""
    return int(told.split("checkpoint ")[1].partition(",")[0])


def fits_the_schema(manifest):
    import jsonschema

    with open(f"{TOP}/docs/manifest.schema.json", encoding="utf-8") as it:
        jsonschema.validate(json.loads(manifest), json.load(it))


def killed(server, folder, seconds):
    """Runs the engine, and kills it after it has published a record. Returns the last one that it said."""
    with subprocess.Popen([*ENGINE, server.url, folder, str(INPUTS)], stdout=subprocess.PIPE, stderr=subprocess.PIPE, text=True, env=ENVIRONMENT) as process:
        first = process.stdout.readline()
        time.sleep(seconds)
        process.send_signal(signal.SIGKILL)
        told, wrong = process.stdout.read(), process.stderr.read()
    assert first and process.returncode == -signal.SIGKILL, (process.returncode, wrong)
    return int([it for it in (first + told).split("\n")[:-1] if it][-1])


def lose(server):
    """The database goes, and the service has a new one."""
    server.kill()
    for it in glob.glob(f"{server.database}*") + glob.glob(f"{server.folder}/history-*"):
        os.remove(it)
    server.start()


def published(folder):
    return [int(line) for it in (folder / "published").iterdir() for line in it.read_text().split()]


def state_in(folder):
    return {int(it.name[len(PREFIX):-len(SUFFIX)]): it.read_text() for it in folder.glob(f"{PREFIX}*{SUFFIX}")}


@contextlib.contextmanager
def claimed(shape, **settings):
    """A service, and a job with its folder and the session of its tasks."""
    with served() as server:
        at = pathlib.Path(server.folder) / "state"
        at.mkdir()
        job = Service(server.url).open("orders", {**SETTINGS, **settings}, shape)
        job.claim(at)
        yield server, at, job, job.begin().session(block=10)


class Racing(Service):
    """The service of a recovery, while an engine opens an empty job behind each of the first jobs that are dropped."""

    opened = 0

    def delete(self, name, abandon=False):
        told = super().delete(name, abandon)
        if self.opened < 3:
            self.opened += 1
            self.open(name, SETTINGS, [1])
        return told


def recovered_in_a_race(server, folder):
    import relkvanu_service
    from relkvanu.service_manifests import service_folder
    from relkvanu.service_moves import Recovery

    service = Racing(server.url)
    found = Recovery(relkvanu_service, service, "orders", service_folder("orders", folder, PREFIX, SUFFIX)).run(0)
    assert service.opened == 3, service.opened
    return found.record


def test_lost_databases():
    """Each time the engine goes on from its last record, and in the end each input was published once. Some engines start before the recovery, and during it: a
    supervisor starts them. They open an empty job, and end, because the folder is another's."""
    chance = random.Random(SEED)
    with served() as server:
        folder, last = pathlib.Path(server.folder) / "job", 0
        folder.mkdir()
        for loss in range(LOSSES):
            complete = killed(server, folder, chance.random() * chance.choice((0.02, 0.4)))
            assert complete > last, (complete, last)
            lose(server)
            if loss % 2:
                told = ran([*ENGINE, server.url, folder, "10"])
                assert told.returncode != 0 and "names another job" in told.stdout, told.stdout
                last = recovered_in_a_race(server, folder / "state")
            else:
                last = record_of(did([PROGRAM, "recover", "orders", *place_of(server, folder / "state")]))
            assert last in (complete, complete + 1), (last, complete)  # a completion may not have been said
        most = max(published(folder)) + 20
        did([*ENGINE, server.url, folder, str(most)])
        found = published(folder)
        assert sorted(found) == list(range(most)), f"{len(found)} inputs, {len(set(found))} of them others, up to {most}"
        swept = did([PROGRAM, "clean", "--only", "garbage", "--once", "--job", "orders", *place_of(server, folder / "state")])
        assert "unissued=0" in swept and "failed=0" in swept, swept
        job = Service(server.url).job("orders")
        used = {int(it) for live in job.state()["live"] for ack in job.record(live["id"])["live"]["acks"] for it in ack["files"]}
        assert set(state_in(folder / "state")) == used, (state_in(folder / "state"), used)
        return f"{LOSSES} databases were lost, and {len(found)} inputs published once"


class Ends:
    """A command in a process of its own, which ends before or after one of its writes or requests. A fork takes less time than an interpreter."""

    def __init__(self, at):
        import relkvanu.__main__

        self.main, self.chance, self.temporary = relkvanu.__main__.main, random.Random(SEED), at / "temporary"
        self.temporary.mkdir()

    def ended(self, at, after, words):
        """Returns the status and what it said."""
        read, write = os.pipe()
        child = os.fork()
        if child == 0:
            tempfile.tempdir = str(self.temporary)  # what a process leaves that ends goes with the test
            os.dup2(write, 1)
            os.dup2(write, 2)
            sys.stdout = sys.stderr = open(1, "w", encoding="utf-8", closefd=False, buffering=1)
            try:
                ends_at(at, after)
                os._exit(self.main([str(it) for it in words]))
            except BaseException as error:
                print(repr(error))
                os._exit(100)
        os.close(write)
        said = content(read)
        return os.waitstatus_to_exitcode(os.waitpid(child, 0)[1]), said

    def each(self, words, check):
        """words(n) are those of a command over a copy of what it needs. Checks what each end leaves. Returns how many ends there were."""
        ends, at, goes_on = 0, 0, True
        while goes_on:
            at += self.chance.randint(1, 2 * EACH - 1 if at else min(3, 2 * EACH - 1))  # the first is one that each command has
            for after in (False, True):
                given = words(f"{at}-{int(after)}")
                status, said = self.ended(at, after, given)
                assert status in (0, KILLED), (given, status, said)
                goes_on = status == KILLED
                ends += goes_on
                check(given, goes_on)
        assert ends > 1, ends
        return ends


WRITES = ("rename", "link", "fsync", "mkdir", "unlink", "rmdir")


def ends_at(at, after):
    """This process ends at a write or a request, without a word."""
    import requests

    count = 0

    def ending(function):
        def run(*given, **named):
            nonlocal count
            count += 1
            if count == at and not after:
                os._exit(KILLED)
            mine = count
            try:
                return function(*given, **named)
            finally:  # also if it raises, as the removal of what is not there
                if mine == at:
                    os._exit(KILLED)
        return run

    for name in WRITES:
        setattr(os, name, ending(getattr(os, name)))
    requests.Session.request = ending(requests.Session.request)


class Base:
    """A folder whose database was lost, and the service that has a new one."""

    def __init__(self, server):
        self.server, self.at = server, pathlib.Path(server.folder)
        self.folder = self.at / "base"
        self.folder.mkdir()
        job = Service(server.url).open("orders", SETTINGS, [TASKS], first=69)
        self.complete = killed(server, self.folder, 0.05)
        self.settings, self.term = job.state()["settings"], job.term()
        self.state = state_in(self.folder / "state")

    def removed(self):
        """The job of an earlier trial goes."""
        service = Service(self.server.url)
        with contextlib.suppress(Failed):
            service.job("orders").call(cancel())
            service.delete("orders", abandon=True)

    def engine_meanwhile(self, folder):
        """An engine that starts before the command is given again finds a job that is whole, or ends."""
        job = Service(self.server.url).job("orders")
        try:
            job.open(SETTINGS, [TASKS])
            job.claim(folder)
        except Failed as failed:
            assert failed.status == 409 or "no marker" in str(failed), failed
        except FileNotFoundError:
            return  # an import that has no folder yet
        else:
            assert job.state()["choice"].get("id") in (self.complete, self.complete + 1), job.state()

    def check(self, folder):
        """The job is whole, and its folder has one list of manifests."""
        job = Service(self.server.url).open("orders", SETTINGS, [TASKS])
        state = job.state()
        assert state["settings"] == self.settings and state["choice"]["id"] in (self.complete, self.complete + 1), state
        job.claim(folder)
        now = job.term()
        assert now["term"] > self.term["term"] and now["next_name"] >= self.term["next_name"], (now, self.term)
        start = job.begin()
        assert next(iter(job.log()))["answer"].endswith(f" triggered {start.id}"), "its log counts up to the record"
        assert start.term > now["term"] and sorted(start.files) == [f"0.{task}" for task in range(TASKS)], start.files
        for name, (file,) in start.files.items():
            assert state_in(folder)[file] == self.state[file] == start.load()["subtasks"][name]["payload"].decode(), file
        (listed,) = list((folder / ".relkvanu.records").iterdir())
        assert f"record-{start.id}.manifest" in os.listdir(listed), os.listdir(listed)
        assert not list(folder.parent.glob("*.part")), list(folder.parent.iterdir())
        return job.checkpoint()["id"]


def test_a_recovery_at_each_end():
    with served() as server:
        base, ends = Base(server), Ends(pathlib.Path(server.folder))
        lose(server)

        def words(n):
            base.removed()
            shutil.copytree(base.folder / "state", base.at / n)
            return ["recover", "orders", *place_of(server, base.at / n)]

        def check(given, is_killed):
            folder = given[given.index("--folder") + 1]
            if is_killed:
                base.engine_meanwhile(folder)
            status, said = ends.ended(0, False, given)
            assert (is_killed and status == 0) or "the place is its own" in said, (is_killed, status, said)
            assert base.check(folder) > base.complete
            shutil.rmtree(folder)

        return f"{ends.each(words, check)} ends"


def exported(base):
    did([PROGRAM, "export", "orders", base.at / "out", *place_of(base.server, base.folder / "state")])
    return base.at / "out"


def test_imports_at_each_end():
    """With a claim the files leave what was exported, and not before they are in the new folder."""
    with served() as server:
        base, ends, told = Base(server), Ends(pathlib.Path(server.folder)), []
        out = exported(base)
        lose(server)
        for claim in ([], ["--claim"]):
            def words(n, claim=claim):
                base.removed()
                source, target = base.at / f"from-{n}", base.at / f"into-{n}"
                shutil.copytree(out, source)
                return ["import", source, "orders", *claim, *place_of(server, target)]

            def check(given, is_killed, claim=claim):
                source, target = given[1], given[given.index("--folder") + 1]
                if is_killed and target.exists():
                    base.engine_meanwhile(target)
                status, said = ends.ended(0, False, given)
                # once a claim has ended its source is gone
                assert (is_killed and status == 0) or "the place is its own" in said or (claim and "it is there" in said), (is_killed, status, said)
                base.check(target)
                assert source.exists() != bool(claim), (claim, list(base.at.iterdir()))
                shutil.rmtree(target)
                shutil.rmtree(source, ignore_errors=True)

            told.append(ends.each(words, check))
        return f"{told[0]} ends of imports, {told[1]} of claims"


def with_jobs(server, at):
    """Jobs with two records each, of which some have other settings than they were opened with; one without a record, and one that was cancelled. Returns
    what each has."""
    service, found = Service(server.url), {}
    for nth in range(ALL_JOBS):
        job, files = service.open(f"job-{nth}", SETTINGS, [TASKS]), at / f"job-{nth}"
        files.mkdir(parents=True)
        job.claim(files)
        session = job.begin().session()
        for _ in range(2):
            id = job.checkpoint()["id"]
            for task in range(TASKS):
                file = session.name()
                write(files / f"{PREFIX}{file}{SUFFIX}", f"{nth} {id} {task}")
                session.ack(id, f"0.{task}", [file], payload=b"%d" % task)
        if nth % 2:
            job.set(interval=5000)
        found[job.name] = id, job.term()
    service.open("fresh", SETTINGS, [TASKS])
    service.open("gone", SETTINGS, [TASKS]).call(cancel())
    return {name: (id, whole(service.job(name), id), service.job(name).state()["settings"], term) for name, (id, term) in found.items()}


def has_jobs(server, at, found):
    """A service has these jobs, each with its files."""
    service = Service(server.url)
    assert {job["name"] for job in service.jobs()} == set(found), service.jobs()
    for name, (id, parts, settings, term) in found.items():
        job, texts = service.job(name), state_in(at / name)
        state, now = job.state(), job.term()
        assert (state["choice"]["id"], state["settings"], whole(job, id)) == (id, settings, parts), state
        assert [texts[file] for files, *_ in parts.values() for file in files] == [f"{name[4:]} {id} {task}" for task in range(TASKS)], texts
        assert now["term"] > term["term"] and now["next_name"] >= term["next_name"], (now, term)
        job.claim(at / name)


def emptied(server):
    service = Service(server.url)
    for name in [job["name"] for job in service.jobs()]:
        with contextlib.suppress(Failed):
            service.job(name).call(cancel())
        service.delete(name, abandon=True)


def test_all_jobs_go_to_postgresql_and_back():
    """Each of the commands is ended before and after writes and requests, and given again."""
    with served() as server, postgres() as database, temporary() as elsewhere:
        at, other = pathlib.Path(server.folder), Server(elsewhere, database.url).start()
        found, ends = with_jobs(server, at / "files"), Ends(at)

        def is_exported(given, is_killed):
            """The second time nothing is left to be done."""
            for expected in ("", "already"):
                status, said = ends.ended(0, False, given)
                assert status == 0 and expected in said and "gone: it was cancelled" in said and "fresh: no record is complete" in said, (status, said)
            assert sorted(os.listdir(given[2])) == sorted(found), (is_killed, os.listdir(given[2]))
            for name in found:
                assert did([PROGRAM, "records", given[2] / name]).count("whole; ") == 1 and not list(given[2].rglob("*.part")), (is_killed, name)
            shutil.rmtree(given[2])

        exports = ends.each(lambda n: ["export", "--all", at / n, *place_of(server, at / "files" / "{job}")], is_exported)
        out = at / "out"
        did([PROGRAM, "export", "--all", out, *place_of(server, at / "files" / "{job}")])

        def is_imported(given, is_killed):
            folder = given[given.index("--folder") + 1].parent
            for expected in ("", "job-0 is there already"):
                status, said = ends.ended(0, False, given)
                assert status == 0 and expected in said, (is_killed, status, said)
            has_jobs(other, folder, found)
            emptied(other)
            shutil.rmtree(folder)

        imports = ends.each(lambda n: ["import", "--all", out, *place_of(other, at / n / "{job}")], is_imported)
        # there and back, over the program's own words
        did([PROGRAM, "import", "--all", out, *place_of(other, at / "there" / "{job}")])
        lose(server)
        did([PROGRAM, "export", "--all", at / "back", *place_of(other, at / "there" / "{job}")])
        did([PROGRAM, "import", "--all", at / "back", *place_of(server, at / "here" / "{job}")])
        has_jobs(server, at / "here", found)
        # one that lacks a file is not exported, and the others are
        lost = next(iter(found["job-0"][1].values()))[0][0]
        (at / "here" / "job-0" / f"{PREFIX}{lost}{SUFFIX}").unlink()
        told = did([PROGRAM, "export", "--all", at / "some", *place_of(server, at / "here" / "{job}")], 1, "job-0: ")
        assert sorted(os.listdir(at / "some")) == sorted(set(found) - {"job-0"}), told
        did([PROGRAM, "import", "--all", out, *place_of(other, at / "alike")], 2, "{job}")
        return f"{len(found)} jobs, {exports} ends of an export and {imports} of an import"


def test_all_jobs_of_a_lost_database_are_recovered():
    """Each whose marker is in a folder; given again after an end, the command passes over those that are there."""
    with served() as server:
        at = pathlib.Path(server.folder)
        found, ends = with_jobs(server, at / "files"), Ends(at)
        for name in found:
            did([PROGRAM, "keep", name, *place_of(server, at / "files" / name)])
        lose(server)
        (at / "files" / "of-nobody").mkdir()

        def words(n):
            emptied(server)
            shutil.copytree(at / "files", at / n)
            return ["recover", "--all", *place_of(server, at / n / "{job}")]

        def check(given, is_killed):
            for expected in ("", "job-0 is there already"):
                status, said = ends.ended(0, False, given)
                assert status == 0 and expected in said, (is_killed, status, said)
            folder = given[given.index("--folder") + 1].parent
            has_jobs(server, folder, found)
            shutil.rmtree(folder)

        ended = ends.each(words, check)
        did([PROGRAM, "recover", "--all", *place_of(server, at / "none" / "{job}")], 78, "there is no marker of a job")
        for more in (["orders", *place_of(server, at / "{job}")], place_of(server, at / "files"), ["--bucket", "{job}"]):
            did([PROGRAM, "recover", "--all", *more], 2, "--all")
        return f"{len(found)} jobs, {ended} ends"


def test_between_the_service_and_the_durable_coordinator():
    """One format: what the service exports begins a job of the durable coordinator, and the other way round, with the same files. A claim fences that one."""
    from relkvanu import Settings
    from relkvanu.store import Store, StoreError

    with served() as server:
        base = Base(server)
        job = Service(server.url).job("orders")
        held, record = job._held(job.state()["choice"]["id"]), job.state()["choice"]["id"]
        out, store, state = exported(base), base.at / "store.db", base.at / "store"
        fits_the_schema((out / f"record-{record}.manifest").read_text())
        assert f"checkpoint {record}, which has {TASKS} files" in did([PROGRAM, "import", out, store, state])
        settings = Settings(interval=SETTINGS["interval"], timeout=SETTINGS["timeout"], tolerable=1000, retained=2)
        with Store(store, settings, [TASKS], storage=state, manifests=True) as durable:
            made = durable.restore()
            assert made.reply.id == record and made.term > job.term()["term"] and durable.reserve(made.term, 1)[0] >= job.term()["next_name"], made
            with durable.read() as reads:
                files = {f"0.{task}": list(reads.files_of(record, 0, task)) for task in range(TASKS)}
        assert files == held and {it: (state / str(it)).read_text() for (it,) in files.values()} == {it: base.state[it] for (it,) in held.values()}
        assert not durable.report.settings_differ, durable.report
        lose(server)
        back, words = base.at / "back", ["orders", *place_of(server, base.at / "back")]
        did([PROGRAM, "import", base.at / "out", *words])
        base.check(back)
        did([PROGRAM, "import", base.at / "out", *words], 1, "there is a job")
        did([PROGRAM, "import", state, *words], 1, "it is there")
        base.removed()
        shutil.rmtree(back)
        did([PROGRAM, "import", "--claim", state, *words])
        base.check(back)
        with contextlib.suppress(StoreError):
            Store(store, settings, [TASKS], storage=state)
            raise AssertionError("the old job of a claim was opened")
        assert not [it for it in state.iterdir() if it.name.isdecimal() and int(it.name) in base.state], list(state.iterdir())


def test_what_the_commands_refuse():
    with served() as server:
        base = Base(server)
        here, there = place_of(server, base.folder / "state"), place_of(server, base.at)
        did([PROGRAM, "export", "orders", base.at / "out", *there], 78, "no marker")
        did([PROGRAM, "export", "orders", base.at / "out", "--record", "999999", *here], 1, "404")
        did([PROGRAM, "export", "orders", base.at / "out", "--record", "last", *here], 2, "--record")
        did([PROGRAM, "recover", "orders", *here], 1, "there is a job")
        did([PROGRAM, "recover", "orders", *there], 78, "no marker")
        did([PROGRAM, "recover", "orders", *here[:2]], 2, "--folder")
        did([PROGRAM, "keep", "orders", *here], 0, "has a manifest")
        did([PROGRAM, "import", base.at / "none", "others", *place_of(server, base.at / "others")], 1, "No such file")
        did([PROGRAM, "keep", "orders", "--url", f"http://127.0.0.1:{free_port()}", "--within", "1", *here[2:]], 1, "")
        job = Service(server.url).open("one", {"interval": 1 << 40}, [1])
        os.mkdir(base.at / "one")
        job.claim(base.at / "one")
        did([PROGRAM, "keep", "one", *place_of(server, base.at / "one")], 1, "`retained` has to be above `at_once`")
        job.set(retained=2)
        did([PROGRAM, "keep", "one", *place_of(server, base.at / "one")], 0, "no record is complete")
        # another job of that name has records: nothing is replaced
        shutil.copytree(base.folder / "state", base.at / "copy")
        marker = (base.at / "copy" / ".relkvanu-orders")
        manifests = next((base.at / "copy" / ".relkvanu.records").iterdir())
        other = marker.read_text().replace("opened at ", "opened at 1")
        marker.write_text(other)
        from relkvanu.service_manifests import identity_of
        manifests.rename(manifests.parent / identity_of(other.encode()))
        did([PROGRAM, "recover", "orders", *place_of(server, base.at / "copy")], 1, "another job of this name")


def test_savepoints_live_on():
    """A job whose database is lost keeps its savepoints, under new numbers, and its shape and settings. A manifest whose files are gone is passed over."""
    with claimed([1, 2], pause=5) as (server, at, job, task):
        def completes(call, reused=()):
            record = call["id"]
            for nth, subtask in enumerate(("0.0", "1.0", "1.1")):
                name = task.name()
                write(at / f"{PREFIX}{name}{SUFFIX}", f"{record} {subtask}")
                task.ack(record, subtask, [name], reused if nth == 0 else ())
            return record, [int(it) for ack in job.record(record)["live"]["acks"] for it in ack["files"]]

        saved, kept = completes(job.call({"call": "savepoint"}))
        completes(job.checkpoint())
        last, _ = completes(job.checkpoint(), reused=kept[:1])
        newest, files = completes(job.checkpoint(), reused=kept[:1])
        did([PROGRAM, "keep", "orders", *place_of(server, at)], 0, f"record {newest} has a manifest")
        os.remove(at / f"{PREFIX}{max(files)}{SUFFIX}")
        lose(server)
        told = did([PROGRAM, "recover", "orders", *place_of(server, at)])
        assert record_of(told) == last and "1 other savepoints live on" in told and "1 manifests were passed over" in told, told
        state = job.state()
        assert (state["shape"], state["settings"]["pause"], state["choice"]["id"]) == ([1, 2], 5, last), state
        (living,) = [it["id"] for it in state["live"] if it["kind"] == "savepoint"]
        assert sorted(int(it) for ack in job.record(living)["live"]["acks"] for it in ack["files"]) == sorted(kept) and living > newest, (living, newest, saved)
        start = job.begin(living)
        assert start.kind == "savepoint" and start.id == living, start


def test_checksums():
    """Each file is read once: what changes afterwards is found in a folder that is exported, after later checkpoints and after a recovery too."""
    from relkvanu.manifest import sums_in

    with claimed([1]) as (server, at, job, task):
        def completes(reused=()):
            record, name = job.checkpoint()["id"], task.name()
            write(at / f"{PREFIX}{name}{SUFFIX}", "123456789")
            task.ack(record, "0.0", [name], reused)
            return record, int(name)

        def sums(record):
            (kept,) = (at / ".relkvanu.records").iterdir()
            return sums_in((kept / f"record-{record}.manifest").read_bytes())

        record, first = completes()
        did([PROGRAM, "keep", "orders", *place_of(server, at)])
        assert sums(record) == {}, sums(record)
        did([PROGRAM, "keep", "orders", "--checksums", *place_of(server, at)])
        assert sums(record) == {first: 0xcbf43926}, sums(record)  # the check value of CRC-32
        (at / f"{PREFIX}{first}{SUFFIX}").write_text("123456780")
        record, second = completes([first])
        did([PROGRAM, "keep", "orders", "--checksums", *place_of(server, at)])
        assert sums(record) == {first: 0xcbf43926, second: 0xcbf43926}, sums(record)
        lose(server)
        did([PROGRAM, "recover", "orders", *place_of(server, at)])
        assert sums(record) == {first: 0xcbf43926, second: 0xcbf43926}, sums(record)
        out = at.parent / "out"
        did([PROGRAM, "export", "orders", out, *place_of(server, at)])
        told = did([PROGRAM, "records", "--whole", out], 1, f"record {record}: file {first} has another checksum")
        assert f"file {second}" not in told, told
        did([PROGRAM, "records", out], 0, "whole; a recovery")


def with_payloads(at, job, task):
    """Gives a job with two vertices a savepoint of payloads alone, one whose files are in an order of their own, and a checkpoint that has some of these, some with
    figures. Returns what their subtasks have."""
    names = [task.name() for _ in range(5)]
    for name in names:
        write(at / f"{PREFIX}{name}{SUFFIX}", f"of {name}")
    one, two, three, four, five = names
    wanted = {}

    def completes(record, states, **figures):
        """Of the last subtask the figures are told."""
        for name, (fresh, reused, payload) in states.items():
            task.ack(record, name, fresh, reused, payload=payload, **(figures if name == "1.0" else {}))
        wanted[record] = {name: (fresh + reused, payload or b"", 0, 0) for name, (fresh, reused, payload) in states.items()}
        wanted[record]["1.0"] = (*wanted[record]["1.0"][:2], figures.get("size", 0), figures.get("millis", 0))
        return record

    payloads = {"0.0": ([], [], bytes(range(256)) * 16), "0.1": ([], [], b"\0"), "1.0": ([], [], b"alone")}
    alone = completes(job.call(savepoint())["id"], payloads, size=5, millis=7)
    completes(job.checkpoint()["id"], {"0.0": ([two, one], [], b"first"), "0.1": ([], [], b"x"), "1.0": ([three], [], None)})
    ordered = completes(job.call(savepoint())["id"], {"0.0": ([four], [two, one], b"second"), "0.1": ([], [three], b""), "1.0": ([], [three, two], b"y")}, millis=9)
    last = completes(job.checkpoint()["id"], {"0.0": ([five], [four], bytes(4096)), "0.1": ([], [one], b"z"), "1.0": ([], [], None)}, size=40)
    assert all(whole(job, record) == wanted[record] for record in (alone, ordered, last)), wanted
    return alone, ordered, last, wanted


def test_figures_that_can_not_be():
    """Nobody begins from a manifest with bytes or milliseconds that are none."""
    from relkvanu.manifest import sealed

    with claimed([1]) as (server, at, job, task):
        record = job.checkpoint()["id"]
        task.ack(record, "0.0", payload=b"small", size=5, millis=7)
        out, store, state = (at.parent / it for it in ("out", "store.db", "store"))
        did([PROGRAM, "export", "orders", out, *place_of(server, at)])
        path = out / f"record-{record}.manifest"
        text = path.read_bytes()
        for wrong, why in ((-1, ""), ("7", ""), (1.5, ""), (1 << 64, ""), (True, "can't be bytes or milliseconds")):
            found = json.loads(text)
            del found["sum"]
            found["subtasks"][0]["millis"] = wrong
            path.write_bytes(sealed(found))
            if not why:  # SQLite reads `true` as a number
                did([PROGRAM, "import", out, store, state], 1)
            did([PROGRAM, "import", out, "other", *place_of(server, at.parent / "other")], 1, why)


def test_a_look_at_the_records_of_a_job():
    """It needs no service. It names what is missing and what has changed, of a manifest that has checksums."""
    with served() as server:
        base = Base(server)
        job, state = Service(server.url).job("orders"), base.folder / "state"
        record = job.state()["choice"]["id"]
        (one,), (other,), *_ = job._held(record).values()
        did([PROGRAM, "keep", "orders", "--checksums", *place_of(server, state)])
        server.kill()
        words = [PROGRAM, "records", "orders", "--folder", state, "--prefix", PREFIX, "--suffix", SUFFIX]
        told = did(words)
        assert re.search(rf"^{record} +checkpoint .* whole; a recovery or an import begins from it$", told, re.MULTILINE), told
        assert "each checksum is right" in did([*words, "--whole"])
        first, second = (state / f"{PREFIX}{it}{SUFFIX}" for it in (one, other))
        text = first.read_text()
        first.write_text("x" * len(text))
        assert "whole" in did(words)
        assert f"record {record}: file {one} has another checksum" in did([*words, "--whole"], 1, "not all files are as the manifests say")
        first.write_text(text)
        second.unlink()
        assert "1 files are missing" in did(words)
        did([*words, "--whole"], 1, "is missing")
        did([*words[:3], "--folder", base.folder], 78, "there is no marker of the job")
        did([*words[:3]], 1, "No such file")  # it is taken for the storage of a durable job


def test_a_manifest_says_what_was_acknowledged():
    """A file that is cut short stays lost: a record that uses it again does not make it whole, and no engine that starts."""
    from relkvanu.service_manifests import Manifests, NotKept, service_folder

    with claimed([1], retained=4) as (server, at, job, session):
        place = place_of(server, at)

        def completes(text, reused=(), **told):
            """A checkpoint with a new file of this text, if there is one."""
            names = [session.name()] if text else []
            for name in names:
                (at / f"{PREFIX}{name}{SUFFIX}").write_text(text)
            id = job.checkpoint()["id"]
            session.ack(id, "0.0", names, reused, **told)
            return id, *names

        def kept(anew=False):
            """The number of the record, or the files that are lost."""
            try:
                return (Manifests(job, service_folder("orders", at, PREFIX, SUFFIX)) if anew else manifests).keep()
            except NotKept as why:
                return re.findall(r"the files \[(.*)\] are not there, or have another length", str(why))

        manifests = Manifests(job, service_folder("orders", at, PREFIX, SUFFIX))
        first, base = completes("x" * 230)
        assert kept() == first
        os.truncate(at / f"{PREFIX}{base}{SUFFIX}", 10)
        (second,) = completes("", [base])
        assert kept() == kept(anew=True) == [str(base)], (kept(), kept(anew=True))
        lengths = [json.loads(it.read_text())["subtasks"][0]["files"] for it in sorted(at.glob(".relkvanu.records/*/*"))]
        assert lengths == [{str(base): 230}] * 2, lengths
        assert did([PROGRAM, "records", "orders", *place[2:]]).count("1 files are missing or have another length") == 2
        did([PROGRAM, "export", "orders", at.parent / "out", *place], 1, f"record {second} is not whole")
        # what its task told is another length from the beginning
        _, told = completes("12345", sizes=[7])
        assert kept() == [str(told)], kept()
        fourth, _ = completes("12345", sizes=[5])
        assert kept() == fourth
        lose(server)
        assert record_of(did([PROGRAM, "recover", "orders", *place])) == fourth


def test_payloads_go_with_their_records():
    """A job that is recovered has the payloads and the figures of each record, and the order and the lengths of its files, though a savepoint has files that the
    last checkpoint has too."""
    from relkvanu.manifest import sealed

    with claimed([2, 1]) as (server, at, job, task):
        alone, ordered, last, wanted = with_payloads(at, job, task)
        did([PROGRAM, "keep", "orders", *place_of(server, at)], 0, f"record {last} has a manifest")
        (kept,) = (at / ".relkvanu.records").iterdir()
        for record, shown in (alone, bytes(range(256)) * 16), (last, bytes(4096)):
            part = json.loads((kept / f"record-{record}.manifest").read_text())["subtasks"][0]
            assert part["payload"] == shown.hex(), part
        # a manifest of an earlier version, or of a history that was lost since, names the same files
        old = kept / f"record-{alone}.manifest"
        found = json.loads(old.read_text())
        del found["sum"], found["subtasks"][2]["payload"]
        old.write_bytes(sealed(found))
        did([PROGRAM, "keep", "orders", *place_of(server, at)])
        assert json.loads(old.read_text())["subtasks"][2]["payload"] == b"alone".hex(), old.read_text()
        lose(server)
        # a payload that can't be one, with a sum that is right: there is no job then
        text = old.read_bytes()
        for wrong in ("0", "zz", "0 ", "00" * 4097):
            found["subtasks"][2]["payload"] = wrong
            old.write_bytes(sealed(found))
            did([PROGRAM, "recover", "orders", *place_of(server, at)], 1, f"record-{alone}.manifest has what can't be a payload")
        assert not Service(server.url).jobs()
        old.write_bytes(text)
        told = did([PROGRAM, "recover", "orders", *place_of(server, at)])
        assert record_of(told) == last and "2 other savepoints live on" in told, told
        assert whole(job, last) == wanted[last], whole(job, last)
        assert [job.file(it)["bytes"] for files, *_ in wanted[last].values() for it in files] == [4] * 3, job.state()
        living = [it["id"] for it in job.state()["live"] if it["kind"] == "savepoint"]
        assert [whole(job, it) for it in living] == [wanted[alone], wanted[ordered]], [whole(job, it) for it in living]
        # and once more, from a savepoint of payloads alone
        did([PROGRAM, "keep", "orders", *place_of(server, at)])
        lose(server)
        did([PROGRAM, "recover", "orders", "--record", str(living[0]), *place_of(server, at)])
        assert job.state()["choice"] == {"kind": "savepoint", "id": living[0]} and whole(job, living[0]) == wanted[alone], job.state()


def test_payloads_of_a_record_that_is_carried():
    """To another job of the service, to the durable coordinator, and from there back. Each has the payloads, the figures and the order of the files."""
    from relkvanu import Settings
    from relkvanu.store import Store

    with claimed([2, 1]) as (server, at, job, task):
        alone, ordered, last, wanted = with_payloads(at, job, task)
        for record in (alone, ordered, last):
            out, store, state = (at.parent / f"{record}-{it}" for it in ("out", "store.db", "store"))
            did([PROGRAM, "export", "orders", out, "--record", str(record), *place_of(server, at)])
            fits_the_schema((out / f"record-{record}.manifest").read_text())
            did([PROGRAM, "import", out, store, state])
            with Store(store, Settings(interval=SETTINGS["interval"], timeout=SETTINGS["timeout"], tolerable=1000, retained=2), [2, 1], storage=state,
                       manifests=True) as durable:
                found = {f"{it.vertex}.{it.index}": (list(it.files), it.payload, it.bytes or 0, it.millis or 0) for it in durable.load(record).parts}
            assert found == wanted[record], (record, found)
            for source, name in ((out, f"there-{record}"), (state, f"back-{record}")):
                did([PROGRAM, "import", source, name, *place_of(server, at.parent / name)])
                other = Service(server.url).job(name)
                assert whole(other, record) == wanted[record], (source, whole(other, record))


def test_a_job_over_a_bucket():
    """Its database is lost. Its record goes to a folder, to another bucket, and back."""
    from relkvanu.service_manifests import Manifests, service_bucket

    place = Bucket(None)
    s3, bucket, words = place.s3, place.bucket, place.words("", "")[-4:]
    for it in (os.environ, ENVIRONMENT):
        it.update(place.said)
    with served() as server:
        at = pathlib.Path(server.folder)
        job = Service(server.url).open("orders", SETTINGS, [TASKS])
        place.put(".relkvanu-orders", job.marker()[1].encode())
        task = job.begin().session(block=10)
        record, names = job.checkpoint()["id"], [task.name() for _ in range(TASKS)]
        for subtask, name in enumerate(names):
            place.put(f"s-{name}.bin", b"state %d" % name)
            task.ack(record, f"0.{subtask}", [name])
        manifests = Manifests(job, service_bucket("orders", bucket, "orders/s-", ".bin", s3))
        assert manifests.keep() == record
        there = ["--url", server.url, *words, "--bucket", bucket, "--suffix", ".bin", "--prefix"]
        did([PROGRAM, "export", "orders", at / "out", "--record", str(record), *there, "orders/s-"])
        did([PROGRAM, "export", "orders", f"s3://{bucket}/out", *there, "orders/s-"])
        assert {it: (at / "out" / str(it)).read_bytes() for it in names} == {it: b"state %d" % it for it in names}
        lose(server)
        assert record_of(did([PROGRAM, "recover", "orders", *there, "orders/s-"])) == record
        start = job.begin()
        assert start.files == {f"0.{it}": [name] for it, name in enumerate(names)} and start.session().name() > max(names), start.files
        for source, name in ((at / "out", "two"), (f"s3://{bucket}/out", "three")):
            did([PROGRAM, "import", source, name, *there, f"{name}/s-"])
            other = Service(server.url).open(name, SETTINGS, [TASKS])
            assert other.begin().files == start.files, other.state()
            found = {it["Key"] for it in s3.list_objects_v2(Bucket=bucket, Prefix=f"{name}/")["Contents"]}
            assert {f"{name}/s-{it}.bin" for it in names} | {f"{name}/.relkvanu-{name}"} < found and len(found) == TASKS + 2, found
        did([PROGRAM, "import", "--claim", f"s3://{bucket}/out", "four", *words, *place_of(server, at / "four")])
        assert "Contents" not in s3.list_objects_v2(Bucket=bucket, Prefix="out/")
        assert state_in(at / "four") == {it: f"state {it}" for it in names}
