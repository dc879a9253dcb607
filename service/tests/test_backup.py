"""`relkvanu backup` copies an SQLite database while a service commits to it, makes images and cuts its log. A backup that
is restored: which records have all their files, which files nobody knows, and the page's commands for PostgreSQL."""
import json
import os
import signal
import sqlite3
import subprocess
import threading
import time
from contextlib import contextmanager

from harness import (
    COMMAND, PROGRAM, SETTINGS, Archive, Server, Service, beside, caught_up, check_log, content, folder, folders, how_ended, over_copy, raised, save,
    served, served_job, told_by, until
)
from postgres import postgres
from relkvanu_service import ack, savepoint
from writers import check_kept

MEGABYTES = int(os.environ.get("RELKVANU_BACKUP_MB", "64"))
TRIES = 50  # on a busy machine the moment may be missed


def backup(database, copy, status=0):
    words = [PROGRAM, "backup", "--database", database, "--to", copy]
    told = subprocess.run(words, stderr=subprocess.PIPE, text=True, timeout=COMMAND, check=False)
    assert told.returncode == status, told
    return told.stderr


def filled(server):
    """A job, in a database of this many megabytes."""
    Service(server.url).open("orders", SETTINGS, [1], 0)
    server.stop()
    with sqlite3.connect(server.database) as base:
        at = int(time.time() * 1000)
        base.executemany("insert into request values(1, ?, ?, 'd', ?)", ((f"f{i}", at, "x" * 1_000_000) for i in range(MEGABYTES)))
    base.close()
    server.start()
    return Service(server.url).job("orders")


def load(job, over, times):
    """Commits one call after the other, until it is over."""
    while not over.is_set():
        asked = time.monotonic()
        job.call({"call": "savepoint"})
        times.append(time.monotonic() - asked)


def test_a_backup_under_load():
    with served(args=["--image-calls", "20", "--keep-calls", "30"]) as server:
        job, archive = filled(server), Archive(server.database)
        over, times = threading.Event(), []
        loading = beside(load, job, over, times)
        copy = f"{server.folder}/copy.db"
        until(lambda: job.state()["first"] > 50)
        for _ in range(TRIES):
            first, started = job.state()["seq"], time.monotonic()
            told = backup(server.database, copy)
            took, last = time.monotonic() - started, job.state()["seq"]
            if last > first:
                break
            os.remove(copy)  # a busy machine made no commit beside it
        over.set()
        loading.join()
        assert "bytes=" in told and last > first and os.stat(copy).st_mode & 0o777 == 0o600, (told, first, last)
        assert not os.path.exists(f"{copy}.part") and not os.path.exists(f"{copy}-wal")
        whole = archive.log("orders")
        with folder() as at:
            with over_copy(Server(at, database=copy)) as (state, log):
                assert first <= state["seq"] <= last and state["first"] > 50, (first, state, last)
                check_log(state, [1], check_kept(whole[: state["seq"]], log, state["first"]))
        return f"{MEGABYTES} MB in {took:.1f} s beside {last - first} commits, of which the slowest took {max(times) * 1000:.0f} ms"


def has_bytes(path):
    try:
        return os.path.getsize(path) > 0
    except FileNotFoundError:
        return False


def suspended_backup(database, copy):
    """A backup that is suspended while it writes."""
    for _ in range(TRIES):
        process = subprocess.Popen([PROGRAM, "backup", "--database", database, "--to", copy], stderr=subprocess.DEVNULL)
        while not has_bytes(f"{copy}.part") and process.poll() is None:
            pass
        process.send_signal(signal.SIGSTOP)
        if process.returncode is None:  # until it stands still, or has ended
            os.waitid(os.P_PID, process.pid, os.WSTOPPED | os.WEXITED | os.WNOWAIT)
        if process.poll() is None and os.path.exists(f"{copy}.part"):
            return process
        process.kill()  # this process came too late, on a busy machine
        process.wait()
        os.remove(copy)
    raise AssertionError("the backup ends before it can be suspended")


def test_what_is_no_backup():
    with served() as server:
        job, copy = filled(server), f"{server.folder}/copy.db"
        save(f"{server.folder}/there", "mine")
        assert "is there already" in backup(server.database, f"{server.folder}/there", 1)
        assert "pg_dump" in backup("postgres://x@127.0.0.1/x", copy, 1)
        assert "none.db" in backup(f"{server.folder}/none.db", copy, 1)
        sqlite3.connect(f"{server.folder}/other.db").executescript("create table t(x)")
        assert "no database of a service" in backup(f"{server.folder}/other.db", copy, 1)
        assert not os.path.exists(copy) and not os.path.exists(f"{copy}.part") and not os.path.exists(f"{server.folder}/none.db")
        # one that is killed is no copy, keeps another one out while it lives, and is in the way of no later one
        process = suspended_backup(server.database, copy)
        assert "another backup writes it" in backup(server.database, copy, 1)
        process.kill()
        process.wait()
        assert not os.path.exists(copy), "the backup ended before it was killed"
        backup(server.database, copy)
        assert os.path.getsize(copy) > MEGABYTES * 1_000_000 and job.state()["seq"] == 1
        assert content(f"{server.folder}/there") == "mine"


def write(folder, *files):
    for file in files:
        with open(f"{folder}/s-{file}.bin", "wb") as it:
            it.write(b"state")


@contextmanager
def claimed(shape, reserved=0, **settings):
    """A service, and a job with its folder."""
    with served_job("orders", {**SETTINGS, **settings}, shape, reserved) as (server, job):
        folders(server.folder, "files")
        job.claim(f"{server.folder}/files")
        yield server, job, f"{server.folder}/files"


def test_files_of_another_length():
    """Than their tasks have said: they are lost. One of which nobody said its bytes is not compared."""
    with claimed([2], 500) as (server, job, files):
        write(files, 1, 2, 3)
        job.calls([savepoint(), ack(1, "0.0", [1, 2], sizes=[5, 5]), ack(1, "0.1", [3])])
        job.calls([savepoint(), ack(2, "0.0", [], [1, 3]), ack(2, "0.1", [], [1])])
        caught_up(job)

        def absent():
            status, told, _ = told_by("savepoints", "orders", "--folder", files, "--prefix", "s-", "--suffix", ".bin", "--url", server.url, "--json")
            return status, {row["id"]: row["absent"] for row in json.loads(told)}

        assert absent() == (0, {1: [], 2: []})
        for length in (4, 6):
            os.truncate(f"{files}/s-2.bin", length)
            assert absent() == (0, {1: ["2"], 2: []}), absent()
        os.truncate(f"{files}/s-1.bin", 4)
        os.truncate(f"{files}/s-3.bin", 0)
        assert absent() == (1, {1: ["1", "2"], 2: ["1"]}), absent()


def test_a_restore_by_number_looks_first():
    """Whether the record has all its files, since all records behind it go. If it has not, or nobody says where they are, nothing changes."""
    with claimed([1], retained=3) as (server, job, files):
        session, numbers = job.begin().session(), []
        for _ in range(3):
            name, id = session.name(), job.checkpoint()["id"]
            write(files, name)
            session.ack(id, "0.0", fresh=[name], sizes=[5])
            numbers.append(id)
        name, saved = session.name(), job.call(savepoint())["id"]
        write(files, name)
        session.ack(saved, "0.0", fresh=[name], sizes=[5])
        at = ["--folder", files, "--prefix", "s-", "--suffix", ".bin"]
        os.remove(f"{files}/s-1.bin")
        os.truncate(f"{files}/s-{name}.bin", 4)
        rows, choice = server.ask_json("savepoints", "orders", *at), job.state()["choice"]["id"]
        assert {row["id"]: row["absent"] for row in rows} == {numbers[0]: ["1"], numbers[1]: [], numbers[2]: [], saved: [str(name)]}, rows
        assert [(row["kind"], row["files"], row["latest"]) for row in rows] == [("savepoint" if row["id"] == saved else "checkpoint", 1, row["id"] == choice) for row in rows], rows
        assert "No such file" in server.ask("savepoints", "orders", "--folder", f"{files}/none", status=78)
        before = job.state()
        for words, file in ((["--checkpoint", numbers[0], "--accept-published"], 1), (["--savepoint", saved], name)):
            told = server.ask("restore", "orders", *words, *at, status=1)
            assert "nothing has changed" in told and told.rstrip().endswith(f": {file}"), told
            assert "nothing has changed" in server.ask("restore", "orders", *words, status=2)
        after = job.state()
        assert (after["seq"], after["live"], after["files"]) == (before["seq"], before["live"], before["files"]), after
        with open(f"{files}/{name}", "wb") as it:
            it.write(b"stat")
        why = raised(FileNotFoundError, lambda: job.begin(saved, folder=files))
        assert "it has 4 bytes" in str(why) and job.state()["seq"] == before["seq"], why
        assert "the job begins again" in server.ask("restore", "orders", "--checkpoint", numbers[1], "--accept-published", *at)
        assert [one["kind"] for one in job.state()["live"] if one["done"]] == ["savepoint", "savepoint"]


def test_a_job_goes_on_from_a_backup():
    """Above its terms and names, from the last record that has all its files, none too short; also if the command is given again."""
    with claimed([1]) as (server, job, files):
        words = ["restore", "orders", "--from-backup", "--folder", files, "--prefix", "s-", "--suffix", ".bin"]
        start = job.begin()
        session = start.session()
        names = [session.name() for _ in range(3)]
        for number, file in enumerate(names[:3], 1):
            job.calls([savepoint(), ack(number, "0.0", [file], sizes=[5], term=session.term)])
        caught_up(job)
        write(files, names[0], names[1], names[2])
        os.truncate(f"{files}/s-{names[2]}.bin", 4)
        for _ in range(2):
            before = job.term()
            told = told_by(*words, "--url", server.url)
            assert told[0] == 0, told
            after = job.term()
            assert after["term"] > before["term"] + (1 << 32) - 1 and int(after["next_name"]) >= int(before["next_name"]) + (1 << 40), (before, after)
            assert job.state()["choice"]["id"] == 2, job.state()["choice"]
        for name in names[:2]:
            os.remove(f"{files}/s-{name}.bin")
        term = job.term()
        assert "no such record has all its files in the folder" in server.ask(*words, status=1) and job.term() == term


def test_a_dump_is_restored():
    with postgres() as database, folder() as at:
        database.sql("create role relkvanu login")
        database.sql("create database relkvanu owner relkvanu")
        os.symlink(PROGRAM, f"{at}/relkvanu")
        environment = {
            **os.environ, "PGHOST": "127.0.0.1", "PGPORT": str(database.port), "PGUSER": "postgres", "PATH": f"{at}:{database.bin}:{os.environ['PATH']}",
        }

        def run(text, status=0):
            told = subprocess.run(["bash", "-euc", text], cwd=at, env=environment, stdout=subprocess.PIPE, stderr=subprocess.STDOUT, text=True, check=False)
            assert told.returncode == status, told.stdout
            return told.stdout

        url = f"postgres://relkvanu@127.0.0.1:{database.port}/relkvanu"
        server = Server(at, url).start()
        job = Service(server.url).open("orders", SETTINGS, [1])
        job.call(savepoint())
        run(f"relkvanu backup --database {url} --to copy.dump")
        assert "is there already" in run(f"relkvanu backup --database {url} --to copy.dump", status=1)
        before = job.state()
        job.call(ack(1, "0.0", [1]))
        server.stop()
        run(f"relkvanu put-back copy.dump --database {url}")
        server.args.append("--accept-clock")
        server.start()
        after = job.state()
        assert (after["seq"], after["live"]) == (before["seq"], before["live"]), after
        # the history of the calls that are gone is made anew
        job.call(ack(1, "0.0", [2]))
        until(lambda: how_ended(job.record(1)) == "completed" and not job.file(1)["history"])
        server.stop()
        run(f"relkvanu put-back --back --database {url}")
        server.start()
        assert job.state()["seq"] == 4
        until(lambda: job.file(1)["history"])
