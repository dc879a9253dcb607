"""`relkvanu clean` over all jobs of a service: it finds them by itself, deletes what is released and what is garbage, and nothing else, whatever ends it."""
import os
import re
import socket
import subprocess
import threading
import time
from contextlib import closing, contextmanager

from places import Bucket, Folder, around, metrics_of
from preloaded import SHIM, built, shim
from proxy import Proxy
from harness import COMMAND, PROGRAM, SETTINGS, content, counts, folder, free_port, served, until
from relkvanu_service import Service, cancel, dispose, savepoint
from run import Skipped


class Cleaner:
    """A cleaner of all jobs, and what its metrics say."""

    def __init__(self, server, *more, prefix=(), place=None):
        self.port = free_port()
        words = [PROGRAM, "clean", "--url", server.url, "--metrics", f"127.0.0.1:{self.port}", *more]
        self.log_path = f"{server.folder}/cleaner-{self.port}"
        with open(self.log_path, "wb") as log:
            self.process = subprocess.Popen([*prefix, *words], env=around(place), stdout=log, stderr=log)

    def metrics(self):
        return {key.removeprefix("relkvanu_clean_"): value for key, value in metrics_of(self.port).items()}

    def reason(self, job):
        """Why a job is not cleaned; None: it is, or it is not known."""
        found = [re.search(r'reason="(\w+)"', key) for key in self.metrics() if key.startswith(f'stopped{{job_name="{job}"')]
        return found[0][1] if found else None

    def works(self, job):
        """None: it does not say."""
        found = self.metrics().get(f'works{{job_name="{job}"}}')
        return found if found is None else found == 1

    def files(self, job, outcome="deleted", kind="released"):
        """How many of its files had this outcome."""
        return self.metrics().get(f'files_total{{job_name="{job}",kind="{kind}",outcome="{outcome}"}}', 0)

    def log(self):
        return content(self.log_path)

    def end(self):
        if self.process.poll() is None:
            self.process.kill()
        self.process.wait()


@contextmanager
def cleaning(server, *more, **given):
    cleaner = Cleaner(server, *more, **given)
    try:
        yield cleaner
    finally:
        cleaner.end()


def opened(server, name, place, prefix):
    """A job that says where its files are."""
    return Service(server.url).open(name, SETTINGS, [1], storage=place.storage(prefix))


def worked(job, place, prefix, count=2):
    """So many files that wait for deletion, one in use, and one that nobody will ever use. Returns the names of all."""
    task = job.begin().session(block=count + 2)
    names = [task.name() for _ in range(count + 2)]
    for name in names:
        place.put(f"{prefix}{name}", b"state")
    first = job.call(savepoint())["id"]
    task.ack(first, "0.0", names[:count])
    task.ack(job.call(savepoint())["id"], "0.0", names[count:count + 1])
    job.call(dispose(first))
    task.forfeit(names[count + 1:])
    return [f"{prefix}{name}" for name in names]


def of(place, prefix):
    return sorted(name for name in place.names() if name.startswith(prefix))


def kept(job, place, prefix, names, count=2):
    """Whether of all files the one in use alone is there, and nothing is left to report."""
    return of(place, prefix) == names[count:count + 1] and counts(job) == (0, 0)


def new_folder(server, name):
    os.mkdir(f"{server.folder}/{name}")
    return Folder(f"{server.folder}/{name}")


def all_jobs(server):
    """Jobs in a folder and in a bucket, alone and together; then one that comes later, one that moves, and one that is deleted."""
    kinds, prefixes = [("shared", new_folder(server, "shared")), ("own", new_folder(server, "own"))], ("a-", "b-")
    try:
        kinds.append(("bucket", Bucket(None)))
    except Skipped as why:
        print(f"without a bucket: {why}")
    jobs = {}
    for kind, place in kinds:
        for prefix in prefixes if kind != "own" else prefixes[:1]:
            name = f"{kind}-{prefix}x"
            jobs[name] = (opened(server, name, place, prefix), place, prefix)
    names = {name: worked(*it) for name, it in jobs.items()}
    silent = Service(server.url).open("silent", SETTINGS, [1])
    with cleaning(server, "--every", "1s", place=kinds[-1][1]) as cleaner:
        for name, it in jobs.items():
            until(lambda it=it, name=name: kept(*it, names[name]), told=cleaner.log)
        until(lambda: cleaner.reason("silent") == "no_storage")
        # a job that comes later
        later = (opened(server, "later", kinds[0][1], "c-"), kinds[0][1], "c-")
        all_of = worked(*later)
        until(lambda: kept(*later, all_of), told=cleaner.log)
        # (the figures are counted once the service has answered the report)
        until(lambda: cleaner.files("later") == 2 and cleaner.files("later", kind="garbage") == 1, told=cleaner.log)
        # one that is told later where its files are
        place = new_folder(server, "told")
        all_of = worked(silent, place, "s-")
        silent.set_storage(place.storage("s-"))
        until(lambda: kept(silent, place, "s-", all_of), told=cleaner.log)
        until(lambda: cleaner.reason("silent") is None and cleaner.works("silent"), told=cleaner.log)
        # one that is deleted: nothing is told of it any more
        later[0].calls([dispose(it["id"]) for it in later[0].state()["live"]])
        later[0].call(cancel())
        until(lambda: not of(later[1], "c-") and counts(later[0]) == (0, 0))
        assert Service(server.url).delete("later")
        until(lambda: not [key for key in cleaner.metrics() if '"later"' in key])
        assert cleaner.metrics()["threads"] <= 40 and cleaner.process.poll() is None


def test_all_jobs():
    with served() as server:
        return all_jobs(server)


def test_storages_that_are_wrong():
    """Each is refused with its reason, and the others go on. Once the storage is right, its job is cleaned."""
    with served() as server:
        right = new_folder(server, "right")
        good = (opened(server, "good", right, "s-"), right, "s-")
        foreign, marked = new_folder(server, "foreign"), new_folder(server, "marked")
        other = opened(server, "other", foreign, "s-")
        name, text = other.marker()
        foreign.put(name, text.replace("opened at ", "opened at 9").encode())
        twin = opened(server, "twin", marked, "t-")
        marked.put(".relkvanu-else", b"")
        marked.put(".relkvanu-else.names", b'{"prefix": "t-", "suffix": ""}')
        gone = new_folder(server, "gone")
        away = opened(server, "away", gone, "s-")
        wrong = {"other": (other, foreign, "s-"), "twin": (twin, marked, "t-"), "away": (away, gone, "s-")}
        names = {job: worked(*it) for job, it in wrong.items()}
        os.rename(gone.path, f"{gone.path}-aside")
        with cleaning(server, "--every", "1s") as cleaner:
            for job, reason in (("other", "other_marker"), ("twin", "names"), ("away", "storage")):
                until(lambda job=job, reason=reason: cleaner.reason(job) == reason, told=cleaner.log)
            all_of = worked(*good)
            until(lambda: kept(*good, all_of), told=cleaner.log)
            assert len(of(foreign, "s-")) == len(of(marked, "t-")) == 4 and not cleaner.works("other")
            os.rename(f"{gone.path}-aside", gone.path)
            foreign.put(name, text.encode())
            marked.remove(".relkvanu-else")
            marked.remove(".relkvanu-else.names")
            for job, it in wrong.items():
                until(lambda job=job, it=it: kept(*it, names[job]) and cleaner.works(job), seconds=60, told=cleaner.log)


class Keys:
    """What a client of S3 wants to know before it asks a server."""

    said = {"AWS_ACCESS_KEY_ID": "some", "AWS_SECRET_ACCESS_KEY": "some"}


def test_a_storage_that_hangs_holds_up_no_other():
    """Three jobs hang on a file system, each at a FIFO, and one on a server that gives no answer. All others are cleaned, on that file system too."""
    with served() as server, closing(socket.create_server(("127.0.0.1", 0))) as stalled:
        def made(name):
            place = new_folder(server, name)
            return opened(server, name, place, "s-"), place, "s-"

        hang = [made(f"hangs-{number}") for number in range(3)]
        fifos = [f"{place.path}/.relkvanu-{job.name}.names" for job, place, _ in hang]
        hanging = [(it, worked(*it)) for it in hang]
        for fifo in fifos:
            os.mkfifo(fifo)
        stalls = {"bucket": "states", "prefix": "s-", "endpoint": f"http://127.0.0.1:{stalled.getsockname()[1]}", "region": "x"}
        Service(server.url).open("stalls", SETTINGS, [1], storage=stalls)
        good = [made(f"good-{number}") for number in range(12)]
        with cleaning(server, "--every", "1s", place=Keys) as cleaner:
            time.sleep(3)
            for it in good:
                all_of = worked(*it)
                until(lambda it=it, all_of=all_of: kept(*it, all_of), told=cleaner.log)
            until(lambda: cleaner.reason("hangs-0") == "hangs", seconds=60, told=cleaner.log)
            assert all(of(place, "s-") == names for (_, place, _), names in hanging) and cleaner.metrics()["threads"] >= 4
            for fifo in fifos:  # the file system answers again
                end = os.open(fifo, os.O_RDWR)
                os.remove(fifo)
                os.close(end)
            for it, names in hanging:
                until(lambda it=it, names=names: kept(*it, names), seconds=60, told=cleaner.log)


def test_two_cleaners_at_once():
    """They take turns: each file is reported once, and none in use goes."""
    with served() as server:
        place = new_folder(server, "shared")
        jobs = [(opened(server, f"job-{number}", place, f"s{number}-"), f"s{number}-") for number in range(4)]
        with cleaning(server, "--every", "1s") as one, cleaning(server, "--every", "1s") as other:
            for _ in range(5):
                names = [worked(job, place, prefix) for job, prefix in jobs]
                for (job, prefix), all_of in zip(jobs, names):
                    until(lambda job=job, prefix=prefix, all_of=all_of: counts(job) == (0, 0) and all_of[2] in of(place, prefix), told=one.log)
            for job, prefix in jobs:
                until(lambda job=job, prefix=prefix: len(of(place, prefix)) == 5, told=lambda: one.log() + other.log())
                lines = [entry["line"] for entry in job.log() if entry["line"].startswith("deleted ")]
                assert len(lines) == len(set(lines)) == 10, lines
            assert one.process.poll() is None and other.process.poll() is None
            # the second goes on alone
            one.end()
            names = worked(jobs[0][0], place, "s0-")
            until(lambda: counts(jobs[0][0]) == (0, 0) and names[3] not in of(place, "s0-"), seconds=90, told=other.log)


def test_a_cleaner_that_is_ended_at_each_write():
    """Each of its calls that write, and the next one goes on, also if all that were taken are deleted, and none is reported."""
    with served() as server, folder() as at:
        place, library, die, over = new_folder(server, "files"), built(at, SHIM), 0, 0
        while over < 2:
            die, prefix = die + 1, f"s{die + 1}-"
            job = opened(server, f"a-{die}", place, prefix)
            names = worked(job, place, prefix)
            words = [PROGRAM, "clean", "--once", "--job", job.name, "--url", server.url]
            ended = subprocess.run([*shim(library, place.path, raw=1, die=die), *words], capture_output=True, text=True, timeout=COMMAND, check=False)
            assert names[2] in of(place, prefix), die
            told = subprocess.run(words, capture_output=True, text=True, timeout=COMMAND, check=False)
            assert told.returncode == 0 and kept(job, place, prefix, names), (die, told.stderr, of(place, prefix), counts(job))
            over += ended.returncode == 0
            assert die < 60, "it does not end"
        assert die > 8, die
        return f"{die} trials"


def test_a_job_that_is_deleted_in_between():
    """Between a take and the deletion somebody deletes the job, and opens another one of its name. None of its files is deleted by the old marker."""
    with served() as server:
        place = new_folder(server, "files")
        job, changed = opened(server, "a", place, "s-"), threading.Event()
        names = worked(job, place, "s-")
        state = []

        def fate(_, body):
            if b'"take"' in body:
                state.append("taken")
            elif state == ["taken"] and not body:
                state.append("changed")
                service = Service(server.url)
                service.job("a").call(cancel())
                assert service.delete("a", abandon=True)
                opened(server, "a", place, "s-")
                changed.set()

        proxy = Proxy(server, fate)
        run = subprocess.run([PROGRAM, "clean", "--once", "--only", "released", "--job", "a", "--folder", place.path, "--prefix", "s-", "--url", proxy.url],
                             capture_output=True, text=True, timeout=COMMAND, check=False)
        proxy.http.shutdown()
        assert changed.is_set() and run.returncode in (1, 78), (state, run)
        assert "was deleted, and opened anew" in run.stderr and of(place, "s-") == names, (run.stderr, of(place, "s-"))


def test_inside_the_service():
    """The service runs the cleaner, which ends with it."""
    port = free_port()
    config = f'[clean]\nrun = true\noptions = ["--every", "1s", "--metrics", "127.0.0.1:{port}"]\n'
    with served(config, tokens=[f"read {'r' * 20}", f"write {'w' * 20}"]) as server:
        place = Folder(server.folder)
        job = Service(server.url, token="w" * 20).open("a", SETTINGS, [1], storage=place.storage("s-"))
        names = worked(job, place, "s-")
        until(lambda: kept(job, place, "s-", names), told=server.log)

        def serves():
            with closing(socket.socket()) as it:
                return it.connect_ex(("127.0.0.1", port)) == 0

        assert serves()
        server.kill()
        until(lambda: not serves())
        server.start()
        names = worked(job, place, "s-")
        until(lambda: counts(job) == (0, 0) and serves(), told=server.log)
        server.stop()
        until(lambda: not serves())
