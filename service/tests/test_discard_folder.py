"""`relkvanu clean` in a folder that goes away, and where it or the service is killed: it gives up no file that is there, and says what it waits for. And in what
order it syncs, deletes and reports: a loss of power between two of its calls must find what the next run needs."""
import contextlib
import json
import os
import re
import subprocess
import time

from harness import COMMAND, PROGRAM, SETTINGS, Server, Service, content, counts, folder, free_port, needed, save, served, small_disk, until
from postgres import postgres
from relkvanu_service import ack, dispose, savepoint
from test_clean import cleaning
from test_security import told_again, written


def files_of(job, folder, first, count, there=None):
    """Files that wait for deletion, of which some are in the folder."""
    record = job.call(savepoint())["id"]
    files = list(range(first, first + count))
    for file in files if there is None else there:
        save(f"{folder}/s-{file}", "state")
    job.calls([ack(record, "0.0", files), dispose(record)])
    return files


def present(folder):
    return sorted(int(name[2:]) for name in os.listdir(folder) if name.startswith("s-"))


def of_files(folder, prefix="s-"):
    """What a cleaner of the job's files has beside its addresses."""
    return "--only", "released", "--job", "a", "--folder", folder, "--prefix", prefix


def discard(server, folder, *more, prefix="s-", before=()):
    words = [PROGRAM, "clean", *of_files(folder, prefix), "--url", server.url, *more]
    return subprocess.Popen([*before, *words], stderr=subprocess.PIPE, text=True)


def await_end(run, status, text):
    told = run.communicate(timeout=COMMAND)[1]
    assert run.returncode == status and text in told, (run.returncode, told)
    return told


@contextlib.contextmanager
def at_work(server, folder, *more, **given):
    run = discard(server, folder, *more, **given)
    try:
        yield run
    finally:
        if run.poll() is None:
            run.kill()
        run.communicate()


@contextlib.contextmanager
def a_job():
    with served() as server:
        folder = f"{server.folder}/files"
        os.mkdir(folder)
        yield server, Service(server.url).open("a", SETTINGS, [1]), folder


def test_a_history_that_lags():
    """It can't tell whether files were deleted before: no marker is made, and nobody has to look. A later run goes on."""
    with postgres() as database, folder() as at:
        server, place = Server(at, database.url).start(), f"{at}/files"
        os.mkdir(place)
        job = Service(server.url).open("a", SETTINGS, [1])
        with database.locked("figure"):
            files = files_of(job, place, 100, 5)
            told = await_end(discard(server, place, "--once"), 1, "it can't tell yet whether files were deleted before")
            assert "has no file" not in told and present(place) == files and len(os.listdir(place)) == 5, told
        await_end(discard(server, place, "--once"), 0, "deleted=5")


def test_a_disk_that_goes():
    """Its mount is taken away lazily, while somebody holds it open: the discarder deletes there, and not in the mount point."""
    with a_job() as (server, job, _), small_disk(server.folder, "1m") as disk:
        with at_work(server, disk) as run:
            files_of(job, disk, 100, 2)
            until(lambda: counts(job) == (0, 0))
            for file in range(200, 220):
                save(f"{disk}/s-{file}", "")
            held = os.open(disk, os.O_RDONLY)
            subprocess.run(["umount", "--lazy", disk], check=True)
            files_of(job, disk, 200, 20, there=[])
            until(lambda: counts(job) == (0, 0))
            left = [name for name in os.listdir(held) if name.startswith("s-")]
            os.close(held)
            assert left == [] and run.poll() is None, left
            run.terminate()
        # the mount point has no marker
        await_end(discard(server, disk, "--once"), 78, ".relkvanu-a")


def test_it_survives_the_service():
    with a_job() as (server, job, folder), at_work(server, folder):
        files = []
        for first in range(1, 401, 100):
            files += files_of(job, folder, first, 80)
            server.again()
        # what is deleted is reported a moment later
        until(lambda: present(folder) == [] and counts(job) == (0, 0), 30)
        assert not [entry for entry in job.log() if entry["line"].startswith("take") and entry["answer"] == "take none"]
        twice = [entry["line"] for entry in job.log() if entry["line"].startswith("deleted")]
        assert len(twice) == len(set(twice)) == len(files)


def test_it_never_gives_up_by_itself():
    """There is no such job yet, and nobody at one of two addresses; then its token is refused. Its metrics, which alerts read, say that it waits, and what
    it did. (test_places.py has a service that is away.)"""
    token, other = "a" * 20, "b" * 20
    with served(tokens=[f"write {token}"]) as server:
        at, files = server.folder, f"{server.folder}/files"
        os.mkdir(files)
        written(f"{at}/token", token)
        with cleaning(server, *of_files(files), "--url", f"http://127.0.0.1:{free_port()}", "--token-file", f"{at}/token") as cleaner:
            time.sleep(1)
            job = Service(server.url, token=token).open("a", SETTINGS, [1])
            until(lambda: cleaner.works("a"))
            files_of(job, files, 100, 5, there=range(100, 103))
            until(lambda: counts(job) == (0, 0))
            for words, wanted in ((f"write {other}", False), (f"write {token}", True)):
                written(f"{at}/tokens", words)
                told_again(server)
                until(lambda wanted=wanted: cleaner.works("a") is wanted)
            files_of(job, files, 200, 5)
            os.mkdir(f"{files}/s-300")
            record = job.call(savepoint())["id"]
            job.calls([ack(record, "0.0", [300]), dispose(record)])
            until(lambda: cleaner.files("a", "failed") > 0)
            assert (cleaner.files("a"), cleaner.files("a", "absent")) == (8, 2), cleaner.metrics()
            assert time.time() - 600 < cleaner.metrics()['report_timestamp_seconds{job_name="a"}'] <= time.time(), cleaner.metrics()
            assert cleaner.process.poll() is None


def test_names_that_are_not_synced():
    """They are not written, and those before them stay."""
    needed("strace")
    with a_job() as (server, _, folder):
        await_end(discard(server, folder, "--once", "--init"), 0, "is marked")
        said = content(f"{folder}/.relkvanu-a.names")
        failing = ["strace", "-f", "-qq", "-o", "/dev/null", "-e", "trace=fsync", "-e", "inject=fsync:error=EIO:when=1"]
        await_end(discard(server, folder, "--once", "--init", prefix="t-", before=failing), 0, "how the files are named can't be written")
        assert content(f"{folder}/.relkvanu-a.names") == said
        await_end(discard(server, folder, "--once", "--init", prefix="t-"), 0, "")
        with open(f"{folder}/.relkvanu-a.names", encoding="utf-8") as it:
            assert json.load(it) == {"prefix": "t-", "suffix": ""}


CALLS = "trace=unlinkat,fsync,fdatasync,write,writev,sendto"


def traced(trace):
    """The words before a command whose calls are written to a file."""
    needed("strace")
    return ["strace", "-f", "-y", "-o", trace, "-e", CALLS]


def places(trace, synced):
    """The places in the order of time: of the deletions of files with the prefix, of the beginning and the end of each sync of a path that ends so, and of the
    reports to the service. Another thread may have a line between the two of a call."""
    deletions, syncs, reports, begun = [], [], [], {}
    for at, line in enumerate(content(trace).splitlines()):
        thread = line.split()[0]
        deletions += [at] if "unlinkat(" in line and '"s-' in line else []
        reports += [at] if "/calls" in line and deletions else []
        if re.search(rf"sync\(\d+<[^>]*{synced}>", line):
            begun[thread] = at
        if thread in begun and re.search(r"sync(\(.*| resumed>)\) += 0", line):
            syncs.append((begun.pop(thread), at))
    return deletions, syncs, reports


def test_what_is_deleted_is_listed_before():
    """The list of what is deleted is on the disk before the first of it goes. Otherwise the next run finds none of the files, and refuses. The folder is synced
    after the last one, and before the service is told."""
    with a_job() as (server, job, at):
        files_of(job, at, 100, 20)
        trace = f"{server.folder}/trace"
        await_end(discard(server, at, "--once", before=traced(trace)), 0, "deleted=20")
        deletions, listed, reports = places(trace, r"\.begun")
        assert len(deletions) == 20 and listed and listed[0][1] < deletions[0], (deletions[:1], listed)
        after = [ended for began, ended in places(trace, "/files")[1] if began > deletions[-1]]
        assert after and reports and after[0] < reports[0], (deletions[-1], after, reports)


def test_a_sweep_is_synced():
    """What `clean` has deleted does not come back."""
    with a_job() as (server, job, place):
        job.claim(place)
        old = job.begin().session(block=10)
        names = [old.name() for _ in range(6)]
        for name in names:
            save(f"{place}/s-{name}", "state")
        old.forfeit(names)
        trace = f"{server.folder}/trace"
        words = [PROGRAM, "clean", "--only", "garbage", "--once", "--job", "a", "--folder", place, "--url", server.url, "--within", "120", "--prefix", "s-"]
        run = subprocess.run([*traced(trace), *words], capture_output=True, text=True, timeout=COMMAND, check=False)
        deletions, syncs, _ = places(trace, "/files")
        assert run.returncode == 0 and len(deletions) == 6 and syncs and syncs[-1][0] > deletions[-1], (run, deletions, syncs)
