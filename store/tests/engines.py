"""What the tests of the engines of the pages (durable.c, stored.py) share: what the coordinator knows of a job, what its folder has, waits for a process, and
a run that goes on to a checkpoint."""
import os
import pathlib
import subprocess
import tempfile
import time

from relkvanu import Settings
from relkvanu.store import Store

TASKS = 3
MARKER = ".relkvanu-job"
SEED = os.environ.get("SEED", str(time.time()))
NEW = "new"  # makes the job, if there is none
LONGEST = 600  # seconds of a process, on a busy machine


def known(folder):
    """The files in use, those that wait, those that are taken, and the number of the last record."""
    with Store(folder / "job.db", Settings(interval=10), [TASKS], storage=folder / "state") as job, job.read() as reads:
        used, place, last = set(), 0, 0
        while (live := reads.live(place)) is not None:
            place, last = place + 1, live.id
            used.update(reads.pins_of(live.id))
            for index in range(TASKS):
                used.update(reads.files_of(live.id, 0, index) or ())
        counts = reads.file_counts()
        assert counts.in_use == len(used), (counts, used)
        waiting, taken = {reads.waiting_file(it) for it in range(counts.waiting)}, set(reads.taken_files())
    return used, waiting, taken, last


def listed(folder):
    """A part of a file counts as the file. Manifests are beside them."""
    return {int(it.partition(".part")[0]) for it in os.listdir(folder / "state") if not it.startswith((MARKER, "record-"))}


def await_opening(folder, process):
    """Waits until the process has the lock of the job."""
    lock, end = folder / "job.db.lock", time.monotonic() + LONGEST
    while process.poll() is None and time.monotonic() < end and not (lock.exists() and lock.read_text().startswith(f"{process.pid}\n")):
        time.sleep(0.001)


def recovers(folder, command, last):
    """The engine goes on up to this checkpoint. Returns the files in use."""
    ran = subprocess.run([*command, folder, str(last), NEW], stderr=subprocess.PIPE, text=True, timeout=LONGEST)
    assert ran.returncode == 0, ran.stderr
    used, waiting, taken, _ = known(folder)
    assert not taken, f"nobody deletes {taken}"  # what a process took that was killed, too
    assert listed(folder) == used | waiting and len(used) >= TASKS, (listed(folder), used, waiting)
    return used


def places_of(count, chance, most):
    """The calls that write at which a command ends, before or after each: all that the file `count` counts, or so many."""
    places = [(place, after) for place in range(1, int(count.read_text()) + 1) for after in ("0", "1")]
    return places if most == 0 else sorted(chance.sample(places, min(most, len(places))))


def run_tests(tests, made):
    """Runs each test over what `made` makes of a new folder. The last line has the counts."""
    failed = 0
    for test in tests:
        with tempfile.TemporaryDirectory() as name:
            try:
                test(made(pathlib.Path(name)))
            except AssertionError as wrong:
                print(f"{test.__name__}: {wrong}")
                failed += 1
    print(f"{len(tests) - failed} passed, {failed} failed")
    return failed != 0
