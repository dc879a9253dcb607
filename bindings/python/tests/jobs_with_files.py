"""A job with names whose files tests sweep, in a folder (test_sweep.py) and in a bucket (s3.py), beside which sweepers run; and the marker of such a job of the service."""
import contextlib
import dataclasses
import threading
import time
from concurrent.futures import ThreadPoolExecutor

from relkvanu import Coordinator, Settings
from relkvanu.sweep import Swept, sweep

MARKER = "relkvanu discard deletes files of the job orders, opened at 1795000000000, from this folder.\n"


def job_with_files() -> Coordinator:
    """Names are given out from 5 on. Checkpoint 1 uses 5 and 6, a task holds 7, and 8 was given up. 9 was not given out."""
    job = Coordinator.open_fenced(Settings(interval=10), [1], 0, 1, 5)
    job.reserve(1, 4)
    job.tick(10)
    job.ack_in(1, 10, 1, 0, 0, [5, 6])
    job.forfeit(1, [8])
    return job


class SweepsAnyStorage:
    """Of a test that has the storage `files`, and take_place_away()."""

    def begin(self):
        self.job = job_with_files()
        self.addCleanup(self.job.close)
        for file in range(4, 10):
            self.files.put(file, b"x" * file)

    def left(self):
        return sorted(sum(self.files.pages(), []))

    def test_only_garbage_goes(self):
        """At first it tells what it would delete."""
        found = Swept(listed=6, garbage=2, garbage_bytes=4 + 8, unissued=1)
        self.assertEqual((sweep(self.files, self.job.garbage), self.left()), (found, [4, 5, 6, 7, 8, 9]))
        swept = sweep(self.files, self.job.garbage, delete=True)
        self.assertEqual((swept, self.left()), (dataclasses.replace(found, deleted=2), [5, 6, 7, 9]))
        self.job.restore(20)
        self.assertEqual((sweep(self.files, self.job.garbage, delete=True).deleted, self.left()), (1, [5, 6, 9]))

    def test_the_place_goes_while_it_sweeps(self):
        """Then nothing counts as deleted."""
        def ask(files):
            self.take_place_away()
            return self.job.garbage(files)

        swept = sweep(self.files, ask, delete=True)
        self.assertEqual((swept.deleted, sorted(swept.failed)), (0, [4, 8]))


def checkpoint(job, files, now, last):
    """Its task gives up now and then, dies with files that it has written, or acknowledges. Returns the files of the last checkpoint that is complete."""
    term = job.term().term
    names = list(job.reserve(term, 3))
    for name in names:
        files.put(name, b"state")
    triggered, turn = job.tick(now), now // 10 % 5
    if turn == 0:  # it gives up
        job.forfeit(term, names)
    elif turn == 1:  # it dies
        job.restore(now)
    else:
        job.ack_in(term, now, triggered.id, 0, 0, names)
        for file in job.take(100).files:
            files.delete([file])
            job.deleted(file)
        last = names
    for file in last:
        files.get(file)  # or it raises
    if turn == 0:
        job.decline_in(term, now, triggered.id, 0, 0)
        job.restore(now)
    return last


def run_beside_sweepers(test, job, files, checkpoints):
    """So many checkpoints of a new job with names, while two sweepers run. Each file of the last complete one is there after each. Returns its files, which are
    all that is left."""
    over, swept, faults, last = threading.Event(), [], [], []

    def sweeps():
        try:
            while not over.is_set():
                swept.append(sweep(files, job.garbage, delete=True))
                time.sleep(0.001)  # some thirty sweeps come within a checkpoint over a folder
        except BaseException as fault:
            faults.append(fault)

    with ThreadPoolExecutor(2) as sweepers, contextlib.ExitStack() as end:
        end.callback(over.set)
        for _ in range(2):
            sweepers.submit(sweeps)
        for nth in range(1, checkpoints + 1):
            last = checkpoint(job, files, 10 * nth, last)
            test.assertEqual(faults, [])
        until = time.monotonic() + 300
        while sum(it.deleted for it in swept) <= checkpoints / 3 and not faults and time.monotonic() < until:  # on a busy machine they may come late
            time.sleep(0.01)
    test.assertEqual(faults, [])
    job.restore(20 * checkpoints)
    test.assertEqual(sweep(files, job.garbage, delete=True).failed, {})
    test.assertGreater(sum(it.deleted for it in swept), checkpoints / 3, "the sweepers found what was left")
    return last
