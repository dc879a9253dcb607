"""The discarder's threads, and what a timer waits for."""
import os
import threading
import time
import unittest
from unittest import mock

from relkvanu import Cancelled, Closed, Coordinator, Discarded, Discarder, FileCounts, HeldAtOnce, Patience, Refused, Settings, Taken, Triggered, version

SETTINGS = Settings(interval=1000, timeout=5000)
QUICK = Patience(batch=4, attempts=3, first_wait=0.001, longest_wait=0.004, idle=0.001)


def cancelled(test):
    """A cancelled job: its files 1 to 20 wait for deletion."""
    job = Coordinator(SETTINGS, [1], 0)
    job.tick(1000)
    job.ack(1000, 1, 0, 0, range(1, 21))
    test.assertEqual(job.cancel(1000), Cancelled(dropped=1, released=20))
    return job


def wait_for(condition):
    end = time.monotonic() + float(os.environ.get("RELKVANU_LONGEST", "300"))
    while not condition():
        assert time.monotonic() < end, "what is waited for does not come"
        time.sleep(0.001)


def denied(file):
    raise PermissionError


class Discarding(unittest.TestCase):
    def test_it_deletes_retries_and_gives_up(self):
        tries = []

        def delete(file):
            tries.append(file)
            if file == 1 or (file == 2 and tries.count(2) <= 2):
                raise PermissionError
            if file == 3:
                raise FileNotFoundError

        with cancelled(self) as job:
            discarder = Discarder(job, delete, QUICK)
            wait_for(lambda: discarder.told() == Discarded(19, 5, (1,)))
            self.assertEqual(job.file_counts(), FileCounts(0, 0, 1), "it is not tried for ever")
            self.assertEqual(discarder.stop(), Discarded(19, 5, (1,)))
            self.assertEqual(job.file_counts(), FileCounts(0, 1, 0), "the next one may try it")
            self.assertEqual(sorted(tries), sorted([*range(1, 21), 1, 1, 2, 2]))

    def test_one_that_is_stopped_leaves_no_file_taken(self):
        with cancelled(self) as job:
            with Discarder(job, denied, Patience(batch=4, attempts=3, first_wait=3600)) as discarder:
                wait_for(lambda: discarder.told().failed == 8)
                self.assertEqual(job.file_counts(), FileCounts(0, 12, 8))
            self.assertEqual(job.file_counts(), FileCounts(0, 20, 0))

    def test_a_fault_of_its_caller_leaves_no_file_taken(self):
        def fails(file):
            if file in (3, 7):
                raise KeyError(file)

        with mock.patch.object(threading, "excepthook"), cancelled(self) as job, Discarder(job, fails, QUICK) as discarder:
            # 1 and 2 of the first four, then 5 and 6 of the next: both threads have ended, and what they had waits
            wait_for(lambda: discarder.told().deleted == 4 and job.file_counts() == FileCounts(0, 16, 0))

    def test_a_delete_that_fails_for_ever_is_given_up_and_told(self):
        """Each file waits again, once, but for one that somebody else has reported."""
        with cancelled(self) as job:
            discarder = Discarder(job, denied, QUICK)
            wait_for(lambda: len(discarder.told().given_up) == 20)
            self.assertEqual(job.file_counts(), FileCounts(0, 0, 20))
            job.deleted(1)  # by hand
            told = discarder.stop()
            self.assertEqual((told.deleted, told.failed, sorted(told.given_up)), (0, 60, [*range(1, 21)]))
            self.assertEqual((discarder.stop(), discarder.told()), (told, told))
            self.assertEqual(job.file_counts(), FileCounts(0, 19, 0))
            with Discarder(job, lambda file: None, QUICK) as discarder:
                wait_for(lambda: discarder.told() == Discarded(19, 0, ()))
            self.assertEqual(job.file_counts(), FileCounts(0, 0, 0))

    def test_no_file_is_given_up_by_default(self):
        tries = []

        def delete(file):
            tries.append(file)
            if len(tries) <= 500:
                raise PermissionError

        with cancelled(self) as job, Discarder(job, delete, Patience(batch=4, first_wait=0.001, longest_wait=0.002, idle=0.001)) as discarder:
            wait_for(lambda: discarder.told() == Discarded(20, 500, ()))
            self.assertEqual(job.file_counts(), FileCounts(0, 0, 0))

    def test_a_file_that_cannot_be_deleted_keeps_no_other_waiting(self):
        def delete(file):
            if file <= 3:
                raise PermissionError

        with cancelled(self) as job:
            with Discarder(job, delete, Patience(threads=1, batch=2, first_wait=0.001, longest_wait=0.002, idle=0.001)) as discarder:
                wait_for(lambda: discarder.told().deleted == 17 and discarder.told().failed > 100)
            self.assertEqual(job.file_counts(), FileCounts(0, 3, 0))

    def test_a_coordinator_that_is_closed_first_ends_the_threads(self):
        is_deleting, is_closed = threading.Event(), threading.Event()

        def delete(file):
            is_deleting.set()
            is_closed.wait(300)
            raise PermissionError

        job = cancelled(self)
        with mock.patch.object(threading, "excepthook") as fault, Discarder(job, delete, QUICK):
            self.assertTrue(is_deleting.wait(300))
            job.close()
            is_closed.set()
        self.assertRaises(Closed, job.take, 1)
        fault.assert_not_called()

    def test_patience_has_limits(self):
        self.assertRaises(ValueError, Patience, attempts=0)
        self.assertRaises(ValueError, Patience, idle=-1)


class Box:
    """Hands out one file, again each time that it is given back."""

    def __init__(self):
        self.files, self.given_back = [1], 0

    def take(self, most):
        files, self.files = tuple(self.files[:most]), []
        return Taken(files)

    def deleted(self, file):
        raise AssertionError("nothing is deleted")

    def undeleted(self, file):
        self.files, self.given_back = [file], self.given_back + 1


class Retrying(unittest.TestCase):
    def tries(self, number, patience):
        """The moments of so many attempts at a file that can't be deleted, each with how often it was given back before."""
        box, tries = Box(), []

        def delete(_file):
            tries.append((time.monotonic(), box.given_back))
            raise PermissionError

        with Discarder(box, delete, patience):
            wait_for(lambda: len(tries) >= number)
        return tries[:number]

    def test_waits_double(self):
        """A busy machine only makes them longer."""
        moments = [it for it, _ in self.tries(5, Patience(threads=1, first_wait=0.1))]
        for at, (before, after) in enumerate(zip(moments, moments[1:])):
            self.assertGreaterEqual(after - before, 0.099 * 2**at)

    def test_a_file_is_given_back_after_its_longest_wait(self):
        """So it is tried twice also without a wait."""
        tries = self.tries(4, Patience(threads=1, longest_wait=0, first_wait=0, idle=0.01))
        self.assertEqual([given_back for _, given_back in tries], [0, 0, 1, 1])


class Waiting(unittest.TestCase):
    def test_the_next_tick_is_when_something_can_happen(self):
        with Coordinator(SETTINGS, [1], 0) as job:
            self.assertEqual(job.next_tick(job.tick(0)), 1000)
            self.assertEqual(job.next_tick(job.tick(1000)), 2000)
            held = job.tick(2000)
            self.assertEqual(held, HeldAtOnce(expired=0))
            self.assertEqual(job.next_tick(held), 6000)
            self.assertIsNone(job.next_tick(job.tick(6000)))
            self.assertRaises(Refused, job.tick, 7000)
            self.assertIsNone(job.next_tick(None))
            job.restore(7000)
            self.assertEqual(job.next_tick(job.tick(7000)), 8000)

    def test_a_call_wakes_who_waits_and_a_report_does_not(self):
        with cancelled(self) as job:
            seen = job.calls()
            job.take(1)
            job.deleted(1)
            self.assertEqual(job.calls(), seen)
            start = time.monotonic()
            job.wait_for_call(seen, 0.02)
            self.assertGreaterEqual(time.monotonic() - start, 0.02)
            waiter = threading.Thread(target=job.wait_for_call, args=(seen,))
            waiter.start()
            self.assertRaises(Refused, job.tick, 2000)
            waiter.join(300)
            self.assertFalse(waiter.is_alive())

    def test_calls_under_one_lock_have_none_between(self):
        with Coordinator(SETTINGS, [1], 0) as job:
            with job.locked():
                self.assertEqual(job.tick(1000), Triggered(expired=0, id=1))
                other = threading.Thread(target=job.ack, args=(1000, 1, 0, 0, [1]))
                other.start()
                time.sleep(0.01)
                self.assertEqual(job.missing(1), 1)
            other.join(300)
            self.assertEqual(job.missing(1), None)

    def test_the_version_is_that_of_the_header(self):
        from relkvanu import header

        self.assertEqual(version(), header.VERSION)
