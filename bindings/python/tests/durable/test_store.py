"""The module relkvanu.store: replies and errors, threads, an event loop, and the discarder."""
import dataclasses
import errno
import gc
import os
import queue
import re
import resource
import select
import threading
import time
import unittest
import weakref
from concurrent.futures import ThreadPoolExecutor
from unittest import mock

from relkvanu import (
    AckCompleted, AckPending, BadArgument, Chosen, Closed, Configured, DeclineAborted, Fenced, Kind, Mode, OutOfRange, Refused,
    RestoredCheckpoint, RestoredSavepoint, SavepointTriggered, Settings, Taken, Triggered, store_header,
)
from relkvanu.manifest import members, sums_in
from relkvanu.store import (
    Call, FileFault, JobPhase, Made, NextBarrier, NextBegun, NextCancelled, NextEnded, NextFailed, NextIdle, NextNotStopped, NextStopped, Phase, Step,
    StopFailed, Store, StoreError, _List,
)
from relkvanu.whole import Ending, Part, Whole
from steps import LONGEST, InFolder, until

SETTINGS = Settings(interval=10, timeout=1 << 30)


class Folder(InFolder):
    def setUp(self):
        super().setUp()
        self.path, self.storage = self.folder / "job.db", self.folder / "state"

    def open(self, **more):
        return Store(self.path, SETTINGS, [2], **{"create": True, **more})

    def raises(self, name, run, *words, closes=False):
        """Returns what the error says."""
        with self.assertRaises(StoreError) as caught:
            run(*words)
        self.assertEqual((caught.exception.name, caught.exception.closes), (name, closes))
        return str(caught.exception)

    def acks(self, job, id, term, subtasks=2, contents=b"state"):
        names = job.reserve(term, subtasks)
        for name in names:
            job.put(name, contents)
        return [job.ack_in(term, id, 0, index, [name]).reply for index, name in enumerate(names)][-1]

    def complete(self, job, file):
        """A checkpoint with two files from a number on, which no one has reserved, or this term has."""
        with job.read() as reads:
            due, running = reads.due(), reads.term()
        if running.next_name < file + 2:
            job.reserve(running.term, file + 2 - running.next_name)
        id = job.tick(due).reply.id
        for index in range(2):
            job.ack_in(running.term, id, 0, index, [file + index], now=due)
        return id


class Objects:
    """Manifests in memory."""

    def __init__(self):
        self.found, self.fails = {}, None

    def check(self):
        if self.fails is not None:
            raise self.fails

    def put_manifest(self, name, contents):
        self.check()
        self.found[name] = contents

    def remove_manifest(self, name):
        self.found.pop(name, None)

    def manifests(self):
        return list(self.found)


class Calls(Folder):
    def test_replies_and_recovery(self):
        with self.open() as job:
            self.assertEqual((job.report.is_recovered, job.report.epoch, job.report.steps), (False, 1, (Step.START_TASKS,)))
            self.assertEqual(job.reserve(1, 3), range(1, 4))
            self.assertEqual(job.tick(10), Made(Triggered(0, 1), 2, None))
            self.assertEqual(job.ack_in(1, 1, 0, 0, [1], now=11), Made(AckPending(1), 3, None))
            self.assertRaisesRegex(Refused, "^AlreadyAcknowledged ", job.ack_in, 1, 1, 0, 0, [3])
            self.assertEqual(job.ack_in(1, 1, 0, 1, [2], now=11), Made(AckCompleted(0, 0), 4, None))
            identity = job.report.job
        with self.open(create=False) as job:
            report = job.report
            self.assertEqual((report.is_recovered, report.settings_differ, report.epoch, report.job, report.image_place), (True, False, 2, identity, 4))
            self.assertEqual(report.steps, (Step.END_TASKS, Step.RESTORE, Step.SWEEP, Step.START_TASKS))
            self.assertEqual((report.mode, report.choice), (Mode.RUNNING, Chosen(1, Kind.CHECKPOINT)))
            self.assertEqual(job.restore().reply, RestoredCheckpoint(1, 0))
            self.assertEqual(job.garbage([1, 2, 3, 1 << 63]), ((3,), (1 << 63,)))
            made = job.tick(job.now() + 20)
            self.assertEqual((made.reply, made.choice), (Triggered(0, 2), Chosen(1, Kind.CHECKPOINT)))

    def test_refusals_say_what_they_are_about(self):
        with self.open() as job:
            words = re.escape("UnknownCheckpoint (record 6, subtask 7.3, term 1: refused UnknownCheckpoint)")
            self.assertRaisesRegex(Refused, f"^{words}$", job.ack_in, 1, 6, 7, 3, [])
            job.savepoint()
            words = re.escape("NeverReserved 77 (record 1, subtask 0.0, term 1: fenced NeverReserved 77)")
            self.assertRaisesRegex(Fenced, f"^{words}$", job.ack_in, 1, 1, 0, 0, [77])
            job.restore()
            self.assertEqual(job.calls([Call.savepoint(), Call.decline(1, 7, 3, term=1)])[1].about, "record 1, subtask 7.3, term 1: fenced OldTerm; term 2 runs")

    def test_lists(self):
        with self.open() as job:
            self.complete(job, 1)
            self.complete(job, 11)
            outcomes = job.calls([Call.dispose(9), Call.take(1), Call.take(4), Call.savepoint(), Call.deleted(1), Call.undeleted(7)])
            self.assertEqual([type(it) for it in outcomes], [Refused, Made, Made, Made, Made, Refused])
            self.assertEqual((outcomes[1].reply, outcomes[2].reply, outcomes[4].place), (Taken((1,)), Taken((2,)), 12))
            self.raises("BadArgument", job.calls, [])
            self.raises("BadArgument", job.sweep)  # no folder
            for wrong in (lambda: job.ack_in(1, 1 << 64, 0, 0, []), lambda: job.ack_in(1, 1, 0, 0, millis=-1)):
                self.assertRaises(OutOfRange, wrong)
            self.assertRaises(Refused, job.dispose, 9)
            self.assertRaises(BadArgument, Call.restore, 0)

    def test_errors_of_an_opening(self):
        self.raises("Absent", lambda: self.open(create=False))
        with self.open(storage=self.storage):
            self.assertIn(f"in use by process {os.getpid()}", self.raises("InUse", self.open))
        self.raises("Present", lambda: self.open(create=False, only_create=True, storage=self.storage))
        self.assertIn("name none", self.raises("Storage", self.open))
        (self.storage / ".relkvanu-job").unlink()
        self.raises("Storage", lambda: self.open(storage=self.storage))

    def test_close(self):
        job = self.open()
        job.close()
        job.close()
        for call in (job.tick, lambda: job.await_tick(1), lambda: job.await_next(1)):
            self.raises("Closed", call)
        self.assertRaises(TypeError, job.__reduce__)

    def test_reads(self):
        with self.open(image_calls=None) as job:
            self.complete(job, 1)
            with job.read() as reads:
                self.assertEqual((reads.mode(), reads.files_of(1, 0, 1), reads.file_counts().in_use), (Mode.RUNNING, (2,), 2))
                self.assertFalse(hasattr(reads, "tick"))
            self.assertRaises(Closed, reads.mode)
            self.assertLessEqual(job.next_tick(), 20)
            self.assertEqual(job.counts()["calls"], 4)

    def test_a_failed_commit(self):
        job = self.open()
        self.path.rename(self.folder / "away")
        self.assertIn("replaced", self.raises("Failed", job.savepoint, closes=True))
        self.raises("Closed", job.savepoint)
        job.close()
        (self.folder / "away").rename(self.path)
        self.open().close()

    def test_a_forked_child(self):
        with self.open() as job:
            child = os.fork()
            if child == 0:
                try:
                    job.tick()
                except StoreError as error:
                    job.close()
                    os._exit(7 if error.name == "Forked" else 1)
                os._exit(2)
            self.assertEqual(os.waitstatus_to_exitcode(os.waitpid(child, 0)[1]), 7)
            self.complete(job, 1)


class Files(Folder):
    def test_files_are_put_and_discarded(self):
        job = self.open(storage=self.storage)
        names = job.reserve(1, 4)
        for file in names:
            job.put(file, b"state %d" % file)
        self.assertEqual((self.storage / "3").read_bytes(), b"state 3")
        self.raises("Present", job.put, 3, b"other")
        discarder = threading.Thread(target=job.discard)
        discarder.start()
        self.complete(job, 1)
        self.complete(job, 3)
        until(lambda: not (self.storage / "1").exists() and not (self.storage / "2").exists())
        self.assertTrue((self.storage / "3").exists() and (self.storage / "4").exists())
        job.close()
        discarder.join()

    def test_files_are_put_from_elsewhere(self):
        job = self.open(storage=self.storage)
        made = self.folder / "made"
        made.write_bytes(b"state" * 200_000)
        with made.open("rb") as source:
            source.seek(5)
            job.put_from(1, source)
            source.seek(0)
            self.raises("Present", job.put_from, 1, source)
        self.assertEqual((self.storage / "1").read_bytes(), b"state" * 199_999)
        job.put_link(2, made)
        self.assertTrue(os.path.samefile(made, self.storage / "2"))
        self.assertIn("a file of this number", self.raises("Present", job.put_link, 2, made))
        with self.assertRaises(StoreError) as caught:
            job.put_link(3, self.folder / "nothing")
        self.assertEqual((caught.exception.name, caught.exception.errno), ("NotPut", errno.ENOENT))

        class Broken:
            def read(self, room):
                raise ZeroDivisionError(room)
        with self.assertRaises(ZeroDivisionError):
            job.put_from(3, Broken())
        self.assertEqual(sorted(os.listdir(self.storage)), [".relkvanu-job", "1", "2"])
        job.close()

    def test_errors_of_the_system(self):
        """Without a free descriptor the storage is not gone, and there is memory."""
        job = self.open(storage=self.storage)
        limits = resource.getrlimit(resource.RLIMIT_NOFILE)
        lowest = os.dup(0)
        os.close(lowest)
        resource.setrlimit(resource.RLIMIT_NOFILE, (lowest, limits[1]))
        try:
            told = {}
            for name, call in (("put", lambda: job.put(1, b"")), ("sweep", job.sweep), ("open", lambda: Store(self.path, SETTINGS, [2]))):
                with self.assertRaises(StoreError) as caught:
                    call()
                told[name] = caught.exception.name, caught.exception.errno
        finally:
            resource.setrlimit(resource.RLIMIT_NOFILE, limits)
        self.assertEqual(told, {"put": ("NotPut", errno.EMFILE), "sweep": ("NotDone", errno.EMFILE), "open": ("Failed", errno.EMFILE)})
        job.put(1, b"")
        self.assertEqual(job.sweep(), 0)
        job.close()
        self.assertRaises(BadArgument, Store, f"{self.path}\0", SETTINGS, [2])

    def test_what_is_measured(self):
        with self.open() as job:
            self.assertEqual(job.measures()["last_commit"], 0)
            job.savepoint()
            found = job.measures()
            self.assertEqual((found["log_rows"], found["failed_deletions"]), (1, 0))
            self.assertGreater(found["wal_bytes"], 4096)
            self.assertLess(abs(found["last_commit"] / 1000 - time.time()), 3600)
            self.assertEqual(job.job(), (SETTINGS, (2,)))
        with Store(self.path, Settings(interval=99), [7]) as job:
            self.assertTrue(job.report.settings_differ)
            self.assertEqual(job.job(), (SETTINGS, (2,)))
            job.restore(shape=[3, 4])
            self.assertEqual(job.job(), (SETTINGS, (3, 4)))


class Payloads(Folder):
    """What acknowledgements have beside their files, records as a whole, and the history."""

    def test_payloads(self):
        with self.open(storage=self.storage) as job:
            self.assertEqual((job.load(), job.history()), (None, []))
            made = job.trigger()
            self.assertEqual((made.reply.id, made.kind, made.ended), (1, Kind.CHECKPOINT, ()))
            for name in job.reserve(1, 4):
                job.put(name, b"x")
            job.ack_in(1, 1, 0, 0, [2, 1, 3], payload=b"\0state", bytes=30, millis=4)
            made = job.ack_in(1, 1, 0, 1, [4], bytes=5, millis=9)
            self.assertEqual((made.kind, made.ended), (Kind.CHECKPOINT, ()))
            whole = Whole(1, Kind.CHECKPOINT, (2,), (Part(0, 0, (2, 1, 3), b"\0state", 30, 4), Part(0, 1, (4,), b"", 5, 9)), 1)
            self.assertEqual((job.load(), job.load(1)), (whole, whole))
            self.assertEqual((whole.payload_of(0, 0), whole.files_of(0, 1), whole.part(7, 7)), (b"\0state", (4,), Part(7, 7)))
            (past,) = job.history()
            self.assertEqual((past.id, past.kind, past.ending, past.acks, past.bytes, past.millis, past.reason),
                             (1, Kind.CHECKPOINT, Ending.COMPLETED, 2, 35, 9, ""))
            self.assertTrue(past.first <= past.median <= past.p99 <= past.slowest <= past.ended - past.triggered)
        with self.open(create=False, storage=self.storage) as job:
            restored = job.restore_whole()
            self.assertEqual((restored.term, restored.record.parts, restored.record.term), (2, whole.parts, 2))
            self.complete_one(job, 2, 2)
            self.raises("Absent", job.load, 1)
            self.assertEqual([it.id for it in job.history(1)], [2])
            self.storage.joinpath(str(job.load().parts[0].files[0])).unlink()
            self.assertIn("is missing", self.raises("FileLost", job.load))

    def complete_one(self, job, term, id):
        job.trigger()
        for index in range(2):
            [name] = job.reserve(term, 1)
            job.put(name, b"x")
            made = job.ack_in(term, id, 0, index, [name], payload=b"of %d" % index)
        self.assertEqual((made.reply, made.ended), (AckCompleted(1, 4), (id - 1,)))

    def test_lists_and_submits(self):
        """As of an event loop, more than it is told of at once."""
        with self.open() as job:
            tokens, told = [job.submit([Call.savepoint(), Call.dispose(9)]) for _ in range(100)], {}
            while len(told) < 100:
                select.select([job], [], [])
                told.update(job.completed())
            self.assertEqual([told[it][0].place for it in tokens], list(range(1, 101)))
            self.assertIsInstance(told[tokens[5]][1], Refused)
        self.path = self.folder / "payloads.db"
        with self.open() as job:
            job.trigger()
            acks = [Call.ack(1, 0, index, term=1, payload=b"state of %d" % index, figures=(8, 1)) for index in range(2)]
            job.submit(acks)
            select.select([job], [], [])
            ((_, outcomes),) = job.completed()
            self.assertEqual([it.reply for it in outcomes], [AckPending(1), AckCompleted(0, 0)])
            self.assertEqual([it.payload for it in job.load().parts], [b"state of 0", b"state of 1"])
            job.trigger()
            outcomes = job.calls([Call.ack(2, 0, index, term=1, payload=b"%d" % index) for index in range(2)])
            self.assertEqual(outcomes[1].ended, (1,))
            self.assertEqual([it.payload for it in job.load().parts], [b"0", b"1"])

    def test_an_interrupted_list_stays(self):
        """A call goes on to its end with the array of its calls alone."""
        made = _List([Call.ack(1, 0, 0, [3], term=1, payload=b"a", figures=(8, 9))])
        parts = [weakref.ref(it) for it in (made._more, made._texts, made._numbers, made._rooms)]
        calls, made = made.calls, None
        gc.collect()
        self.assertNotIn(None, [it() for it in parts])
        del calls
        gc.collect()
        self.assertEqual([it() for it in parts], [None] * 4)

    def test_what_the_calls_of_a_list_point_to(self):
        """It is in arrays that they share: each call has its own part of them."""
        with self.open(storage=self.storage) as job:
            for name in job.reserve(1, 5):
                job.put(name, b"x")
            job.savepoint()
            job.savepoint()
            outcomes = job.calls([
                Call.ack(1, 0, 0, [3, 1], term=1, payload=b"a", figures=(8, 9)), Call.take(2), Call.decline(2, 0, 0, term=1, reason="zu spät"),
                Call.ack(1, 0, 1, [2], term=1, payload=b"bcd"), Call.savepoint(), Call.ack(3, 0, 1, [4], [2, 1], term=1, payload=b"e"), Call.ack(3, 0, 0, [5], term=1)])
            self.assertEqual([it.reply for it in outcomes[:3]], [AckPending(1), Taken(()), DeclineAborted(0)])
            self.assertEqual([it.reply for it in outcomes[3:]], [AckCompleted(0, 0), SavepointTriggered(3), AckPending(1), AckCompleted(0, 0)])
            self.assertEqual([it.ended for it in outcomes], [(), (), (2,), (), (), (), ()])
            self.assertEqual(job.load(1).parts, (Part(0, 0, (3, 1), b"a", 8, 9), Part(0, 1, (2,), b"bcd")))
            self.assertEqual(job.load(3).parts, (Part(0, 0, (5,)), Part(0, 1, (4, 2, 1), b"e")))
            self.assertEqual({it.id: it.reason for it in job.history()}, {1: "", 2: "zu spät", 3: ""})


class Backups(Folder):
    def test_a_backup(self):
        copy = self.folder / "copy.db"
        with self.open(storage=self.storage) as job:
            savepoint = job.savepoint().reply.id
            self.acks(job, savepoint, 1)
            job.backup(copy)
            self.assertEqual((copy.stat().st_mode & 0o777, self.raises("Present", job.backup, copy)), (0o600, f"Present: {copy}: " + os.strerror(errno.EEXIST)))
        self.raises("Closed", job.backup, self.folder / "closed.db")
        for it in self.folder.glob("job.db*"):
            it.unlink()
        copy.rename(self.path)
        self.assertIn("it is a backup", self.raises("Storage", lambda: self.open(storage=self.storage)))
        with self.open(storage=self.storage, backup=True) as job:
            self.assertEqual((job.report.is_recovered, job.report.epoch, job.restore(savepoint).term), (True, 2, 2))


class Threads(Folder):
    def test_a_close_beside_threads(self):
        """Threads that were told to stop are within the store until they have asked what it says: each is slow there."""
        fault = Store._fault

        def slow(*words):
            time.sleep(0.05)
            return fault(*words)

        def awaits(job):
            if job.await_next(60_000) == NextEnded():
                raise StoreError("Stopped", "", False)

        for work in (lambda job: job.await_tick(60_000), awaits, lambda job: job.put(1, b""), lambda job: job.discard(), lambda job: job.reserve(1, 1)):
            job = self.open(storage=self.storage)
            ends = []

            def runs():
                try:
                    while True:
                        work(job)
                except (StoreError, Fenced) as why:
                    ends.append(why.name)
            with mock.patch.object(Store, "_fault", slow), ThreadPoolExecutor(4) as threads:
                for _ in range(4):
                    threads.submit(runs)
                until(lambda: job._used or ends)
                job.close()
            self.assertFalse(job._used)
            self.assertEqual(len(ends), 4)

    def test_a_call_in_a_read(self):
        """A call of the thread that reads would wait for itself."""
        with self.open() as job:
            with job.read() as reads:
                for call in (lambda: job.reserve(1, 1), job.term, lambda: job.await_tick(0), lambda: job.await_next(0), lambda: job.read().__enter__(),
                             job.sweep, job.discard, lambda: job.discard(lambda file: True), lambda: job.discard_lists(list)):
                    self.raises("InRead", call)
                self.assertEqual(job.now(), job.now())
                token = job.submit([Call.reserve(1, 5)])
                self.assertEqual(reads.term().next_name, 1)
            self.assertEqual([it for it, _ in until(job.completed)], [token])
            self.assertEqual(job.reserve(1, 1), range(6, 7))
            with job.read():
                job.close()  # ends the read too
        self.raises("Closed", job.now)

    def test_a_read_ends_once(self):
        """Also if its end is interrupted before the first step of it, when nobody has it any more."""
        with self.open() as job:
            reading = job.read()
            reading.__enter__()
            del reading
            job.savepoint()
            with job.read():
                pass
            self.assertFalse(job._used)

    def test_what_a_function_raises(self):
        """It ends the discarder, once the files before it are reported, and the others wait again."""
        job = self.open(storage=self.storage)
        self.complete(job, 1)
        self.complete(job, 11)  # 1 and 2 wait

        def delete(file):
            if file == 2:
                raise ZeroDivisionError
            return True
        self.assertRaises(ZeroDivisionError, job.discard, delete)
        with job.read() as reads:
            self.assertEqual((reads.file_counts().waiting, reads.file_counts().taken, reads.waiting_file(0)), (1, 0, 2))
        self.assertEqual(job.measures()["failed_deletions"], 1)
        job.close()

    def test_commands_of_an_event_loop(self):
        def completion(token):
            found = until(job.completed)
            self.assertEqual([it[0] for it in found], [token])
            return found[0][1]
        with self.open() as job:
            settings = dataclasses.replace(SETTINGS, interval=1 << 30, tolerable=7)
            told = completion(job.submit([Call.trigger(), Call.configure(settings)]))
            self.assertEqual([it.reply for it in told], [Triggered(0, 1), Configured(0, 0)])
            self.assertEqual(job.job()[0], settings)
            [told] = completion(job.submit_stop_job())
            self.assertEqual((told.reply, job.phase().phase), (SavepointTriggered(2), Phase.STOPPING))
            for submit in (job.submit_stop_job, job.submit_begin_job):
                self.assertEqual(completion(submit()).name, "NotNow")
            for index, name in enumerate(job.reserve(1, 2)):
                job.ack_in(1, 2, 0, index, [name])
            [told] = completion(job.submit_begin_job())
            self.assertIsInstance(told.reply, RestoredSavepoint)
            self.assertEqual((told.place, job.phase().phase), (8, Phase.RUNNING))
            # a timer gets what they made, but for what came before the restore
            self.assertEqual(job.await_tick(60_000).reply, told.reply)
        self.path = self.folder / "named.db"
        with self.open(storage=self.storage) as job:
            [told] = completion(job.submit([Call.advance(7, 500)]))
            self.assertEqual((told.term, job.term().next_name), (8, 500))

    def test_a_discarder(self):
        job = self.open(storage=self.storage)
        tries = []

        def delete(file):
            tries.append(file)
            if file == 2 and tries.count(2) < 3:
                raise PermissionError
            os.unlink(str(file), dir_fd=job.folder())
            return True
        discarder = threading.Thread(target=job.discard, args=(delete,))
        for file in (1, 2, 11, 12):
            (self.storage / str(file)).touch()
        discarder.start()
        self.complete(job, 1)
        self.complete(job, 11)
        until(lambda: not any((self.storage / it).exists() for it in "12"))
        job.stop()
        discarder.join()
        self.assertEqual(tries.count(2), 3)
        self.assertTrue((self.storage / "12").exists())
        job.close()

    def test_a_discarder_of_lists(self):
        """What waits is deleted by one call. An OSError says that all may be there, and an answer which ones."""
        job, tries, left = self.open(), [], [OSError(), {2}, {}]

        def delete(files):
            tries.append(files)
            told = left.pop(0)
            if isinstance(told, OSError):
                raise told
            return told
        self.complete(job, 1)
        self.complete(job, 11)
        discarder = threading.Thread(target=job.discard_lists, args=(delete,))
        discarder.start()
        until(lambda: not left and self.counts(job) == (2, 0, 0))
        job.stop()
        discarder.join()
        self.assertEqual([sorted(it) for it in tries], [[1, 2], [1, 2], [2]])
        job.close()

    def test_a_lost_job(self):
        """Its file is gone, and it is made again from the manifests of its storage."""
        with self.open(storage=self.storage, manifests=True) as job:
            term = job.report.term
            made = job.call(Call.trigger()).reply
            self.acks(job, made.id, term)
            self.assertEqual((job.measures()["manifests"], job.measures()["failed_manifests"]), (1, 0))
            self.assertEqual([(it.id, it.files, it.bytes, it.missing, it.is_next, it.damage) for it in Store.records(self.storage)], [(1, 2, 10, 0, True, None)])
            self.assertIn("in use", self.raises("InUse", Store.recover, self.path, self.storage))
        self.raises("Present", Store.recover, self.path, self.storage)
        for it in self.folder.glob("job.db*"):
            it.unlink()
        self.raises("Absent", Store.recover, self.path, self.storage, 9)
        self.raises("Storage", Store.records, self.folder / "nowhere")
        recovered = Store.recover(self.path, self.storage)
        self.assertEqual((recovered.record, recovered.is_savepoint, recovered.files, recovered.bytes), (1, False, 2, 10))
        with self.open(create=False, storage=self.storage, manifests=True) as job:
            self.assertEqual((job.report.choice, job.report.term, job.report.next_name), (Chosen(1, Kind.CHECKPOINT), recovered.term, recovered.next_name))
            self.assertGreater(job.restore().term, term)
            with job.read() as reads:
                self.assertEqual([reads.files_of(1, 0, index) for index in range(2)], [(1,), (2,)])
            self.assertGreaterEqual(job.call(Call.trigger()).reply.id, recovered.next_number)
        carried = Store.export(self.storage, self.folder / "out")
        self.assertEqual((carried.record, carried.is_savepoint, carried.files, carried.bytes), (1, False, 2, 10))
        self.assertEqual(sorted(os.listdir(self.folder / "out")), ["1", "2", "record-1.manifest"])
        self.raises("Present", Store.export, self.storage, self.folder / "out")
        imported = Store.import_job(self.folder / "out", self.folder / "other.db", self.folder / "other")
        self.assertEqual((imported.record, imported.files), (1, 2))
        with Store(self.folder / "other.db", SETTINGS, [2], storage=self.folder / "other") as other:
            self.assertEqual((other.report.choice, other.report.is_recovered), (Chosen(1, Kind.CHECKPOINT), True))
            self.assertNotEqual(other.report.job, job.report.job)
        self.raises("Present", Store.import_job, self.storage, self.folder / "other.db", self.folder / "third")
        claimed = Store.import_job(self.folder / "out", self.folder / "third.db", self.folder / "third", claim=True)
        self.assertEqual((claimed.record, (self.folder / "out").exists(), sorted(os.listdir(self.folder / "third"))),
                         (1, False, [".relkvanu-job", "1", "2", "record-1.manifest"]))
        damaged = self.storage / "record-1.manifest"
        damaged.write_bytes(damaged.read_bytes()[:-1])
        self.assertEqual([(it.id, it.damage) for it in Store.records(self.storage)], [(1, "Damaged")])

    def test_the_origin_of_a_record(self):
        """An import knows from which job its record is, also after other openings, which write its manifest anew, and another recovery. Its own records have none."""
        def completes(job, term):
            id = job.call(Call.trigger()).reply.id
            for index in range(2):
                job.ack_in(term, id, 0, index, payload=b"state")
            return id

        with self.open(storage=self.storage, manifests=True) as job:
            id = completes(job, job.report.term)
            self.assertIsNone(job.load().origin)
            origin = (job.report.job, id)
        path, storage = self.folder / "other.db", self.folder / "other"
        Store.import_job(self.storage, path, storage)
        for manifests in (False, True, True):
            with Store(path, SETTINGS, [2], storage=storage, manifests=manifests) as job:
                self.assertEqual((job.load().origin, job.load().id), (origin, id))
                self.assertNotEqual(job.report.job, origin[0])
                self.assertEqual(job.restore_whole().record.origin, origin)
        self.assertEqual(members((storage / f"record-{id}.manifest").read_bytes())["origin"], origin[0])
        path.unlink()
        Store.recover(path, storage)
        with Store(path, SETTINGS, [2], storage=storage, manifests=True) as job:
            self.assertEqual(job.load().origin, origin)
            self.assertGreater(completes(job, job.restore().term), id)
            self.assertIsNone(job.load().origin)
        claimed = self.folder / "claimed"
        Store.import_job(self.storage, self.folder / "third.db", claimed, claim=True)
        with Store(self.folder / "third.db", SETTINGS, [2], storage=claimed) as job:
            self.assertEqual(job.load().origin, origin)

    def test_checksums(self):
        """A file that changed is found by who reads it."""
        self.raises("BadArgument", lambda: self.open(storage=self.storage, checksums=True))
        with self.open(storage=self.storage, manifests=True, checksums=True) as job:
            id = job.savepoint().reply.id
            self.acks(job, id, job.report.term, contents=b"123456789")
        self.assertEqual(sums_in((self.storage / f"record-{id}.manifest").read_bytes()), {1: 0xcbf43926, 2: 0xcbf43926})  # the check value of CRC-32
        ((record, faults),) = Store.check_records(self.storage)
        self.assertEqual((record.unknown, record.changed, record.missing, faults), (0, 0, 0, {}))
        (self.storage / "2").write_bytes(b"123456780")
        ((record, faults),) = Store.check_records(self.storage)
        self.assertEqual((record.changed, faults, Store.records(self.storage)[0].changed), (1, {2: FileFault.CHANGED}, 0))
        (self.storage / "2").write_bytes(b"12345678")
        self.assertEqual([faults for _, faults in Store.check_records(self.storage)], [{2: FileFault.LENGTH}])
        self.raises("Storage", Store.check_records, self.folder / "nowhere")

    def test_a_backup_that_is_put_back(self):
        with self.open(storage=self.storage, manifests=True) as job:
            id = job.savepoint().reply.id
            self.acks(job, id, job.report.term)
            job.backup(self.folder / "backup.db")
            job.call(Call.trigger())
        made, aside = Store.put_back(self.folder / "backup.db", self.path, self.storage)
        self.assertEqual((made.record, made.is_savepoint, os.path.isdir(aside)), (id, True, True))

    def test_manifests_in_a_place_of_the_engine(self):
        place = Objects()
        with self.open() as job:
            place.fails = OSError("not there")
            self.assertRaisesRegex(OSError, "not there", job.keep_manifests, place)
            place.fails = None
            place.found["record-9.manifest"] = b"of a record that ended"
            job.keep_manifests(place)
            texts, is_kept = place.found, weakref.ref(place)
            del place
            self.raises("BadArgument", job.keep_manifests, Objects())
            gc.collect()
            place = is_kept()  # the library still calls its functions
            for fails in (None, OSError("no network"), None):
                place.fails = fails
                id = job.call(Call.trigger()).reply.id
                for index, file in enumerate(job.reserve(job.report.term, 2)):
                    job.ack_in(job.report.term, id, 0, index, [file])
                self.assertEqual(list(texts) == [f"record-{id}.manifest"], fails is None)
            self.assertRegex(str(job.manifest_fault), "no network")
            self.assertGreaterEqual(job.measures()["failed_manifests"], 1)
        self.assertIn(b'"files":{"', texts[f"record-{id}.manifest"])

    def counts(self, job):
        with job.read() as reads:
            counts = reads.file_counts()
            return counts.in_use, counts.waiting, counts.taken


def timer(job):
    """A thread that waits again and again for what is next, until stop() or close(). Returns the queue of what it is told."""
    told = queue.Queue()

    def run():
        it = None
        while it != NextEnded():
            it = job.await_next(600_000)
            told.put(it)
    threading.Thread(target=run).start()
    return told


class Nexts(Folder):
    """What a timer has for the loop of an engine that nobody gives commands to."""

    def open(self, **settings):
        return Store(self.path, Settings(**{"interval": 60_000, "timeout": 1 << 30, "tolerable": 0, **settings}), [2], create=True)

    def test_idle(self):
        with self.open(interval=1 << 39) as job:
            began = time.monotonic()
            told = job.await_next(250)
            self.assertEqual((told, told.ended), (NextIdle(), ()))
            self.assertTrue(0.2 < time.monotonic() - began < 30)
            for longest in (-1, 1 << 64):
                self.assertRaises(OutOfRange, job.await_next, longest)

    def test_ticks(self):
        """A due checkpoint; then a record that has expired while no other may be triggered."""
        with self.open(interval=10, timeout=50, tolerable=5) as job:
            self.assertEqual(job.await_next(60_000), NextBarrier(1, Kind.CHECKPOINT, None))
            began, told = time.monotonic(), []
            while NextBarrier(2, Kind.CHECKPOINT, None) not in told and time.monotonic() < began + 600:
                told.append(job.await_next(60_000))
            self.assertEqual([it for it in told if not isinstance(it, NextIdle)], [NextBarrier(2, Kind.CHECKPOINT, None)])
            self.assertEqual([id for it in told for id in it.ended], [1])

    def test_a_tick_that_fails_the_job(self):
        """The tick says so, and later calls as long as the job is not restored."""
        with self.open(interval=1 << 39, timeout=50) as job:
            job.trigger()
            self.assertEqual(job.await_next(60_000), NextBarrier(1, Kind.CHECKPOINT, None))
            told = job.await_next(60_000)
            self.assertEqual((told, told.ended), (NextFailed(), (1,)))
            self.assertEqual(job.await_next(60_000), NextFailed())
            self.assertEqual(job.restore().term, 2)
            self.assertEqual(job.await_next(1), NextIdle())

    def test_a_job_that_another_thread_ends(self):
        """It has failed by a decline, or was cancelled: a timer that waits is told at once, and the next one when its time is up."""
        for end, expected in ((lambda job: job.decline_in(1, 1, 0, 0), NextFailed()), (lambda job: job.cancel(), NextCancelled())):
            self.path = self.folder / f"{type(expected).__name__}.db"
            with self.open() as job:
                told = timer(job)
                job.trigger()
                self.assertEqual(told.get(timeout=LONGEST), NextBarrier(1, Kind.CHECKPOINT, None))
                end(job)
                self.assertEqual(told.get(timeout=LONGEST), expected)
                self.assertEqual([job.await_next(1) for _ in range(2)], [expected] * 2)

    def test_a_stop_of_the_handle(self):
        """Ends a timer that waits, and each later one."""
        with self.open() as job:
            told = timer(job)
            job.stop()
            self.assertEqual(told.get(timeout=LONGEST), NextEnded())
            self.assertEqual([job.await_next(60_000) for _ in range(2)], [NextEnded()] * 2)


class Commands(Folder):
    """What an operator wants of a job: each is made in one thread, and the timer of another hands it over."""

    def open(self, **more):
        return Store(self.path, Settings(interval=60_000, timeout=1 << 30, retained=3), [2], **{"create": True, "storage": self.storage, **more})

    def test_a_stop_and_a_begin(self):
        with self.open() as job:
            self.acks(job, job.trigger().reply.id, 1)
            made = job.stop_job()
            id = made.reply.id
            self.assertEqual((made.reply, job.phase()), (SavepointTriggered(id), JobPhase(Phase.STOPPING, id)))
            self.assertEqual(job.await_tick(60_000), made)
            self.assertIn("is stopped", self.raises("NotNow", job.stop_job))
            self.assertEqual(self.acks(job, id, 1), AckCompleted(0, 0))
            self.assertEqual(job.phase(), JobPhase(Phase.STOPPED, id, 2))
            began = time.monotonic()
            self.assertIsNone(job.await_tick(60_000))  # at once
            self.assertIsNone(job.await_tick(250))  # and then it does not spin
            self.assertTrue(0.2 < time.monotonic() - began < 30)
        with self.open() as job:
            self.assertEqual((job.report.phase, job.report.steps), (JobPhase(Phase.STOPPED, id), (Step.END_TASKS, Step.DISCARD)))
            begun = job.begin_job()
            self.assertEqual((begun.reply, begun.term, job.phase()), (RestoredSavepoint(id, 0), 3, JobPhase(Phase.RUNNING)))
            self.assertEqual(job.await_tick(60_000), begun)
            id = job.stop_job().reply.id
            job.decline_in(3, id, 0, 0)
            self.assertEqual(job.phase(), JobPhase(Phase.RUNNING, id, 0, StopFailed.DECLINED))
            self.assertIsNone(job.await_tick(60_000))

    def test_an_older_checkpoint(self):
        with self.open() as job:
            for _ in range(3):
                self.acks(job, job.trigger().reply.id, 1)
            self.assertIn("not taken back", self.raises("BadArgument", job.go_back, 1))
            made = job.go_back(1, accept_published=True)
            self.assertEqual((made.reply, made.term, job.await_tick(60_000)), (RestoredSavepoint(4, 4), 2, made))
            id = job.trigger().reply.id
            self.acks(job, id, 2)
            back = job.go_back(id, accept_published=True)
            self.assertEqual(job.await_next(60_000), NextBegun(Chosen(id, Kind.CHECKPOINT), back.term))  # the last one needs no savepoint

    def test_what_is_next_of_a_stop(self):
        """Also of one that fails while a timer waits, and of a tick that is refused since the job was stopped just before it."""
        with self.open() as job:
            first = job.trigger()
            self.assertEqual(job.await_next(60_000), NextBarrier(first.reply.id, Kind.CHECKPOINT, None))
            self.acks(job, first.reply.id, 1)
            id = job.stop_job().reply.id
            self.assertEqual(job.await_next(60_000), NextBarrier(id, Kind.SAVEPOINT, Chosen(first.reply.id, Kind.CHECKPOINT)))
            self.acks(job, id, 1)
            began = time.monotonic()
            self.assertEqual(job.await_next(60_000), NextStopped())  # at once
            self.assertEqual(job.await_next(250), NextStopped())  # and then it does not spin
            self.assertTrue(0.2 < time.monotonic() - began < 30)
            with mock.patch.object(Store, "_timed", lambda *_: (store_header.OK, Refused("NotRunning", None))):
                self.assertEqual(job.await_next(1), NextStopped())
            begun = job.begin_job()
            self.assertEqual(job.await_next(60_000), NextBegun(Chosen(id, Kind.SAVEPOINT), begun.term))
            told, before = timer(job), Chosen(id, Kind.SAVEPOINT)
            id = job.stop_job().reply.id
            self.assertEqual(told.get(timeout=LONGEST), NextBarrier(id, Kind.SAVEPOINT, before))
            job.decline_in(begun.term, id, 0, 0)
            self.assertEqual(told.get(timeout=LONGEST), NextNotStopped())
            self.assertEqual((job.phase().stop_failed, job.await_next(1)), (StopFailed.DECLINED, NextIdle()))

    def test_an_advance(self):
        with self.open() as job:
            self.assertEqual(job.advance(40, 5000).term, 41)
            self.assertEqual(job.reserve(41, 1), range(5000, 5001))


if __name__ == "__main__":
    unittest.main()
