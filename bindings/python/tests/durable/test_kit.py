"""What an engine has of the runner beside the loop: lists, states of any size, tasks and jobs that end, foreign storages, what fails for ever, and commands."""
import json
import os
import pathlib
import socket
import stat
import threading
import unittest
from concurrent.futures import ThreadPoolExecutor

from relkvanu import Fenced, Kind, Settings
from relkvanu.outputs import Files
from relkvanu.runner import Ack, Ended, FileLost, FilesLeft, Lineage, Runner, Stuck, Unreadable
from relkvanu.state import Cached, storage_of
from relkvanu.storage import Folder, StorageError
from relkvanu.store import Phase, Store
from steps import LONGEST, InFolder, until

TASKS = 2
LARGE = bytes(5000)


class Engine:
    """Its tasks acknowledge in the thread of the barrier, with their states, which may be large."""

    def __init__(self):
        self.barriers, self.completed, self.records, self.stops, self.went = [], [], [], [], 0
        self.state, self.takes, self.at_stop = b"1", lambda it: True, lambda: None
        self.changed = threading.Condition()

    def start(self, term, record):
        self.records.append(record)

    def barrier(self, it):
        self.barriers.append(it)
        if self.takes(it):
            for index in range(TASKS):
                if (0, index) not in self.runner._ended_tasks:
                    self.runner.ack_state(it, 0, index, self.state)

    def complete(self, id):
        with self.changed:
            self.completed.append(id)
            self.changed.notify_all()

    def stopped(self, record):
        self.stops.append(record.id)
        self.at_stop()

    def go_on(self):
        self.went += 1

    def end(self):
        pass

    def await_complete(self, count):
        with self.changed:
            assert self.changed.wait_for(lambda: len(self.completed) >= count, LONGEST), self.completed


class Base(InFolder):
    def opened(self, is_foreign=False, **settings):
        storage = None if is_foreign else self.folder / "state"
        job = Store(self.folder / "job.db", Settings(**{"interval": 20, **settings}), [TASKS], storage=storage, create=True)
        self.addCleanup(job.close)
        return job

    def runs(self, job, engine=None, files=None, **more):
        """Runs an engine in a thread. Returns it, and what ends the run."""
        engine = engine or Engine()
        engine.runner = Runner(job, engine, files, **more)
        run = ThreadPoolExecutor(1).submit(engine.runner.run)
        self.addCleanup(lambda: (engine.runner.close(), run.exception()))
        return engine, lambda: run.exception(LONGEST) or run.result()

    def by_hand(self, engine=None, **settings):
        """A job that triggers nothing by itself."""
        job = self.opened(interval=1 << 39, **settings)
        return job, *self.runs(job, engine)

    def closed(self, engine, end):
        engine.runner.close()
        self.assertEqual(end(), Ended.CLOSED)

    def checkpoints(self, engine, count):
        """Takes a checkpoint, which is the nth that is complete."""
        engine.runner.checkpoint()
        engine.await_complete(count)

    def names(self):
        return sorted(int(it) for it in os.listdir(self.folder / "state") if it.isdigit())


class Kit(Base):
    def test_lists_are_one_commit(self):
        job, engine, found = self.opened(interval=1 << 39), Engine(), []

        def takes(it):
            before = job.counts()["commits"]
            found.append(engine.runner.acks([Ack(it, 0, 0, payload=b"a"), Ack(it, 0, 9), Ack(it, 0, 1, bytes=3)]))
            found.append(job.counts()["commits"] - before)
            return False

        engine.takes = takes
        engine, end = self.runs(job, engine)
        engine.runner.checkpoint()
        until(lambda: len(found) == 2)
        [first, refused, last], commits = found
        self.assertEqual((first.reply.missing, refused.name, last.kind, commits), (1, "UnknownSubtask", Kind.CHECKPOINT, 1))
        old = engine.barriers[0]
        engine.runner.restore()
        self.assertRaises(Fenced, engine.runner.acks, [Ack(old, 0, 0), Ack(old, 0, 1)])
        self.closed(engine, end)

    def test_states_of_any_size(self):
        job, engine, end = self.by_hand()
        self.checkpoints(engine, 1)
        self.assertEqual(self.names(), [])
        engine.state = LARGE
        self.checkpoints(engine, 2)
        self.closed(engine, end)
        self.assertEqual([engine.runner.state(job.load(), 0, it) for it in (0, 1, 2)], [LARGE, LARGE, None])
        self.assertEqual(self.names(), [1, 2])

    def test_a_state_that_can_not_be_put_is_declined(self):
        job, engine, end = self.by_hand(tolerable=1)
        engine.state = LARGE
        self.assertEqual(job.reserve(1, 1)[0], 1)
        for name in range(1, 9):
            (self.folder / f"state/{name}").write_text("there")
        engine.runner.checkpoint()
        self.assertIn("Present", until(lambda: job.history(1))[0].reason)
        self.closed(engine, end)

    def test_a_full_checkpoint_has_no_base(self):
        job, engine, end = self.by_hand()
        for count, full in enumerate((False, False, True, False), 1):
            engine.runner.checkpoint(full)
            engine.await_complete(count)
        self.assertEqual([it.base and it.base.id for it in engine.barriers], [None, 1, None, 3])
        self.closed(engine, end)

    def test_a_task_that_has_ended(self):
        """The runner acknowledges its files: new once, then those of the base, and written anew after a record that failed."""
        job, engine, end = self.by_hand(tolerable=9)
        [name] = engine.runner.reserve(1, 1)
        engine.runner.files.put(name, b"last")
        self.assertRaises(Fenced, engine.runner.finished, 2, 0, 1)
        engine.runner.finished(1, 0, 1, [name], b"ended")
        engine.takes = lambda it: engine.runner.decline(it.term, it.id, 0, 0) is None
        engine.runner.checkpoint()  # its acknowledgement comes too late, and so its file is released
        until(lambda: job.history(1))
        engine.takes = lambda it: True
        for count in (1, 2):
            self.checkpoints(engine, count)
        engine.runner.checkpoint(full=True)
        engine.await_complete(3)
        self.closed(engine, end)
        record = job.load()
        self.assertEqual((record.payload_of(0, 1), [engine.runner.files.get(it) for it in record.files_of(0, 1)]), (b"ended", [b"last"]))
        self.assertEqual(engine.runner.state(record, 0, 1), b"last")

    def test_a_job_that_ends(self):
        job = self.opened()
        engine, end = self.runs(job)
        engine.state = LARGE
        engine.await_complete(2)
        engine.runner.finish()
        self.assertEqual(end(), Ended.FINISHED)
        last = engine.barriers[-1]
        self.assertEqual((last.kind, last.holds, last.drains, engine.stops), (Kind.SAVEPOINT, True, True, [last.id]))
        self.assertFalse(any(it.drains for it in engine.barriers[:-1]))
        self.assertEqual([(it.id, it.kind) for it in job.live()], [(last.id, Kind.SAVEPOINT)])
        self.assertEqual(len(self.names()), TASKS)

    def test_a_job_that_was_killed_at_its_end(self):
        """It is stopped, and goes on with its end once the engine finds in the record that it was at it."""
        job = self.opened()
        engine, end = self.runs(job)
        engine.await_complete(1)
        engine.runner.ask_to_stop(drain=True)  # and the process dies before the cancel
        self.assertEqual(end(), Ended.STOPPED)
        job.close()
        job, engine = self.opened(), Engine()
        engine.at_stop = lambda: engine.runner.finish()
        engine, end = self.runs(job, engine)
        self.assertEqual((end(), job.mode().name), (Ended.FINISHED, "CANCELLED"))

    def test_a_drain_that_fails_restarts(self):
        """Tasks have put out what they keep, so they can't go on."""
        job, engine = self.opened(tolerable=9), Engine()
        engine.takes = lambda it: not it.drains or engine.runner.decline(it.term, it.id, 0, 0) is None
        engine, end = self.runs(job, engine)
        engine.await_complete(1)
        engine.runner.ask_to_stop(drain=True)
        until(lambda: len(engine.records) == 2)
        engine.takes = lambda it: True
        self.assertEqual((end(), engine.went), (Ended.STOPPED, 0))

    def test_a_stop_of_somebody_else_at_the_end(self):
        """Its tasks have not put out what they keep, so it is no end."""
        job, engine, end = self.by_hand()
        engine.takes = lambda it: not it.holds or it.drains
        job.stop_job()
        until(lambda: engine.barriers)
        engine.runner.finish()
        engine.runner.acks([Ack(engine.barriers[0], 0, it) for it in range(TASKS)])
        self.assertEqual((end(), engine.barriers[0].drains), (Ended.STOPPED, False))
        job.begin_job()
        job.close()
        _, engine, end = self.by_hand()
        engine.runner.finish()
        self.assertEqual((end(), engine.barriers[0].drains), (Ended.FINISHED, True))

    def test_a_restore_by_another_thread(self):
        job, engine, end = self.by_hand()
        self.checkpoints(engine, 1)
        for count, restore in enumerate((job.restore, lambda: job.go_back(job.choice().id, accept_published=True), engine.runner.restore, job.restore), 2):
            restore()
            until(lambda: len(engine.records) >= count)
            self.checkpoints(engine, count)
        self.closed(engine, end)
        self.assertEqual((len(engine.records), [it.term for it in engine.barriers]), (5, sorted({it.term for it in engine.barriers})))

    def test_a_foreign_storage(self):
        job = self.opened(is_foreign=True)
        engine, end = self.runs(job, files=self.folder / "state")
        engine.state = LARGE
        engine.await_complete(3)
        self.closed(engine, end)
        job.close()
        job = self.opened(is_foreign=True)
        used = [it for part in job.load().parts for it in part.files]
        engine, end = self.runs(job, files=storage_of(job, self.folder / "state"))
        engine.state = LARGE
        engine.await_complete(2)
        self.assertEqual(engine.records[0].files_of(0, 0) + engine.records[0].files_of(0, 1), tuple(used))
        engine.runner.ask_to_stop()
        self.assertEqual(end(), Ended.STOPPED)
        self.assertEqual(len(self.names()), TASKS)
        job.close()
        os.unlink(self.folder / f"state/{self.names()[0]}")
        (self.folder / "state/77").touch()
        engine, end = self.runs(self.opened(is_foreign=True), files=self.folder / "state")
        self.assertIsInstance(end(), FileLost)
        self.assertEqual(len(self.names()), TASKS)  # nothing was swept

    def test_a_storage_of_another_job_is_refused(self):
        Folder(self.folder / "state", "other", is_new=True).close()
        job = self.opened(is_foreign=True)
        self.assertRaises(StorageError, Runner, job, Engine(), self.folder / "state")

    def test_a_storage_that_lists_what_it_can_not_read(self):
        job, engine = self.opened(is_foreign=True), Engine()
        files = storage_of(job, self.folder / "state")
        engine, end = self.runs(job, engine, files, patience=0.5)
        engine.state = LARGE
        engine.await_complete(1)
        self.closed(engine, end)
        files.get = lambda file: (_ for _ in ()).throw(StorageError(5, "no"))
        engine.runner.files.get = files.get
        record = job.load()
        self.assertRaises(Unreadable, engine.runner.state, record, 0, 0)
        self.assertRaises(Unreadable, engine.runner.finished, job.term().term, 0, 0, record.files_of(0, 0))
        self.assertLessEqual({*record.files_of(0, 0), *record.files_of(0, 1)}, set(self.names()))

    def test_a_task_that_never_takes_its_barrier(self):
        job, engine = self.opened(timeout=50, tolerable=0), Engine()
        engine.takes = lambda it: engine.runner.ack(it.term, it.id, 0, 0) is None
        engine, end = self.runs(job, engine, patience=0.2)
        why = end()
        self.assertIsInstance(why, Stuck)
        self.assertIn("0.1", str(why))
        self.assertIn(1, {it.acks for it in job.history(9)})  # a busy machine may be late with one

    def test_files_that_are_never_deleted(self):
        job = self.opened(is_foreign=True)
        files = storage_of(job, self.folder / "state")
        files.delete = lambda some: dict.fromkeys(some, "no")
        engine, end = self.runs(job, files=files, patience=0.5)
        engine.state = LARGE
        engine.await_complete(2)
        engine.runner.ask_to_stop()
        self.assertIsInstance(end(), FilesLeft)
        self.assertIs(job.phase().phase, Phase.STOPPED)

    def test_a_sink_that_fails_for_ever(self):
        class Sinks(Engine):
            def start(self, term, record):
                super().start(term, record)
                self.sink.begin("job", self.runner.state(record, 0, 0))

            def barrier(self, it):
                self.sink([it.id])
                self.sink.acknowledge(self.runner, it, 0, 0)
                self.runner.ack(it.term, it.id, 0, 1)

            def complete(self, id):
                self.sink.complete(id)
                super().complete(id)

        (self.folder / "out").mkdir()
        job, engine = self.opened(), Sinks()
        engine.sink = Files(str(self.folder / "out"), patience=0.3)
        engine.sink.publish = lambda entry: (_ for _ in ()).throw(OSError("full"))
        engine, end = self.runs(job, engine)
        self.assertEqual(type(end()).__name__, "SinkFailed")
        job.close()
        job, engine = self.opened(), Sinks()
        engine.sink = Files(str(self.folder / "out"))
        engine, end = self.runs(job, engine)
        engine.await_complete(2)
        self.closed(engine, end)
        found = [json.loads(it.read_text())[0] for it in sorted((self.folder / "out").glob("*.jsonl"))]
        self.assertEqual(found, list(range(1, len(found) + 1)))

    def test_a_lineage(self):
        lineage = Lineage(3, {"a": 1})
        lineage.acked(4, {"a": 1, "b": 2})
        lineage.acked(5, {"b": 2})
        chosen = {it: type("Chosen", (), {"id": it}) for it in (3, 4, 5, 9)}
        self.assertEqual([lineage.reusable(it) for it in (None, chosen[4], chosen[5], chosen[9])], [{}, {"a": 1, "b": 2}, {"b": 2}, {}])
        self.assertEqual(Lineage().reusable(chosen[3]), {})

    def test_copies_on_a_local_disk(self):
        files = Folder(self.folder / "state", "job", is_new=True)
        cached = Cached(files, self.folder / "copies", 10_000)
        cached.put(1, b"one")
        files.put(2, b"two")
        self.assertEqual([cached.get(it) for it in (1, 2)], [b"one", b"two"])
        os.unlink(self.folder / "state/2")
        self.assertEqual(cached.get(2), b"two")
        (self.folder / "copies/1.copy").write_bytes(b"torn")
        self.assertEqual(cached.get(1), b"one")
        self.assertEqual(cached.delete([2]), {})
        self.assertRaises(StorageError, cached.get, 2)
        for name in range(10, 20):
            cached.put(name, bytes(2000))
        self.assertLessEqual(sum(it.stat().st_size for it in (self.folder / "copies").iterdir()), 10_000)
        self.assertEqual(cached.get(10), bytes(2000))


class Commands(Base):
    """What the routes answer, the service's tests compare with its description."""

    def test_a_stop_and_a_begin(self):
        job = self.opened(retained=2)
        engine, end = self.runs(job, waits=True)
        engine.await_complete(1)
        stop = job.stop_job().reply.id
        until(lambda: engine.stops == [stop])
        self.assertEqual(job.begin_job().reply.id, stop)
        count = len(engine.completed)
        engine.await_complete(count + 2)
        job.cancel()
        self.assertEqual(end(), Ended.CANCELLED)

    def test_sockets_that_are_there(self):
        job, path = self.opened(), str(self.folder / "job.sock")
        pathlib.Path(path).touch()
        _, end = self.runs(job, commands=path)
        self.assertEqual(end().name, "Present")
        os.unlink(path)
        with socket.socket(socket.AF_UNIX) as other:
            other.bind(path)
            other.listen()
            _, end = self.runs(job, commands=path)
            self.assertEqual(end().name, "InUse")
        engine, end = self.runs(job, commands=path)  # nobody listens there any more
        engine.await_complete(1)
        self.assertEqual(stat.S_IMODE(os.stat(path).st_mode), 0o600)
        with socket.socket(socket.AF_UNIX) as asked:
            asked.connect(path)
            asked.sendall(b"GET /v1/jobs/job HTTP/1.1\r\nConnection: close\r\n\r\n")
            self.assertTrue(asked.makefile("rb").read().startswith(b"HTTP/1.1 200 "))
        self.closed(engine, end)


if __name__ == "__main__":
    unittest.main()
