"""The module relkvanu.runner: the order of what an engine is asked to do, over checkpoints, failures, stops, commands of an operator and ends."""
import dataclasses
import itertools
import json
import os
import signal
import subprocess
import sys
import threading
import time
import unittest
from concurrent.futures import ThreadPoolExecutor
from unittest import mock

from relkvanu import BadStep, Chosen, Fenced, Kind, OutOfMemory, Refused, Settings
from relkvanu.runner import Barrier, Ended, Ending, FileLost, Inputs, InputsClosed, Record, Runner, SavepointFailed
from relkvanu.store import Phase, Store, StoreError
from steps import LONGEST, InFolder, until

TASKS = 2
HANGS = """
import sys
from relkvanu import Settings
from relkvanu.runner import Runner
from relkvanu.store import Store

class Engine:
    def start(self, term, record):
        print("started", flush=True)
    def barrier(self, it):
        print("barrier", flush=True)  # and nobody acknowledges
    def end(self):
        print("ended", flush=True)

runner = Runner(Store(f"{sys.argv[1]}/job.db", Settings(interval=1 << 39), [1], storage=f"{sys.argv[1]}/state", create=True), Engine())
runner.stop_at_signals()
runner.run()
"""


class Untold:
    """An engine whose tasks acknowledge in the thread of the barrier, with one new file each. It notes what it is asked, and has no stopped()."""

    def __init__(self):
        self.said, self.changed = [], threading.Condition()
        self.runner, self.declined, self.then = None, None, lambda: None

    def note(self, *words):
        with self.changed:
            self.said.append(words)
            self.changed.notify_all()

    def all(self, word):
        """What came with this word, each time."""
        return [it[1] for it in self.said if it[0] == word]

    def await_word(self, *words):
        with self.changed:
            assert self.changed.wait_for(lambda: words in self.said, LONGEST), (words, self.said)

    def await_count(self, word, count):
        """Until the word was said so many times since the begin."""
        with self.changed:
            assert self.changed.wait_for(lambda: sum(it[0] == word for it in self.said) >= count, LONGEST), (word, self.said)

    def await_more(self, word, count=1):
        """Until the word was said so many times from now on: for what comes again and again. What an earlier line has brought about may be said already."""
        with self.changed:
            self.await_count(word, sum(it[0] == word for it in self.said) + count)

    def start(self, term, record):
        assert record is None or isinstance(record, Record)
        self.note("start", term, record and record.id, record and len([it for part in record.parts for it in part.files]))

    def barrier(self, it):
        self.note("barrier", it.id, it.kind, it.holds)
        try:
            self.take_part(it)
        except (Fenced, Refused):
            self.note("fenced")  # an operator was faster

    def take_part(self, it):
        for index in range(TASKS):
            if self.declined == it.kind:
                self.declined = None
                self.runner.decline(it.term, it.id, 0, index, "no disk")
                self.then()
                return
            [name] = self.runner.store.reserve(it.term, 1)
            self.runner.store.put(name, b"state")
            self.runner.ack(it.term, it.id, 0, index, [name])

    def complete(self, id):
        self.note("complete", id)

    def go_on(self):
        self.note("go on")

    def end(self):
        self.note("end")


class Words(Untold):
    def stopped(self, record):
        assert isinstance(record, Record)
        self.note("stopped", record.id, len([it for part in record.parts for it in part.files]))


class Failing(Words):
    """Its tasks acknowledge in another thread than that of run(). The first time that it is asked `word` it raises; the next time it lets run() return."""

    def __init__(self, word):
        super().__init__()
        self.word, self.tasks = word, []

    def barrier(self, it):
        task = threading.Thread(target=lambda: self.tasks.append(super(Failing, self).barrier(it)))  # nothing, if it raises
        task.start()
        task.join()

    def asked(self, word):
        if word == self.word and (word, "fails") not in self.said:
            self.note(word, "fails")
            raise LookupError(word)
        if (self.word, "fails") in self.said:
            self.runner.close()

    def complete(self, id):
        super().complete(id)
        self.asked("complete")

    def aborted(self, ids):
        self.note("aborted", ids)
        self.asked("aborted")


class Sink(Words):
    """Its first task is a sink, whose state is the list of what it prepared and has not published. The target outlives a process. It dies before it
    publishes a savepoint."""

    def __init__(self, prepared, published):
        super().__init__()
        self.prepared, self.published = prepared, published

    def take_part(self, it):
        self.prepared.append(it.id)
        for index, state in enumerate([json.dumps(self.prepared).encode(), b""]):
            self.runner.ack(it.term, it.id, 0, index, payload=state)

    def publish(self, ids):
        self.published.extend(it for it in ids if it not in self.published)
        self.prepared[:] = [it for it in self.prepared if it not in ids]

    def start(self, term, record):
        super().start(term, record)
        self.publish(json.loads(record.payload_of(0, 0)) if record else [])

    def complete(self, id):
        super().complete(id)
        if self.said[-2][:3] == ("barrier", id, Kind.SAVEPOINT):
            raise KeyboardInterrupt  # as a kill
        self.publish([it for it in self.prepared if it <= id])

    def stopped(self, record):
        super().stopped(record)
        self.publish(json.loads(record.payload_of(0, 0)))


class Acknowledging(Words):
    """It tries to acknowledge or decline inside complete() or aborted()."""

    def __init__(self):
        super().__init__()
        self.faults = []

    def try_both(self, id):
        for call in (self.runner.ack, self.runner.decline):
            try:
                call(1, id, 0, 0)
            except StoreError as why:
                self.faults.append(why.name)

    def complete(self, id):
        self.try_both(id)
        super().complete(id)

    def aborted(self, ids):
        self.try_both(ids[0])
        self.note("aborted", ids)


class Running(InFolder):
    def begin(self, engine=None, sweep_interval=600_000, **settings):
        """Runs an engine in a thread."""
        store = Store(self.folder / "job.db", Settings(**{"interval": 20, "retained": 3, **settings}), [TASKS], storage=self.folder / "state", create=True)
        engine = engine or Words()
        engine.runner = Runner(store, engine, sweep_interval=sweep_interval)
        run = ThreadPoolExecutor(1).submit(engine.runner.run)

        def await_end():
            fault = run.exception(LONGEST)
            store.close()
            return fault or run.result()
        self.addCleanup(lambda: (engine.runner.close(), run.exception()))
        return store, engine, await_end

    def last(self, record, **more):
        """A store and an engine, whose run ends at a record."""
        store, engine = Store(self.folder / "job.db", Settings(interval=20), [TASKS], storage=self.folder / "state", **more), Words()
        self.addCleanup(store.close)
        engine.runner = Runner(store, engine)
        engine.runner.close_after(record)
        return store, engine

    def running(self, *words, count=1, **settings):
        """A job that has completed a checkpoint, or so many."""
        store, engine, await_end = self.begin(*words, **settings)
        engine.await_more("complete", count)
        return store, engine, await_end

    def idle(self, *words, **settings):
        """A job that triggers nothing by itself."""
        store, engine, await_end = self.begin(*words, interval=1 << 39, **settings)
        engine.await_word("start", 1, None, None)
        return store, engine, await_end

    def close(self, engine, await_end):
        engine.runner.close()
        self.assertEqual(await_end(), Ended.CLOSED)

    def files(self):
        return sorted(it for it in os.listdir(self.folder / "state") if not it.startswith("."))

    def test_checkpoints_and_a_next_process(self):
        store, engine, await_end = self.begin()
        engine.await_word("complete", 3)
        self.close(engine, await_end)
        self.assertEqual(engine.said[:3], [("start", 1, None, None), ("barrier", 1, Kind.CHECKPOINT, False), ("complete", 1)])
        self.assertEqual(engine.said[-1], ("end",))
        last = max(it[1] for it in engine.said if it[0] == "complete")
        store, engine, await_end = self.running(count=2)
        self.close(engine, await_end)
        # the old tasks are told to end, and the tasks start from the record's files; nobody is told by its number that it is complete
        self.assertEqual(engine.said[:2], [("end",), ("start", 2, last, TASKS)])
        self.assertGreater(next(it[1] for it in engine.said if it[0] == "complete"), last)

    def test_a_stop_that_fails(self):
        store, engine, await_end = self.running(tolerable=10)
        engine.declined = Kind.SAVEPOINT
        store.stop_job()
        engine.await_word("go on")
        engine.await_more("complete", 2)
        self.close(engine, await_end)
        self.assertEqual(sum(it == ("go on",) for it in engine.said), 1)

    def test_tasks_that_hold_and_are_restarted(self):
        """Those that start hold for nothing, and are told nothing."""
        store, engine, await_end = self.idle()
        take_part, engine.take_part = engine.take_part, lambda it: None
        store.stop_job()
        engine.await_word("barrier", 1, Kind.SAVEPOINT, True)
        engine.runner.restart()
        engine.await_word("start", 2, None, None)
        engine.take_part = take_part
        engine.await_word("complete", self.triggered(store))
        self.close(engine, await_end)
        self.assertNotIn(("go on",), engine.said)

    def triggered(self, store):
        """The number of a checkpoint, once the job runs."""
        until(lambda: store.phase().phase == Phase.RUNNING)
        return store.trigger().reply.id

    def test_a_record_that_expires(self):
        """A timer ends it, and the loop tells that before the next barrier."""
        engine = Acknowledging()
        engine.take_part = lambda it: None
        store, engine, await_end = self.idle(engine, tolerable=10)
        first = store.trigger().reply.id
        engine.await_word("barrier", first, Kind.CHECKPOINT, False)
        settings, _ = store.job()
        store.configure(dataclasses.replace(settings, timeout=1))
        until(lambda: store.history(1))
        store.configure(settings)
        second = store.trigger().reply.id
        engine.await_word("barrier", second, Kind.CHECKPOINT, False)
        said = engine.said[:4]
        self.assertEqual(said[1:], [("barrier", first, Kind.CHECKPOINT, False), ("aborted", [first]), ("barrier", second, Kind.CHECKPOINT, False)])

    def test_a_stop_right_after_one_that_fails(self):
        """The loop is never told that the first one has failed."""
        store, engine, await_end = self.running(tolerable=10)
        again = []
        engine.then = lambda: again.append(store.stop_job().reply.id)
        engine.declined = Kind.SAVEPOINT
        first = store.stop_job().reply.id
        self.assertEqual(await_end(), Ended.STOPPED)
        [second] = again
        said = engine.said[engine.said.index(("barrier", first, Kind.SAVEPOINT, True)) + 1:]
        self.assertEqual(said, [("go on",), ("barrier", second, Kind.SAVEPOINT, True), ("complete", second), ("end",), ("stopped", second, TASKS)])

    def test_a_process_that_dies_between_a_stop_and_its_publication(self):
        """Until the next start nothing of the last interval is published. It tells the sinks, once more if it is made once more, and no task runs."""
        prepared, published = [], []
        store, engine, await_end = self.running(Sink(prepared, published))
        savepoint = store.stop_job().reply.id
        self.assertIsInstance(await_end(), KeyboardInterrupt)
        self.assertEqual((published, prepared), (list(range(1, savepoint)), [savepoint]))
        for _ in range(2):
            store, engine, await_end = self.begin(Sink(prepared, published))
            self.assertEqual(await_end(), Ended.STOPPED)
            self.assertEqual(engine.said, [("end",), ("stopped", savepoint, 0)])
            self.assertEqual((published, prepared), (list(range(1, savepoint + 1)), []))

    def test_an_engine_that_is_not_told_of_a_stop(self):
        store, engine, await_end = self.running(Untold())
        store.stop_job()
        self.assertEqual(await_end(), Ended.STOPPED)
        self.assertEqual(engine.said[-1], ("end",))
        _, engine, await_end = self.begin(Untold())
        self.assertEqual(await_end(), Ended.STOPPED)
        self.assertEqual(engine.said, [("end",)])

    def forfeited(self, store):
        """Puts a file that no record will have."""
        [name] = store.reserve(1, 1)
        store.put(name, b"state")
        store.forfeit(1, [name])
        return str(name)

    def test_a_sweep_now_and_then(self):
        store, engine, await_end = self.running(sweep_interval=1)
        name = self.forfeited(store)
        until(lambda: name not in self.files())
        self.close(engine, await_end)
        self.assertEqual(len(engine.all("start")), 1)

    def test_a_sweep_before_tasks_start(self):
        engine, sweep = Words(), Store.sweep
        with mock.patch.object(Store, "sweep", lambda it: (engine.note("sweep"), sweep(it))[1]):
            store, engine, await_end = self.idle(engine)
            engine.runner.restart()
            engine.await_word("start", 2, None, None)
            self.close(engine, await_end)
        self.assertEqual(engine.said, [("sweep",), ("start", 1, None, None), ("end",), ("sweep",), ("start", 2, None, None), ("end",)])

    def test_a_sweep_that_is_not_due(self):
        store, engine, await_end = self.running()
        name = self.forfeited(store)
        engine.await_more("complete", 5)
        self.assertIn(name, self.files())
        self.close(engine, await_end)

    def fails_once(self, fault):
        """A sweep that fails the second time: the first one is that of the begin."""
        sweep, times = Store.sweep, itertools.count(1)

        def swept(store):
            if next(times) == 2:
                raise fault
            return sweep(store)
        return mock.patch.object(Store, "sweep", swept)

    def test_a_sweep_that_fails_is_tried_at_the_next_time(self):
        for fault in (StoreError("NotDone", "not now", False), OutOfMemory()):
            with self.fails_once(fault):
                self.test_a_sweep_now_and_then()
            self.setUp()

    def test_a_sweep_of_another_folder_ends_the_run(self):
        with self.fails_once(StoreError("Storage", "another's", False)):
            _, _, await_end = self.begin(sweep_interval=1)
            fault = await_end()
        self.assertIsInstance(fault, StoreError)
        self.assertEqual(fault.name, "Storage")

    def test_reports_of_a_term(self):
        """Each task reports its death, also those that were fenced by the restart that the first report has brought: the tasks start twice, and not thrice."""
        store, engine, await_end = self.running()
        engine.runner.restart(1)
        engine.await_count("start", 2)
        for _ in range(10):
            engine.runner.restart(1)
        engine.await_more("complete", 10)
        self.assertEqual(engine.all("start"), [1, 2])
        engine.runner.restart(2)
        engine.await_count("start", 3)
        self.assertEqual(engine.all("start"), [1, 2, 3])
        self.close(engine, await_end)

    def restarts_after(self, command):
        """A task that dies by a command of an operator, and reports it before the loop looks."""
        store, engine, await_end = self.running()
        take_part = engine.take_part
        engine.take_part = lambda it: command(store, it, take_part) and engine.runner.restart(it.term)
        return await_end(), engine

    def test_a_task_that_died_of_a_cancel(self):
        ended, engine = self.restarts_after(lambda store, it, take_part: store.cancel())
        self.assertEqual(ended, Ended.CANCELLED)
        self.assertEqual((engine.said[-1], sum(it[0] == "start" for it in engine.said)), (("end",), 1))
        self.assertEqual(self.files(), [])

    def test_a_task_that_died_of_a_stop(self):
        def stop(store, it, take_part):
            take_part(it)
            if it.kind == Kind.CHECKPOINT:
                store.stop_job()
            return it.kind == Kind.SAVEPOINT
        ended, engine = self.restarts_after(stop)
        self.assertEqual(ended, Ended.STOPPED)
        self.assertEqual(len(engine.all("start")), 1)
        self.assertEqual([it[0] for it in engine.said[-3:]], ["barrier", "end", "stopped"])

    def test_a_stopped_job_that_is_restored_elsewhere(self):
        """No number says what to publish then: the record has the list."""
        store, engine, await_end = self.idle()
        earlier = store.savepoint().reply.id  # nobody sends its barrier
        for index in range(TASKS):
            engine.runner.ack(1, earlier, 0, index)
        take_part = engine.take_part

        def is_restored(it):
            take_part(it)
            store.restore(savepoint=earlier)
        engine.take_part = is_restored
        store.stop_job()
        self.assertEqual(await_end(), Ended.STOPPED)
        self.assertEqual((earlier, engine.said[1:]), (1, [("barrier", 2, Kind.SAVEPOINT, True), ("end",), ("stopped", 1, 0)]))

    def test_a_cancel_between_a_look_and_a_restore(self):
        store, engine, await_end = self.running()
        end, once = engine.end, iter([store.cancel])

        def ends():
            end()
            next(once, lambda: None)()
        engine.end = ends
        engine.runner.restart()
        self.assertEqual(await_end(), Ended.CANCELLED)
        self.assertEqual(len(engine.all("start")), 1)

    def test_calls_from_inside_complete_and_aborted(self):
        store, engine, await_end = self.running(Acknowledging(), tolerable=10)
        engine.declined = Kind.CHECKPOINT
        engine.await_count("aborted", 1)
        self.close(engine, await_end)
        told = sum(it[0] in ("complete", "aborted") for it in engine.said)
        self.assertEqual(engine.faults, ["NotNow"] * (2 * told))

    def test_an_acknowledgement_that_waits_for_no_sink(self):
        """The sinks publish for long; meanwhile a task acknowledges, and completes nothing."""
        engine, is_slow = Words(), threading.Event()
        engine.complete = lambda id: (engine.note("complete", id), id == 2 and is_slow.wait(LONGEST))
        store, engine, await_end = self.idle(engine)
        for id in (1, 2):
            self.assertEqual(store.trigger().reply.id, id)
            engine.await_word("complete", id)
        third = store.trigger().reply.id
        with self.assertRaises(Refused):
            engine.runner.ack(1, third, 0, TASKS)  # there is no such task
        engine.runner.ack(1, third, 0, 0, payload=b"state")
        self.assertNotIn(("complete", 3), engine.said)
        is_slow.set()
        self.close(engine, await_end)

    def test_memory_that_runs_out(self):
        for name in ("load", "sweep", "restore"):
            call, times = getattr(Store, name), itertools.count(1)

            def refuses(store, *words, call=call, times=times):
                if next(times) == 1:
                    raise OutOfMemory
                return call(store, *words)
            with mock.patch.object(Store, name, refuses):
                store, engine, await_end = self.running()
                self.close(engine, await_end)
            self.assertGreater(next(times), 1)

    def test_a_file_that_is_lost(self):
        store, engine, await_end = self.running(count=2)
        kept = self.forfeited(store)
        self.close(engine, await_end)
        for it in set(self.files()) - {kept}:
            os.unlink(self.folder / "state" / it)
        with mock.patch.object(Store, "sweep") as swept:
            store, engine, await_end = self.begin()
            self.assertIsInstance(await_end(), FileLost)
        swept.assert_not_called()
        self.assertEqual((engine.said, self.files()), ([("end",)], [kept]))

    def ends_by_what(self, word, declined=None):
        """Checks that what the engine raises at `word`, in the thread of a task, ends run(), and not the task."""
        engine = Failing(word)
        engine.declined = declined
        _, _, await_end = self.begin(engine, tolerable=10)
        fault = await_end()
        self.assertIsInstance(fault, LookupError)
        self.assertEqual(fault.args, (word,))
        self.assertEqual(len(engine.tasks), sum(it[0] == "barrier" for it in engine.said))
        self.assertNotIn(("end",), engine.said)

    def test_sinks_and_tasks_that_fail_end_the_run(self):
        self.ends_by_what("complete")
        self.setUp()
        self.ends_by_what("aborted", Kind.CHECKPOINT)

    def test_a_discarder_that_fails_ends_the_run(self):
        engine = Words()
        engine.complete = lambda id: engine.runner.close() if id > 50 else None  # it has failed long before
        with mock.patch.object(Store, "discard", side_effect=LookupError("discard")):
            _, _, await_end = self.begin(engine)
            self.assertIsInstance(await_end(), LookupError)

    def test_a_discarder_that_fails_while_the_run_waits_for_it(self):
        engine, is_over = Words(), threading.Event()

        def fails(store):
            is_over.wait(LONGEST)
            raise LookupError("discard")

        def ends():
            is_over.set()
            until(lambda: engine.runner._failed)
        with mock.patch.object(Store, "discard", fails):
            store, engine, await_end = self.running(engine)
            engine.end, engine.runner._has_files = ends, iter((True, True, False)).__next__
            store.cancel()
            self.assertIsInstance(await_end(), LookupError)

    def test_a_savepoint(self):
        """Its barrier goes the way of a checkpoint's. It is complete when the answer comes, and publishes nothing."""
        store, engine, await_end = self.idle()
        take_part, bases = engine.take_part, []
        engine.take_part = lambda it: (bases.append(it.base), take_part(it))
        first = store.trigger().reply.id
        engine.await_word("complete", first)
        id = engine.runner.savepoint()
        self.assertEqual((store.history(1)[0].id, store.history(1)[0].ending), (id, Ending.COMPLETED))
        self.assertEqual([len(it.files) for it in store.load(id).parts], [1, 1])
        last = store.trigger().reply.id
        engine.await_word("complete", last)
        self.close(engine, await_end)
        self.assertEqual(engine.said[1:], [
            ("barrier", first, Kind.CHECKPOINT, False), ("complete", first), ("barrier", id, Kind.SAVEPOINT, False),
            ("barrier", last, Kind.CHECKPOINT, False), ("complete", last), ("end",)])
        self.assertEqual(bases, [None, Chosen(first, Kind.CHECKPOINT), Chosen(first, Kind.CHECKPOINT)])

    def test_savepoints_of_several_threads(self):
        store, engine, await_end = self.begin()
        with ThreadPoolExecutor(5) as threads:
            found = list(threads.map(lambda _: engine.runner.savepoint(), range(5), timeout=LONGEST))
        self.close(engine, await_end)
        sent = [it[1] for it in engine.said if it[:1] == ("barrier",) and it[2] == Kind.SAVEPOINT]
        self.assertEqual((len(set(found)), sorted(found)), (5, sent))

    def fails(self, runner, id, ending, reason=""):
        with self.assertRaises(SavepointFailed) as caught:
            runner.savepoint()
        why = caught.exception
        self.assertEqual((why.id, why.ending, why.reason), (id, ending, reason))
        return str(why)

    def test_a_savepoint_that_is_declined(self):
        _, engine, _ = self.idle(tolerable=10)
        engine.declined = Kind.SAVEPOINT
        self.assertEqual(self.fails(engine.runner, 1, Ending.DECLINED, "no disk"), "savepoint 1 was declined: no disk")

    def test_a_savepoint_that_expires(self):
        _, engine, _ = self.idle(timeout=50)
        engine.take_part = lambda it: None
        self.assertEqual(self.fails(engine.runner, 1, Ending.EXPIRED), "savepoint 1 was expired")

    def test_a_savepoint_that_a_restart_drops(self):
        store, engine, await_end = self.idle()
        engine.take_part = lambda it: engine.runner.restart()
        self.fails(engine.runner, 1, Ending.DROPPED)
        self.assertEqual(engine.all("start"), [1, 2])

    def test_a_savepoint_that_a_stop_drops(self):
        store, engine, await_end = self.idle()
        take_part = engine.take_part
        engine.take_part = lambda it: take_part(it) if it.holds else None
        asked = self.asked(engine)
        engine.await_word("barrier", 1, Kind.SAVEPOINT, False)
        engine.runner.ask_to_stop()
        self.stops(engine, await_end(), 2)
        self.assertEqual(self.failed(asked), (1, Ending.DROPPED))

    def test_a_savepoint_of_a_job_that_is_being_stopped(self):
        store, engine, await_end = self.idle()
        engine.take_part = lambda it: None
        store.stop_job()
        engine.await_word("barrier", 1, Kind.SAVEPOINT, True)
        self.assertRaisesRegex(Refused, "^NotRunning", engine.runner.savepoint)

    def asked(self, engine):
        """Asks for a savepoint in a thread, and returns once the loop has to do it."""
        asked = ThreadPoolExecutor(1).submit(engine.runner.savepoint)
        until(lambda: engine.runner._asked or engine.runner._savepoints)
        return asked

    def failed(self, asked):
        why = asked.exception(LONGEST)
        self.assertIsInstance(why, SavepointFailed)
        return why.id, why.ending

    def test_a_savepoint_that_waits_for_a_restore(self):
        """It is asked for while the job fails, and taken once the job was restored."""
        store, engine, await_end = self.idle()
        engine.declined, asked = Kind.CHECKPOINT, []
        engine.then = lambda: asked.append(self.asked(engine))
        store.trigger()
        engine.await_word("barrier", 2, Kind.SAVEPOINT, False)
        self.assertEqual((asked[0].result(LONGEST), engine.all("start")), (2, [1, 2]))

    def test_a_savepoint_right_after_a_way_back(self):
        """It is triggered in the term of tasks that do not run yet: these get its barrier too."""
        store, engine, await_end = self.idle(retained=3)
        first = store.trigger().reply.id
        engine.await_word("complete", first)
        store.trigger()
        engine.await_word("complete", first + 1)
        savepoint, once = Store.savepoint, iter([lambda: store.go_back(first, accept_published=True)])

        def behind(it):
            next(once, lambda: None)()
            return savepoint(it)
        with mock.patch.object(Store, "savepoint", behind):
            id = engine.runner.savepoint()
        sent = [it for it in engine.said if it[0] in ("start", "fenced") or it[:2] == ("barrier", id)]
        barrier = ("barrier", id, Kind.SAVEPOINT, False)
        self.assertEqual(sent, [("start", 1, None, None), barrier, ("fenced",), ("start", 2, id - 1, TASKS), barrier])

    def test_savepoints_when_the_run_ends(self):
        store, engine, await_end = self.idle()
        engine.take_part = lambda it: None
        asked = self.asked(engine)
        engine.await_word("barrier", 1, Kind.SAVEPOINT, False)
        engine.runner.close()
        self.assertEqual((self.failed(asked), await_end()), ((1, None), Ended.CLOSED))
        self.assertEqual(self.fails(engine.runner, None, None), "run() has ended, and no savepoint was triggered")

    def test_a_savepoint_that_is_complete_as_the_run_ends(self):
        store, engine, await_end = self.idle()
        take_part = engine.take_part
        engine.take_part = lambda it: threading.Timer(0.05, lambda: (take_part(it), engine.runner.close())).start()
        self.assertEqual((engine.runner.savepoint(), await_end()), (1, Ended.CLOSED))

    def test_a_savepoint_when_the_run_fails(self):
        engine = Words()
        engine.take_part = lambda it: {}["nothing"]
        store, engine, await_end = self.begin(engine, interval=1 << 39)
        self.assertEqual(self.failed(self.asked(engine)), (1, None))
        self.assertIsInstance(await_end(), KeyError)

    def test_a_savepoint_that_would_wait_for_itself(self):
        """In the thread of run(), and inside complete()."""
        faults = []

        class Asking(Failing):
            def asked(self, word):
                try:
                    self.runner.savepoint()
                except StoreError as why:
                    faults.append(why.name)

            def start(self, term, record):
                self.asked("start")
                super().start(term, record)

        store, engine, await_end = self.running(Asking(None))
        self.close(engine, await_end)
        self.assertEqual(faults, ["NotNow"] * (1 + sum(it[0] == "complete" for it in engine.said)))

    def stops(self, engine, ended, savepoint):
        self.assertEqual(ended, Ended.STOPPED)
        stop = [("barrier", savepoint, Kind.SAVEPOINT, True), ("complete", savepoint), ("end",), ("stopped", savepoint, TASKS)]
        self.assertEqual(engine.said[-4:], stop)

    def test_a_stop_that_is_asked_for_is_tried_again(self):
        store, engine, await_end = self.idle(tolerable=10)
        engine.declined = Kind.SAVEPOINT
        engine.runner.ask_to_stop()
        self.stops(engine, await_end(), 2)
        self.assertEqual(sum(it == ("go on",) for it in engine.said), 1)

    def test_a_stop_that_is_asked_for_of_a_job_that_fails(self):
        store, engine, await_end = self.idle()
        engine.declined, engine.then = Kind.CHECKPOINT, engine.runner.ask_to_stop
        store.trigger()
        self.stops(engine, await_end(), 2)
        self.assertEqual(engine.all("start"), [1, 2])

    def test_a_stop_by_a_signal(self):
        before = signal.getsignal(signal.SIGTERM)
        self.addCleanup(lambda: signal.signal(signal.SIGTERM, before))
        store, engine, await_end = self.idle()
        engine.runner.stop_at_signals(signal.SIGTERM)
        self.assertNotEqual(signal.getsignal(signal.SIGTERM), before)
        os.kill(os.getpid(), signal.SIGTERM)
        self.stops(engine, await_end(), 1)
        self.assertEqual(signal.getsignal(signal.SIGTERM), before)

    def test_a_second_signal_ends_the_process(self):
        for first, second in ((signal.SIGTERM, signal.SIGTERM), (signal.SIGINT, signal.SIGTERM), (signal.SIGTERM, signal.SIGINT)):
            words = [sys.executable, "-c", HANGS, self.folder]
            with subprocess.Popen(words, stdout=subprocess.PIPE, stderr=subprocess.DEVNULL, text=True,
                                  preexec_fn=lambda: signal.signal(signal.SIGINT, signal.SIG_DFL)) as process:
                said = iter(process.stdout.readline, "started\n")
                self.assertIn(list(said), ([], ["ended\n"]))  # what an earlier process has begun is ended first
                process.send_signal(first)
                self.assertEqual(process.stdout.readline(), "barrier\n")
                process.send_signal(second)
                self.assertEqual((process.wait(LONGEST), process.stdout.read()), (-second, ""))

    def test_signals_that_are_ignored_or_come_late(self):
        said = []
        for number, handler in ((signal.SIGUSR1, signal.SIG_IGN), (signal.SIGUSR2, lambda *_: said.append("the handler before"))):
            self.addCleanup(signal.signal, number, signal.signal(number, handler))
        store, engine, await_end = self.idle()
        engine.runner.stop_at_signals(signal.SIGUSR1, signal.SIGUSR2)
        self.assertEqual(signal.getsignal(signal.SIGUSR1), signal.SIG_IGN)
        self.close(engine, await_end)
        os.kill(os.getpid(), signal.SIGUSR2)
        self.assertEqual(said, ["the handler before"])

    def test_a_begin_by_the_runner(self):
        """It has no effect on a job that runs. A job that was stopped when its file was opened goes on."""
        store, engine, await_end = self.running()
        engine.runner.begin_job()
        id = store.stop_job().reply.id
        self.stops(engine, await_end(), id)
        self.assertEqual(len(engine.all("start")), 1)
        store, engine = self.last(id + 2)
        engine.runner.begin_job()
        self.assertEqual((store.phase().phase, engine.runner.run()), (Phase.RUNNING, Ended.CLOSED))
        self.assertEqual([it[0] for it in engine.said[:3]], ["end", "start", "barrier"])
        self.assertEqual(engine.said[1][2:], (id, TASKS))

    def test_a_stop_of_the_handle(self):
        store, engine, await_end = self.idle()
        store.stop()
        self.assertEqual((await_end(), engine.said[1:]), (Ended.CLOSED, [("end",)]))

    def test_a_last_record(self):
        store, engine = self.last(3, create=True)
        self.assertEqual(engine.runner.run(), Ended.CLOSED)
        store.close()
        self.assertEqual(engine.all("complete")[:3], [1, 2, 3])
        self.assertNotIn(("complete", 5), engine.said)
        _, engine = self.last(3)
        self.assertEqual((engine.runner.run(), [it[0] for it in engine.said]), (Ended.CLOSED, ["end", "start", "end"]))

    def test_tasks_that_fail_and_tasks_of_an_old_term(self):
        store, engine, await_end = self.idle()
        engine.runner.restart()
        engine.await_count("start", 2)
        old = engine.runner.spawn(lambda: engine.runner.ack(1, 1, 0, 0))
        old.join()
        store.trigger()
        engine.await_word("complete", 1)  # the run goes on

        def fails(word):
            raise LookupError(word)
        engine.runner.spawn(fails, "no input").join()
        fault = await_end()
        self.assertIsInstance(fault, LookupError)
        self.assertEqual(fault.args, ("no input",))

    def test_faults_of_tasks_whose_term_has_ended(self):
        """A restart sweeps the file that a task is writing, and whatever else such a task meets: each ends that task alone."""
        store, engine, await_end = self.idle()
        sent, goes_on = threading.Event(), threading.Event()

        class Slow:
            def read(self, room):
                if sent.is_set():
                    return b""
                sent.set()
                goes_on.wait(LONGEST)
                return b"state"

        faults = []

        def puts(term):
            [name] = store.reserve(term, 1)
            try:
                store.put_from(name, Slow())
            except StoreError as why:
                faults.append(why.name)
                raise

        def fails():
            goes_on.wait(LONGEST)
            raise LookupError("its input is gone")

        tasks = [engine.runner.spawn(puts, 1), engine.runner.spawn(fails)]
        self.assertTrue(sent.wait(LONGEST))
        engine.runner.restart()
        engine.await_count("start", 2)
        goes_on.set()
        for it in tasks:
            it.join(LONGEST)
        self.assertEqual(faults, ["NotPut"])
        store.trigger()
        engine.await_word("complete", 1)  # the run goes on
        self.close(engine, await_end)

    def test_a_fault_of_a_task_whose_term_has_ended_before_the_next_begins(self):
        """The sweep of a restart comes before the tasks of the next term start."""
        store, engine, await_end = self.idle()
        swept, sweep = [], store.sweep

        def fails():
            until(lambda: swept)
            raise LookupError("its file is gone")

        task = engine.runner.spawn(fails)

        def sweeps():
            swept.append(True)
            task.join(LONGEST)
            return sweep()

        with mock.patch.object(store, "sweep", sweeps):
            engine.runner.restart()
            engine.await_count("start", 2)
        self.close(engine, await_end)

    def test_a_fault_of_a_task_over_a_store_that_is_closed(self):
        """Nobody can say then whether its term has ended."""
        store, engine, _ = self.idle()
        with mock.patch.object(store, "term", side_effect=StoreError("Closed", "", False)):
            engine.runner.spawn(lambda: {}["input"]).join()
        self.assertIsInstance(engine.runner._failed, KeyError)

    def test_restarts_that_leave_no_thread(self):
        """A thousand in one process. The tasks of each wait for elements, and for room, when their engine closes their inputs."""
        def start(term, record):
            engine.inputs = Inputs(2, room=1)
            engine.runner.spawn(lambda: engine.inputs.take())
            for source in range(2):
                engine.runner.spawn(source_of, engine.inputs, source)
            engine.note("start")

        def source_of(inputs, source):
            while source == 0:
                inputs.put(0, "element")
            inputs.put(1, barrier(1))
            inputs.put(1, "behind")
            inputs.put(1, "and no room")

        def declines(it):
            engine.runner.decline(it.term, it.id, 0, 0)  # by which the job has failed

        engine = Words()
        engine.start, engine.barrier, engine.end = start, declines, lambda: engine.inputs.close()
        store, _, await_end = self.begin(engine, interval=1 << 39)
        found = []
        for restarts in range(1000):
            engine.await_count("start", restarts + 1)
            if restarts in (10, 999):
                found.append(self.left())
            store.trigger()
        engine.await_count("start", 1001)
        self.close(engine, await_end)
        self.assertLess(found[1][0], found[0][0] + 10)
        self.assertLess(found[1][1], found[0][1] + 10)  # what a restart has open for a moment counts too

    def left(self):
        """How many threads and descriptors there are, once those of tasks that were told to end are gone."""
        until(lambda: threading.active_count() <= 12)
        return threading.active_count(), len(os.listdir("/proc/self/fd"))

    def test_a_barrier_of_a_term_that_has_just_ended(self):
        """It acknowledges right after an operator has cancelled the job."""
        engine = Words()
        engine.barrier = lambda it: (engine.runner.store.cancel(), engine.note("barrier"), engine.runner.ack_payload(it, 0, 0, b""))
        _, _, await_end = self.begin(engine)
        self.assertEqual((await_end(), engine.said[1:]), (Ended.CANCELLED, [("barrier",), ("end",)]))

    def test_two_completions_in_another_order(self):
        store, engine, await_end = self.running()
        engine.runner._tell(engine.runner.term, 1)
        engine.runner._tell(engine.runner.term - 1, 1 << 30)
        self.close(engine, await_end)
        told = engine.all("complete")
        self.assertEqual(told, sorted(set(told)))
        self.assertLess(told[-1], 1 << 30)


def barrier(id):
    return Barrier(id, Kind.CHECKPOINT, None, 1, False)


class Taking(unittest.TestCase):
    def test_an_input_that_is_full(self):
        inputs, said = Inputs(1, room=2), []

        def put():
            for it in range(4):
                inputs.put(0, it)
                said.append(it)
        thread = threading.Thread(target=put)
        thread.start()
        until(lambda: len(said) == 2)
        time.sleep(0.05)
        self.assertEqual(said, [0, 1])
        self.assertEqual([inputs.take() for _ in range(4)], [(0, it) for it in range(4)])
        thread.join(LONGEST)
        self.assertEqual(said, [0, 1, 2, 3])

    def begun(self, call, *words):
        """A thread that waits."""
        thread = threading.Thread(target=call, args=words, daemon=True)
        thread.start()
        thread.join(0.05)
        return thread

    def test_two_threads_that_wait_for_room(self):
        """The first one waits for an input that a barrier keeps. Room on the other input is for the second one."""
        inputs = Inputs(2, room=1)
        inputs.put(0, barrier(1))
        inputs.put(1, "a")
        self.assertEqual(inputs.take(), (1, "a"))
        inputs.put(0, "behind")
        inputs.put(1, "b")
        threads = [self.begun(inputs.put, 0, "last"), self.begun(inputs.put, 1, barrier(1))]
        self.assertEqual(inputs.take(), (1, "b"))
        threads[1].join(LONGEST)
        self.assertFalse(threads[1].is_alive())
        self.assertEqual([inputs.take() for _ in range(3)], [(1, barrier(1)), (0, "behind"), (0, "last")])

    def test_room_for_nothing(self):
        """An input has room for one item at least."""
        inputs = Inputs(1, room=0)
        thread = self.begun(inputs.put, 0, "a")
        thread.join(LONGEST)
        self.assertFalse(thread.is_alive())
        self.assertEqual(inputs.take(), (0, "a"))

    def test_inputs_that_are_closed(self):
        """Who waits, and whoever comes later, is told: for an element, for room, to end an input, and behind the end of an input."""
        empty, full = Inputs(1), Inputs(2, room=1)
        full.put(0, "a")
        full.end(1)
        told, waits = [], [empty.take, lambda: full.put(0, "b"), lambda: full.end(0)]

        def note(call):
            try:
                told.append(call())
            except InputsClosed as why:
                told.append(why)

        threads = [self.begun(note, it) for it in waits]
        self.assertEqual(told, [])
        for it in (empty, full, full):
            it.close()
        for it in threads:
            it.join(LONGEST)
        for it in (empty.take, full.take, lambda: empty.put(0, "c"), lambda: full.put(1, "d"), lambda: empty.end(0)):
            note(it)
        self.assertEqual([type(it) for it in told], [InputsClosed] * 8)
        self.assertFalse(full.give_up(1))

    def of(self, *channels):
        """Inputs with these items, of which None is the end."""
        inputs = Inputs(len(channels))
        for input, items in enumerate(channels):
            for it in items:
                inputs.end(input) if it is None else inputs.put(input, it)
        return inputs

    def all_of(self, inputs, taken=None):
        """All that is taken until each input has ended."""
        taken = [] if taken is None else taken
        while True:
            try:
                taken.append(inputs.take())
            except BadStep as end:
                self.assertEqual(end.name, "EndedInput")
                return taken

    def test_an_end_while_the_task_waits(self):
        inputs, taken = self.of([barrier(1)], []), []
        thread = self.begun(self.all_of, inputs, taken)
        self.assertEqual(taken, [])
        inputs.end(1)
        self.await_taken(taken, [(1, barrier(1))])
        thread.join(0.05)
        self.assertTrue(thread.is_alive())
        inputs.end(0)
        thread.join(LONGEST)
        self.assertEqual((taken, thread.is_alive()), ([(1, barrier(1))], False))

    def await_taken(self, taken, expected):
        until(lambda: len(taken) >= len(expected))
        self.assertEqual(taken, expected)

    def test_what_comes_behind_an_end(self):
        """Nobody puts it, also after the end was taken. An input that ends while it is full waits for room."""
        inputs = Inputs(2, room=1)
        inputs.put(0, "a")
        thread = self.begun(inputs.end, 0)
        self.assertTrue(thread.is_alive())
        self.assertEqual(inputs.take(), (0, "a"))
        thread.join(LONGEST)
        inputs.put(1, "p")
        self.assertEqual(inputs.take(), (1, "p"))
        inputs.put(1, "q")
        self.assertEqual(inputs.take(), (1, "q"))  # the end of the other one was taken before
        for put in (lambda: inputs.put(0, "b"), lambda: inputs.put(0, barrier(1)), lambda: inputs.end(0)):
            self.assertRaisesRegex(BadStep, "^EndedInput$", put)
        self.assertRaises(IndexError, inputs.end, 2)
        inputs.end(1)
        self.assertEqual(self.all_of(inputs), [])

    def test_a_record_that_is_given_up(self):
        """What its barriers held comes to a task that waits, in order, each input has its turn, and its other barriers are dropped. The next record is cut."""
        inputs = self.of([barrier(1), "a", "b", barrier(2), "c"], ["p"], [barrier(1), "x"])
        self.assertEqual(inputs.take(), (1, "p"))
        taken = []
        thread = self.begun(lambda: taken.extend(inputs.take() for _ in range(7)))
        self.assertEqual(taken, [])
        self.assertTrue(inputs.give_up(1))
        self.await_taken(taken, [(0, "a"), (2, "x"), (0, "b")])
        for input, it in ((1, barrier(1)), (1, "q"), (1, barrier(2)), (1, "r"), (2, barrier(2))):
            inputs.put(input, it)
        thread.join(LONGEST)
        self.assertEqual((taken[3], taken[4][1], sorted(taken[5:])), ((1, "q"), barrier(2), [(0, "c"), (1, "r")]))


if __name__ == "__main__":
    unittest.main()
