"""Tests of relkvanu.dask, relkvanu.daskstream and relkvanu.outputs over a cluster in this process."""
import asyncio
import contextlib
import io
import os
import pathlib
import pickle
import re
import sqlite3
import subprocess
import sys
import tempfile
import threading
import time
import unittest
from unittest import mock

import dask.array as da
import numpy
import pandas
import streamz
from distributed import Client, LocalCluster

import graph
from relkvanu import daskstream, outputs, records
from relkvanu.dask import Checkpoints, NotPersisted, Place, Stopped
from relkvanu.daskstream import GraphError
from relkvanu.parts import (
    Failed, PartError, State, digest_of, get_part, part_of, pickled, pickled_in_pieces, place_of, put_part, take_step,
)
from relkvanu.records import origin_of
from relkvanu.storage import Folder


def add(total, number):
    return total + number


def count(counts, word):
    counts[word] = counts.get(word, 0) + 1
    return counts


def size_and_state(counts, word):
    counts[word] = counts.get(word, 0) + 1
    return counts, len(counts)


def fails(number):
    if number == 13:
        raise ZeroDivisionError
    return number


def row(it):
    return (it,)


def falls_once(block):
    falls_once.left -= 1
    if falls_once.left == 0:
        raise OSError
    return block + 1


def impure():
    impure.calls += 1
    return impure.calls


def wait_until(condition):
    end = time.monotonic() + 600
    while not condition():
        assert time.monotonic() < end
        time.sleep(0.01)


def record(checkpoints, element):
    """A checkpoint behind an element, whose position it is too."""
    checkpoints.emit(element, element)
    checkpoints.checkpoint()


class Base(unittest.TestCase):
    @classmethod
    def setUpClass(cls):
        cls.cluster = LocalCluster(n_workers=2, threads_per_worker=1, processes=False, dashboard_address=None, silence_logs=50)
        cls.client = Client(cls.cluster)

    @classmethod
    def tearDownClass(cls):
        cls.client.close()
        cls.cluster.close()

    def setUp(self):
        self.temporary = tempfile.TemporaryDirectory()
        self.addCleanup(self.temporary.cleanup)
        self.folder = pathlib.Path(self.temporary.name)
        self.state = self.folder / "state"
        self.state.mkdir()

    def files(self):
        return sorted(int(it) for it in os.listdir(self.state) if it.isdecimal())


class Collections(Base):
    def opened(self, create=True, **more):
        return Checkpoints(self.client, self.state, self.folder / "job.db", create=create, **more)

    def loaded(self):
        checkpoints = self.opened()
        checkpoints.load()
        return checkpoints

    def test_unchanged_partitions_are_not_written(self):
        with self.opened() as checkpoints:
            self.assertIsNone(checkpoints.load())
            x = da.arange(8, chunks=1).persist()
            self.assertRaises(NotPersisted, checkpoints.save, 0, x=x + 1)
            self.assertEqual(checkpoints.save("one", x=x)[:3], (1, 8, 0))
            self.assertEqual(checkpoints.save("two", x=x)[:3], (2, 0, 8))
            y = da.concatenate([x[:7], x[7:] + 1]).persist()
            self.assertEqual(checkpoints.save("three", x=y)[:3], (3, 1, 7))
            wait_until(lambda: checkpoints.counts() == (9, 0))
        with self.opened(create=False) as checkpoints:
            meta, found = checkpoints.load()
            self.assertEqual((meta, list(found["x"].compute())), ("three", [0, 1, 2, 3, 4, 5, 6, 8]))
            self.assertEqual(checkpoints.save("four", x=found["x"])[1:3], (0, 8))
        self.assertEqual(len(self.files()), 9)

    def test_a_stop_and_a_begin(self):
        """A second stop comes before any checkpoint. Each savepoint is gone once a later record is complete."""
        with self.loaded() as checkpoints:
            x = da.arange(4, chunks=1).persist()
            checkpoints.save("one", x=x)
            self.assertEqual(checkpoints.stop("two", x=x)[:3], (2, 0, 4))
            for refused in (checkpoints.load, lambda: checkpoints.save("three", x=x), lambda: checkpoints.stop("three", x=x)):
                self.assertEqual(self.stopped_at(refused), 2)
        for _ in range(2):
            with self.opened() as checkpoints, self.assertNoLogs("relkvanu.dask"):  # no way back
                self.assertRaises(Failed, checkpoints.sweep)  # what it would delete may be all that is left
                self.assertEqual(self.stopped_at(checkpoints.load), 2)
                self.assertEqual(self.stopped_at(lambda: checkpoints.run(None, None)), 2)
        with self.opened(begin=True) as checkpoints:
            meta, found = checkpoints.load()
            self.assertEqual((meta, list(found["x"].compute())), ("two", [0, 1, 2, 3]))
            self.assertEqual(checkpoints.stop("three", x=da.concatenate([found["x"][:3], found["x"][3:] + 1]).persist())[1:3], (1, 3))
            self.assertEqual(self.stopped_at(checkpoints.load), 3)  # it begins once
        with self.opened(begin=True) as checkpoints:
            meta, found = checkpoints.load()
            self.assertEqual((meta, list(found["x"].compute())), ("three", [0, 1, 2, 4]))
            checkpoints.save("four", x=found["x"])
            self.assertEqual(checkpoints.load()[0], "four")
            self.assertEqual(savepoints(checkpoints), 0)
        self.assertEqual(len(self.files()), 5)

    def stopped_at(self, work):
        with self.assertRaisesRegex(Stopped, "begin=True") as found:
            work()
        return found.exception.savepoint

    def test_a_stop_that_is_asked_for_while_it_runs(self):
        """The first try fails, and so does its stop. The program ends without a way back after the second."""
        fails = [OSError()]

        def step(number, x):
            if number == 3 and fails:
                checkpoints.ask_to_stop()
                x = x.map_blocks(self.falls, meta=x._meta)
                fails.pop()
            return number + 1, {"x": x + 1}

        for first, last in ((0, 4), (4, 5)):
            with self.opened(begin=first > 0) as checkpoints:
                if first:
                    checkpoints.ask_to_stop()
                self.assertEqual(self.stopped_at(lambda: checkpoints.run(step, lambda: (0, {"x": da.zeros(2, chunks=1)}))), checkpoints._records._last.id)
                self.assertEqual((checkpoints._records.last().id, checkpoints._records.stops), (checkpoints._records._last.id, False))
            with self.opened(begin=True) as checkpoints:
                meta, found = checkpoints.load()
                self.assertEqual((meta, list(found["x"].compute())), (last, [last] * 2))
                checkpoints.stop(meta, **found)
        self.assertEqual(len(self.files()), 3)

    def test_a_stop_that_is_asked_for_in_a_checkpoint(self):
        """The next one is its savepoint."""
        with self.opened(watch=lambda _: checkpoints.ask_to_stop()) as checkpoints:
            checkpoints.load()
            self.assertEqual(checkpoints.save("one", x=self.client.submit(add, 1, 2)).id, 1)
            self.assertEqual(self.stopped_at(lambda: checkpoints.save("two", x=self.client.submit(add, 2, 2))), 2)

    @staticmethod
    def falls(block):
        raise OSError

    def test_the_same_partition_twice(self):
        with self.loaded() as checkpoints:
            (one,) = self.client.map(add, [1], [2])
            self.assertEqual(checkpoints.save(None, x=[one, one], y=one)[1:3], (1, 0))
            self.assertEqual(len(self.files()), 2)
            _, found = checkpoints.load()
            self.assertEqual(self.client.gather([*found["x"], found["y"]]), [3, 3, 3])

    def test_what_fails_is_declined(self):
        with self.loaded() as checkpoints:
            checkpoints.save(1, x=[self.client.submit(add, 1, 2)])
            self.assertRaises(ZeroDivisionError, checkpoints.save, 2, x=[self.client.submit(fails, 13), self.client.submit(fails, 14)])
            self.assertRaises(Failed, checkpoints.save, 2, x=[])
            meta, found = checkpoints.load()
            self.assertEqual((meta, found["x"][0].result()), (1, 3))
            self.assertEqual(len(self.files()), 2)

    def test_files_that_are_damaged_or_gone(self):
        with self.loaded() as checkpoints:
            checkpoints.save(1, x=self.client.map(add, [1, 2], [3, 4]))
        files = self.files()
        for file in files:
            path = self.state / str(file)
            data = path.read_bytes()
            path.write_bytes(data[:-1] + bytes([data[-1] ^ 1]))
            with self.opened(create=False) as checkpoints:
                with self.assertRaises(PartError):
                    self.client.gather(checkpoints.load()[1]["x"])
            path.unlink()
            with self.opened(create=False) as checkpoints:
                self.assertRaises(PartError, checkpoints.load)
            path.write_bytes(data)
        self.assertEqual(self.files(), files)

    def test_run_goes_back(self):
        falls = {3: OSError(), 5: asyncio.CancelledError()}

        def step(number, x):
            if number == 8:
                return None
            if number in falls:
                raise falls.pop(number)
            return number + 1, {"x": x + number}

        with self.opened() as checkpoints:
            number, found = checkpoints.run(step, lambda: (0, {"x": da.zeros(4, chunks=2)}))
            self.assertEqual((number, list(found["x"].compute())), (8, [28.0] * 4))
        self.assertEqual(len(self.files()), 3)

    def test_workers_that_lack_the_package(self):
        """They have it no later, so the first error ends the run."""
        steps = []

        def step(number, x):
            steps.append(number)
            raise ModuleNotFoundError("No module named 'relkvanu'")

        with self.opened() as checkpoints:
            self.assertRaises(ImportError, checkpoints.run, step, lambda: (0, {"x": da.zeros(2, chunks=2)}))
        self.assertEqual(steps, [0])

    def test_what_failed_is_computed_anew(self):
        """What a step gives has another key after load(): Dask still knows that of before as failed, while somebody holds it."""
        falls_once.left, held = 1, []

        def step(number, x):
            if number == 2:
                return None
            held.append(x.map_blocks(falls_once, meta=x._meta).persist())
            return number + 1, {"x": held[-1]}

        with self.opened() as checkpoints:
            number, found = checkpoints.run(step, lambda: (0, {"x": da.zeros(2, chunks=2)}), failures=1)
            self.assertEqual((number, list(found["x"].compute()), len(held)), (2, [2.0] * 2, 3))

    def test_what_is_cancelled_is_an_ordinary_exception(self):
        with self.loaded() as checkpoints:
            checkpoints.save(1, x=[self.client.submit(add, 1, 2)])
            lost = self.client.submit(add, 3, 4)
            lost.cancel()
            for fault in (lost, asyncio.CancelledError(), None):
                save = checkpoints.save
                if fault is not lost:
                    save = mock.Mock(side_effect=fault)
                with mock.patch.object(records, "wait", save if fault is not lost and fault else records.wait):
                    with self.assertRaises(Exception):
                        checkpoints.save(2, x=[lost])
                self.assertEqual(checkpoints.load()[0], 1)
            self.assertEqual(len(self.files()), 2)

    def test_the_coordinator_is_lost(self):
        with self.loaded() as checkpoints:
            for number in (1, 2):
                checkpoints.save(number, x=da.arange(4 * number, chunks=4).persist())
        before = self.files()
        (self.folder / "job.db").unlink()
        self.assertRaises(OSError, self.opened)  # the files of a job whose log is missing
        old, self.state = Place(str(self.state), "job"), self.folder / "other"
        self.state.mkdir()
        with self.opened(begin_from=old) as checkpoints:
            meta, found = checkpoints.load()
            self.assertEqual((meta, list(found["x"].compute())), (2, list(range(8))))
            checkpoints.save(3, x=found["x"])
        with self.opened(begin_from=old) as checkpoints:
            self.assertEqual(checkpoints.load()[0], 3)
        self.assertEqual(len(self.files()), 3)
        self.state = pathlib.Path(old.url)
        self.assertEqual(self.files(), before)
        (self.state / str(max(before))).unlink()
        self.assertRaises(PartError, origin_of, old)

    def test_a_wrong_place(self):
        self.assertRaises(Exception, self.opened, create=False)
        (self.state / "5").write_bytes(b"")
        self.assertRaises(OSError, self.opened)

    def test_a_path_is_that_of_the_driver(self):
        self.assertEqual(place_of("state", "orders"), Place(os.path.abspath("state"), "orders"))
        self.assertEqual(place_of("s3://state/x", "orders"), Place("s3://state/x", "orders"))
        self.assertEqual(place_of(Place("state", "orders", "e"), "x"), Place(os.path.abspath("state"), "orders", "e"))

    def test_a_function_that_is_not_pure(self):
        """Dask gives the same key twice, and another value, once nobody has held it meanwhile."""
        impure.calls = 0
        with self.loaded() as checkpoints:
            one = self.client.submit(impure)
            self.assertEqual((one.result(), checkpoints.save(1, x=one)[1:3]), (1, (1, 0)))
            key = one.key
            del one
            wait_until(lambda: not self.client.run_on_scheduler(lambda dask_scheduler: key in dask_scheduler.tasks))
            two = self.client.submit(impure)
            self.assertEqual((two.result(), two.key, checkpoints.save(2, x=two)[1:3]), (2, key, (1, 0)))
            self.assertEqual(checkpoints.load()[1]["x"].result(), 2)

    def test_equal_values_that_are_pickled_in_two_ways(self):
        a = "".join(["a", "b"])
        one, two = (a, a), (a, "".join(["a", "b"]))
        self.assertNotEqual(pickled(one), pickled(two))
        with self.loaded() as checkpoints:
            checkpoints.save(1, x=self.client.scatter([{one: 1}], hash=False))
            checkpoints.save(2, x=self.client.scatter([{two: 1}], hash=False))
            self.assertEqual(checkpoints.load()[1]["x"][0].result(), {("ab", "ab"): 1})
            self.assertEqual(part_of(one, 1000), part_of(two, 1000))

    def test_a_class_of_the_program(self):
        class Own:
            def __init__(self, it):
                self.it = it

        self.assertRaises((pickle.PicklingError, AttributeError), pickle.dumps, Own(1))
        self.assertEqual(pickle.loads(pickled(Own(1))).it, 1)

    def test_progress_is_seen(self):
        seen = []
        with self.opened(watch=seen.append) as checkpoints:
            checkpoints.load()
            checkpoints.save(1, x=da.arange(4, chunks=1).persist())
        self.assertEqual([(it.status, it.key.startswith("put_part-")) for it in seen[0]], [("finished", True)] * 4)

    def test_a_sweep_comes_by_itself(self):
        with mock.patch.object(records, "SWEEP_EVERY", 0.05), self.opened() as checkpoints:
            checkpoints.load()
            checkpoints.save(1, x=self.client.submit(add, 1, 2))
            checkpoints.load()  # its names are those of an earlier term now
            late = max(self.files()) + 1
            names = checkpoints._records._taken_names(1)
            checkpoints._records.storage.put(names[0], b"late")
            checkpoints._records._give_up(None, names)
            self.assertGreaterEqual(names[0], late)
            wait_until(lambda: names[0] not in self.files())
            self.assertEqual(len(self.files()), 2)


class Streams(Base):
    def graph(self):
        source = streamz.Stream()
        total = source.scatter().map(fails).accumulate(add, start=0, stream_name="total")
        gathered = []
        sink = total.buffer(4).gather().sink(gathered.append)
        return source, total, sink, gathered

    def opened(self, source, **more):
        return daskstream.Checkpoints(source, self.state, self.folder / "job.db", **{"client": self.client, "create": True, **more})

    def test_states_come_back(self):
        source, *kept = self.graph()
        with self.opened(source) as checkpoints:
            for it in range(1, 6):
                checkpoints.emit(it, it)
            checkpoints.checkpoint()
            checkpoints.emit(100, 100)
        source, *kept = self.graph()
        with self.opened(source) as checkpoints:
            self.assertEqual((checkpoints.position, checkpoints.state("total")), (5, 15))
            self.assertEqual(checkpoints.checkpoint()[1:3], (0, 1))
        self.assertEqual(len(self.files()), 2)

    def test_what_fails_goes_back(self):
        """The exception comes up below a buffer, whose loop streamz would end."""
        source, total, sink, gathered = self.graph()
        with self.opened(source) as checkpoints:
            record(checkpoints, 1)
            checkpoints.emit(13, 2)
            self.assertRaises(ZeroDivisionError, checkpoints.checkpoint)
            self.assertRaises(ZeroDivisionError, checkpoints.emit, 3, 3)
            self.assertEqual(checkpoints.restore(), 1)
            record(checkpoints, 3)
            self.assertEqual(checkpoints.state("total"), 4)
            self.assertEqual(gathered, [1, 4])

    def test_what_is_cancelled_goes_back(self):
        source, total, *kept = self.graph()
        with self.opened(source) as checkpoints:
            record(checkpoints, 1)
            total.state.cancel()
            with self.assertRaises(Exception):
                record(checkpoints, 2)
            checkpoints.run(lambda position: [(it, it) for it in range(position + 1, 5)])
            self.assertEqual((checkpoints.position, checkpoints.state("total")), (4, 10))

    def refuse(self, *builds, **more):
        for build in builds:
            source = streamz.Stream()
            kept = build(source)
            self.assertRaises(GraphError, self.opened, source, **more)
            self.assertIsNotNone(kept)
            self.assertFalse((self.folder / "job.db").exists())

    def test_graphs_that_are_refused(self):
        self.refuse(
            lambda it: it.scatter().accumulate(add).sink(print), lambda it: it.scatter().filter(bool).accumulate(add),
            lambda it: it.scatter().flatten().accumulate(add), lambda it: it.scatter().pluck(0).accumulate(add),
            lambda it: it.scatter().accumulate(add).partition(2), lambda it: it.scatter().map(abs),
            lambda it: [it.scatter().accumulate(add), it.scatter().accumulate(add)], lambda it: it.accumulate(add),
            lambda it: it.scatter().accumulate(add, with_state=True))

    def test_a_client_that_is_made_after_the_graph(self):
        with mock.patch("streamz.core._dask_default_client", side_effect=ValueError):
            source = streamz.Stream()
            kept = source.scatter().accumulate(add, start=0)
        self.assertRaisesRegex(GraphError, "before the client", self.opened, source)
        self.assertIsNotNone(kept)

    def test_keyed_states_that_do_not_change_are_not_written(self):
        def keyed():
            source = streamz.Stream()
            return source, daskstream.keyed(source.scatter(), count, start={}, parts=4, name="words")

        source, nodes = keyed()
        with self.opened(source) as checkpoints:
            checkpoints.emit(list("abcdefgh"), 1)
            self.assertEqual(checkpoints.checkpoint()[1:3], (4, 0))
            checkpoints.emit(["a", "a"], 2)
            self.assertEqual(checkpoints.checkpoint()[1:3], (1, 3))
        source, nodes = keyed()
        with self.opened(source) as checkpoints:
            checkpoints.emit(["b"], 3)
            self.assertEqual(checkpoints.checkpoint()[1:3], (1, 3))
            found = [checkpoints.state(f"words-{it}") for it in range(4)]
            self.assertEqual({key: number for it in found for key, number in it.items()}, {**dict.fromkeys("cdefgh", 1), "a": 3, "b": 2})
            self.assertEqual(sum(map(len, found)), 8)
        self.assertEqual(len(self.files()), 5)

    def test_what_is_passed_on_is_that_of_its_step(self):
        """A later step changes the state in place while nodes below have not read it yet."""
        source, seen, sizes = streamz.Stream(), [], []
        words = source.scatter()
        kept = [words.accumulate(count, start={}, stream_name="counts").buffer(100).gather().sink(seen.append),
                words.accumulate(size_and_state, start={}, returns_state=True, stream_name="sizes").buffer(100).gather().sink(sizes.append)]
        with self.opened(source) as checkpoints:
            checkpoints.run(lambda _: [(it, it) for it in "abcabcabcd"])
            self.assertEqual([sum(it.values()) for it in seen], list(range(1, 11)))
            self.assertEqual((sizes, checkpoints.state("sizes")), ([1, 2, 3, 3, 3, 3, 3, 3, 3, 4], {"a": 3, "b": 3, "c": 3, "d": 1}))
        self.assertEqual(len(kept), 2)

    def test_a_state_without_a_start(self):
        def graph():
            source = streamz.Stream()
            return source, source.scatter().accumulate(add, stream_name="total")

        source, kept = graph()
        with self.opened(source) as checkpoints:
            checkpoints.checkpoint()
        source, kept = graph()
        with self.opened(source) as checkpoints:
            checkpoints.emit([1], 1)
            checkpoints.emit([2], 2)
            checkpoints.checkpoint()
        source, kept = graph()
        with self.opened(source) as checkpoints:
            self.assertEqual(checkpoints.state("total"), [1, 2])

    def test_a_step_that_dask_does_again(self):
        state = State({})
        once = take_step(state, "a", count, 1, False, True, {})
        self.assertRaises(Failed, take_step, state, "a", count, 1, False, True, {})
        moved = pickle.loads(pickle.dumps(once))
        twice = take_step(once, "a", count, 2, False, True, {})
        self.assertEqual((once.result, twice.result), ({"a": 1}, {"a": 2}))
        self.assertEqual(take_step(moved, "a", count, 2, False, False, {}).value, {"a": 2})
        self.assertRaises(Failed, take_step, pickle.loads(pickle.dumps(once)), "a", count, 2, False, True, {})

    def test_parts(self):
        self.assertEqual([part_of(it, 8) for it in ("a", "b", 7, 1, True, ("a", 1), ("a", True))], [3, 1, 2, 7, 7, 6, 6])
        self.assertRaises(TypeError, part_of, 1.0, 8)

    def test_the_same_in_one_process(self):
        def graph():
            source, rows = streamz.Stream(), outputs.Files(str(self.folder), "rows")
            total = source.map(fails).accumulate(add, start=0, stream_name="total")
            return source, rows, [total, total.sink(rows), source.accumulate(add, stream_name="none")]

        source, rows, kept = graph()
        with self.opened(source, client=None, outputs=[rows]) as checkpoints:
            checkpoints.run(lambda _: [(1, 1), (2, 2)])
            self.assertRaises(ZeroDivisionError, checkpoints.emit, 13, 3)
            self.assertRaises(ZeroDivisionError, checkpoints.emit, 4, 4)
            self.assertRaises(ZeroDivisionError, checkpoints.checkpoint)
            self.assertEqual((checkpoints.restore(), rows.rows), (2, []))
        source, rows, kept = graph()
        with self.opened(source, client=None, outputs=[rows]) as checkpoints:
            record(checkpoints, 3)
            self.assertEqual((checkpoints.state("total"), checkpoints.state("none")), (6, 6))
            checkpoints.emit(4, 4)
            checkpoints.stop()
        self.assertEqual([it.read_text() for it in sorted(self.folder.glob("*.jsonl"))], ["1\n3\n", "6\n", "10\n"])
        self.assertEqual(len(self.files()), 3)
        source, rows, kept = graph()
        self.assertRaises(daskstream.Stopped, self.opened, source, client=None, outputs=[rows])
        with self.opened(source, client=None, outputs=[rows], begin=True) as checkpoints:
            self.assertEqual((checkpoints.position, checkpoints.state("total")), (4, 10))

    def test_graphs_that_one_process_refuses(self):
        self.refuse(
            lambda it: it.accumulate(add).buffer(3), lambda it: it.sliding_window(2).accumulate(add), lambda it: it.map(abs),
            lambda it: [it.accumulate(add), it.accumulate(add)], lambda it: it.accumulate(add, stream_name="a").accumulate(add, stream_name="a"),
            lambda it: it.union(streamz.Stream()).accumulate(add), lambda it: it.unique().accumulate(add), client=None)

    def test_one_process_that_is_killed(self):
        """Until one comes to its end, a bit later each time: the state and the rows are exact, and the storage has what the last record uses."""
        kills = 0
        while True:
            process = subprocess.Popen([sys.executable, "-c", ALONE, self.folder], stdout=subprocess.PIPE, text=True)
            told = process.stdout.readline()  # it begins
            threading.Timer(0.1 + 0.3 * kills, process.kill).start()
            told += process.communicate()[0]
            if process.returncode == 0:
                break
            self.assertEqual(process.returncode, -9)
            kills += 1
        self.assertGreater(kills, 2)
        self.assertEqual(told.split()[-1], str(sum(range(ELEMENTS))))
        rows = [int(it) for path in sorted(self.folder.glob("*.jsonl")) for it in path.read_text().split()]
        self.assertEqual(rows, list(range(ELEMENTS)))
        self.assertEqual(len(self.files()), 2)


ELEMENTS = 600
ALONE = f"""
import sys, time
import streamz
from relkvanu.daskstream import Checkpoints
from relkvanu.outputs import Files
def read(position):
    for it in range(position or 0, {ELEMENTS}):
        time.sleep(0.004)
        yield it, it + 1
folder, source = sys.argv[1], streamz.Stream()
rows = Files(folder, "rows")
kept = [source.accumulate(lambda total, it: total + it, start=0, stream_name="total"), source.sink(rows)]
with Checkpoints(source, folder + "/state", folder + "/job.db", create=True, every=0.05, outputs=[rows]) as checkpoints:
    print("begins", flush=True)
    checkpoints.run(read)
    print(checkpoints.state("total"))
"""


class Outputs(Base):
    def setUp(self):
        super().setUp()
        sqlite3.connect(self.folder / "rows.db").execute("CREATE TABLE rows (it INTEGER)").connection.commit()

    def table(self):
        return outputs.Table(lambda: sqlite3.connect(self.folder / "rows.db"), "INSERT INTO rows VALUES (?)", name="rows")

    def rows(self):
        return [it for it, in sqlite3.connect(self.folder / "rows.db").execute("SELECT it FROM rows ORDER BY it")]

    @contextlib.contextmanager
    def opened(self, **more):
        source, table = streamz.Stream(), self.table()
        kept = source.scatter().accumulate(add, start=0, stream_name="total").gather().map(row).sink(table)
        with daskstream.Checkpoints(source, self.state, self.folder / "job.db", client=self.client, create=True, outputs=[table], **more) as checkpoints:
            yield table, checkpoints
        self.assertIsNotNone(kept)

    def test_a_checkpoint_that_is_complete_and_not_published(self):
        with self.opened() as (table, checkpoints):
            record(checkpoints, 1)
            checkpoints.emit(2, 2)
            table.publish = None
            self.assertRaises(outputs.SinkFailed, checkpoints.checkpoint)  # complete, and the process ends before it is published
            self.assertEqual(self.rows(), [1])
        with self.opened() as (table, checkpoints):
            self.assertEqual((checkpoints.position, self.rows()), (2, [1, 3]))
            record(checkpoints, 3)
            self.assertEqual(self.rows(), [1, 3, 6])

    def test_the_coordinator_is_lost(self):
        """Also where the last record was not published, and where the driver that lost its place still publishes."""
        with self.opened() as (table, checkpoints):
            record(checkpoints, 1)
            checkpoints.emit(2, 2)
            with mock.patch.object(table, "publish", side_effect=OSError):
                self.assertRaises(outputs.SinkFailed, checkpoints.checkpoint)
            identity = checkpoints._records.identity
        old, self.state = Place(str(self.state), "job"), self.folder / "other"
        self.state.mkdir()
        (self.folder / "job.db").unlink()
        for position in (2, 3):
            with self.opened(begin_from=old) as (table, checkpoints):
                self.assertEqual(checkpoints.position, position)
                if position == 2:
                    record(checkpoints, 3)
                self.assertEqual(self.rows(), [1, 3, 6])
            self.assertRaises(outputs.OutputError, table.publish, outputs.Entry(3, identity, "rows", pickle.dumps([(9,)])))
        self.assertEqual(self.rows(), [1, 3, 6])

    def test_rows_after_the_last_checkpoint_are_given_up(self):
        with self.opened() as (table, checkpoints):
            record(checkpoints, 1)
            checkpoints.emit(2, 2)
            self.assertEqual((checkpoints.restore(), table.rows), (1, []))
            record(checkpoints, 3)
            self.assertEqual(self.rows(), [1, 4])

    def test_a_stop_publishes_and_a_begin_goes_on(self):
        with self.opened() as (table, checkpoints):
            checkpoints.emit(1, 1)
            self.assertEqual(checkpoints.stop().id, 1)
            self.assertEqual(self.rows(), [1])
            for refused in (lambda: checkpoints.emit(2, 2), checkpoints.checkpoint, checkpoints.restore, checkpoints.stop):
                self.assertRaises(daskstream.Stopped, refused)
        self.assertRaisesRegex(daskstream.Stopped, "savepoint 1: .*begin=True", self.opened().__enter__)
        with self.opened(begin=True) as (table, checkpoints):
            self.assertEqual((checkpoints.position, checkpoints.state("total")), (1, 1))
            record(checkpoints, 2)
            self.assertEqual((self.rows(), savepoints(checkpoints)), ([1, 3], 0))
        self.assertEqual(len(self.files()), 2)

    def test_a_stop_that_is_complete_and_not_published(self):
        """The process ends between the commit and the publication: whoever finds the job stopped tells the outputs."""
        with self.opened() as (table, checkpoints):
            checkpoints.emit(1, 1)
            table.publish = None
            self.assertRaises(outputs.SinkFailed, checkpoints.stop)
            self.assertEqual(self.rows(), [])
        for _ in range(2):
            self.assertRaises(daskstream.Stopped, self.opened().__enter__)
            self.assertEqual(self.rows(), [1])

    def test_a_stop_whose_output_is_away_for_a_while(self):
        """run() tells it again, and takes no record more."""
        falls = [OSError(), OSError()]

        def late(*words):
            if falls:
                raise falls.pop()
            publish(*words)

        with self.opened() as (table, checkpoints):
            publish, table.publish = table.publish, late
            checkpoints.ask_to_stop()
            self.assertRaises(daskstream.Stopped, checkpoints.run, lambda _: [(1, 1), (2, 2)])
            self.assertEqual((self.rows(), checkpoints._records.last().meta[0]), ([1], 1))

    def test_a_stop_that_fails(self):
        """A lost element declines its savepoint: nothing is published, and run() goes back, and stops the job after that."""
        with self.opened() as (table, checkpoints):
            record(checkpoints, 1)
            with mock.patch.object(records, "wait", side_effect=OSError):
                checkpoints.emit(2, 2)
                self.assertRaises(OSError, checkpoints.stop)
            self.assertEqual((self.rows(), checkpoints._records._job._job.phase().stop_failed.name), ([1], "DECLINED"))
            self.assertRaises(daskstream.Stopped, checkpoints.run, lambda position: [(it, it) for it in range(position + 1, 9)])
        self.assertEqual(self.rows(), [1, 3])  # with the next element, which comes again
        self.assertEqual(len(self.files()), 2)

    def test_a_driver_that_is_killed_in_a_stop(self):
        """Before the savepoint is complete: nothing is published, and the job goes on from its last checkpoint."""
        with self.opened() as (table, checkpoints):
            record(checkpoints, 1)
            checkpoints.emit(2, 2)
            with mock.patch.object(checkpoints._records, "_acknowledge", side_effect=OSError), mock.patch.object(checkpoints._records, "_give_up"):
                self.assertRaises(OSError, checkpoints.stop)
        with self.opened() as (table, checkpoints):
            self.assertEqual((checkpoints.position, self.rows(), savepoints(checkpoints)), (1, [1], 0))
            self.assertEqual(checkpoints._records._job._job.phase().stop_failed.name, "RESTORED")
        self.assertEqual(len(self.files()), 2)


def savepoints(checkpoints):
    """How many savepoints the coordinator has."""
    count, next = 0, 0
    with checkpoints._records._job._job.read() as reads:
        while (live := reads.live_from(next)) is not None:
            count, next = count + (live.kind.name == "SAVEPOINT"), live.id + 1
    return count


async def lost_after_a_move(key, dask_scheduler):
    """A result moves to another worker, as when Dask makes room on the first, and that other one dies."""
    (first,) = [it.address for it in dask_scheduler.tasks[key].who_has]
    (second,) = set(dask_scheduler.workers) - {first}
    await dask_scheduler.replicate(keys=[key], n=2)
    await dask_scheduler.delete_worker_data(worker_address=first, keys=[key], stimulus_id="test")
    await dask_scheduler.remove_worker(address=second, stimulus_id="test", close=True)


class InPlace(Base):
    """States that their functions change in place. Each test loses a worker of its own cluster."""

    def lost(self, after):
        after.result()
        self.client.run_on_scheduler(lost_after_a_move, after.key)
        return after

    def setUp(self):
        super().setUp()
        self.tearDownClass()
        self.setUpClass()

    def test_dask_counts_twice(self):
        before = self.client.submit(dict, pure=False)
        self.assertEqual(self.lost(self.client.submit(count, before, "a")).result(), {"a": 2})  # so steps are numbered

    def numbered(self, build):
        source = streamz.Stream()
        node = build(source.scatter())
        with daskstream.Checkpoints(source, self.state, self.folder / "job.db", client=self.client, create=True) as checkpoints:
            checkpoints.emit(["a"], 1)
            before = node.state.result() and node.state  # a node below may hold it, and then it stays on its worker as it is
            checkpoints.emit(["a"], 2)
            self.lost(node.state)
            with self.assertRaises(Failed):
                checkpoints.checkpoint()
            checkpoints.run(lambda _: [(["a"], 1), (["a"], 2)])
            self.assertIsNotNone(before)
            return sum(checkpoints.state(node.name).values())

    def test_accumulate_says_so(self):
        self.assertEqual(self.numbered(lambda it: it.map(first).accumulate(count, start={}, stream_name="counts")), 2)

    def test_keyed_says_so(self):
        self.assertEqual(self.numbered(lambda it: daskstream.keyed(it, count, start={}, parts=1, name="words")[0]), 2)

    def test_a_worker_that_is_lost_in_a_save(self):
        with Checkpoints(self.client, self.state, self.folder / "job.db", create=True, patience=60) as checkpoints:
            checkpoints.load()
            x = da.arange(8, chunks=1).persist()
            checkpoints.save(1, x=x)
            wait_until(lambda: all(it.status == "finished" for it in self.client.futures_of(x)))

            def dies(_):
                self.client.run_on_scheduler(lose_one)

            checkpoints._records._watch = dies
            y = (x + 1).persist()
            try:
                checkpoints.save(2, x=y)
                want = 2
            except Exception:
                want = 1
            checkpoints._records._watch = None
            meta, found = checkpoints.load()
            self.assertEqual((meta, list(found["x"].compute())), (want, [it + want - 1 for it in range(8)]))
        self.assertEqual(len(self.files()), 9)


async def lose_one(dask_scheduler):
    await dask_scheduler.remove_worker(address=next(iter(dask_scheduler.workers)), stimulus_id="test", close=True)


def first(words):
    return words[0]


class Workers(unittest.TestCase):
    def test_a_worker_needs_neither_the_library_nor_streamz(self):
        program = """
import sys
from relkvanu.parts import Place, State, get_part, loads_state, put_part, dumps_value
place = Place(sys.argv[1], "orders")
place.open(is_new=True)
part = put_part(place, 7, State([1]), None, dumps_value)
print(get_part(place, part, loads_state).value, put_part(place, 8, State([1]), part, dumps_value).file)
print([it for it in ("relkvanu.coordinator", "relkvanu.store", "streamz", "distributed") if it in sys.modules])
"""
        with tempfile.TemporaryDirectory() as folder:
            told = subprocess.run([sys.executable, "-c", program, folder], env={**os.environ, "RELKVANU_LIB": "/nowhere"},
                                  stdout=subprocess.PIPE, stderr=subprocess.PIPE, text=True)
        self.assertEqual((told.stdout, told.stderr), ("[1] 7\n[]\n", ""))


class Bytes(unittest.TestCase):
    """What is written of a value: the bytes of pickle, without a copy of a long array."""

    def setUp(self):
        self.folder = self.enterContext(tempfile.TemporaryDirectory())
        self.place = Place(self.folder, "orders")
        self.place.open(is_new=True)

    def test_they_are_those_of_pickle(self):
        array = numpy.arange(1 << 19).reshape(1 << 9, -1)
        values = [array, array[::2], array.T, array[:0], pandas.DataFrame({"a": range(1000), "b": ["x"] * 1000}), {"a": "x" * 100_000, 1: [b"y" * 100_000]},
                  bytearray(100_000), None, list(range(100_000))]
        for file, value in enumerate(values):
            part = put_part(self.place, file, value, None, pickled_in_pieces)
            with open(f"{self.folder}/{file}", "rb") as it:
                found = it.read()
            self.assertEqual((found, part.size, part.digest), (pickle.dumps(value, 5), len(found), digest_of(found)))
            self.assertEqual(put_part(self.place, 1000, value, part, pickled_in_pieces), part)

    def test_a_class_of_the_program(self):
        part = put_part(self.place, 1, lambda: 7, None, pickled_in_pieces)
        self.assertEqual(get_part(self.place, part, pickle.loads)(), 7)

    def test_a_value_that_is_changed_while_it_is_written(self):
        value, put = numpy.zeros(1 << 18), Folder.put

        def slowly(storage, file, contents):
            def changed():
                for piece in contents:
                    yield piece
                    value[-1] += 1
            put(storage, file, changed())

        with mock.patch.object(Folder, "put", slowly), self.assertRaisesRegex(Failed, "changed in place while it was written"):
            put_part(self.place, 1, value, None, pickled_in_pieces)
        part = put_part(self.place, 2, value, None, pickled_in_pieces)
        self.assertEqual(list(get_part(self.place, part, pickle.loads)), list(value))


class Many(Base):
    def test_more_parts_than_one_call_names(self):
        """None is written twice, and what is released is deleted by lists of a thousand."""
        deleted = []

        def delete(storage, files, inner=Folder.delete):
            deleted.append(len(files))
            return inner(storage, files)

        with mock.patch("os.fsync"), mock.patch.object(Folder, "delete", delete):
            job = records.Records(None, self.state, self.folder / "job.db", create=True)
            with contextlib.closing(job):
                self.assertEqual(job.save("one", {"x": range(5000)})[:3], (1, 5000, 0))
                self.assertEqual(job.save("two", {"x": range(5000)})[:3], (2, 0, 5000))
                self.assertEqual(job.save("three", {"x": range(1, 5001)})[:3], (3, 5000, 0))
                wait_until(lambda: job.counts() == (5001, 0))
            self.assertEqual(sum(deleted), 5002)  # of the second record the list alone
            self.assertEqual([it for it in deleted if it > 1000], [])
            self.assertGreaterEqual(max(deleted), 900)
        self.assertEqual(len(self.files()), 5001)


HERE = pathlib.Path(__file__).resolve().parent
SAMPLES = HERE.parent.parent / "examples/dask"
TOLD = "50 1225000000.0\n"  # 0 + 1 + .. + 49 is 1225


def commands_of(title):
    """The paragraph of examples/dask/commands with this title."""
    (found,) = re.findall(rf"^# {title}\n((?:.+\n)*)", (SAMPLES / "commands").read_text(encoding="utf-8"), re.M)
    return found


class Samples(Base):
    def first(self, *command):
        """The first program, by a command in a folder that has nothing but it and the one that stops it. Its last state has ten files and a list."""
        (self.folder / "first").mkdir()
        for name in ("first.py", "stopped.py"):
            (self.folder / "first" / name).write_text((SAMPLES / name).read_text(encoding="utf-8"))
        told = subprocess.run(command, cwd=self.folder / "first", stdout=subprocess.PIPE, stderr=subprocess.PIPE, text=True, timeout=900,
                              env={**os.environ, "PATH": f"/usr/bin:/bin:{os.environ['PATH']}"})
        self.assertEqual(told.returncode, 0, told.stderr[-2000:])
        self.assertEqual(len([it for it in os.listdir(self.folder / "first/state") if it.isdecimal()]), 11)
        return told.stdout

    def alone(self, commands):
        """In a network of its own, where nobody has its port."""
        return self.first("unshare", "-rn", "bash", "-ec", f"ip link set lo up; trap 'kill $(jobs -p); wait' EXIT\n{commands}")

    def test_the_first_program_word_for_word(self):
        """The second time it goes on from its end."""
        self.assertLessEqual(sum(1 for it in (SAMPLES / "first.py").read_text(encoding="utf-8").splitlines() if it), 15)
        self.assertEqual(self.alone(f"{commands_of('on one machine')}python3 first.py 127.0.0.1:8786\n"), TOLD * 2)

    def test_the_stop_of_the_first_program(self):
        """It stops some steps before its end, and goes on from there."""
        starts = commands_of("on one machine").rpartition("python3 first.py")[0]
        told = self.alone(f"{starts}{commands_of('to stop the job, and to begin it again')}")
        self.assertRegex(told, rf"\Athe job has stopped at savepoint [1-4]?\d: .*begin=True.*\n{TOLD}\Z")

    @unittest.skipUnless(os.path.exists("/dev/net/tun"), "no /dev/net/tun: two machines")
    def test_the_first_program_on_two_machines(self):
        self.assertEqual(self.first("unshare", "-rn", sys.executable, str(HERE / "machines.py"), "first", "."), TOLD)

    def test_the_graph(self):
        text = self.folder / "text"
        text.write_text("a word of a text\n" * 1000)
        with contextlib.chdir(self.folder), mock.patch.object(graph, "Client", lambda _: self.client), contextlib.redirect_stdout(io.StringIO()) as printed:
            graph.main("scheduler", str(text), "new")
        self.assertEqual(printed.getvalue(), "5000 words\n")
        self.assertEqual(sqlite3.connect(self.folder / "lines.db").execute("SELECT count(*), sum(words) FROM lines").fetchone(), (1000, 5000))


if __name__ == "__main__":
    unittest.main()
