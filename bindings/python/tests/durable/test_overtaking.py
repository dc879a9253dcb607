"""A checkpoint that overtakes what is on the way to a task: it is saved with the snapshot, comes first after a restart, and cannot be rescaled."""
import json
import os
import pathlib
import subprocess
import sys
import threading
import time
import unittest
from unittest import mock

from relkvanu import Settings, unaligned
from relkvanu.inputs import Barrier
from relkvanu.runner import Ended, Runner
from relkvanu.store import Store, StoreError
from steps import InFolder


EXAMPLE = pathlib.Path(__file__).resolve().parents[4] / "examples/engine/unaligned.py"
KILLS = 5  # 200 were tried by hand


class Engine:
    """One task adds up what comes on two inputs. It takes nothing before a barrier was put on both."""

    def __init__(self, store, items=()):
        self.runner, self.items, self.complete_ids, self.recorded = Runner(store, self), items, [], None

    def start(self, term, record):
        self.recorded = unaligned.load(self.runner.store, record, 0, 0)
        self.sum = json.loads(record.payload_of(0, 0)) if record else 0
        self.inputs = unaligned.UnalignedInputs(2, recorded=self.recorded)
        for input, element in self.items:
            self.inputs.put(input, element)
        self.begun = threading.Event()
        self.runner.spawn(self.add)

    def barrier(self, it):
        for input in range(2):
            self.inputs.put(input, it)
        self.begun.set()

    def add(self):
        self.begun.wait()
        while True:
            _, item = self.inputs.take()
            if isinstance(item, Barrier):
                self.runner.ack_payload(item, 0, 0, json.dumps(self.sum).encode())
            elif isinstance(item, unaligned.Snap):
                snapshot = json.dumps(self.sum).encode()
            elif isinstance(item, unaligned.Recorded):
                unaligned.acknowledge(self.runner, item, 0, 0, payload=snapshot)
            else:
                self.sum += item

    def complete(self, id):
        self.complete_ids.append(id)

    def go_on(self):
        pass

    def end(self):
        if self.recorded is not None:
            self.inputs.close()
            self.begun.set()


class Overtaking(InFolder):
    def opened(self, create=False):
        settings = Settings(interval=100 if create else 1000)
        return Store(f"{self.folder}/job.db", settings, [1], storage=f"{self.folder}/state", create=create)

    def with_a_checkpoint(self):
        with self.opened(True) as store:
            self.run_to_checkpoint(Engine(store, [(0, 1), (0, 2), (1, 30)]))

    def run_to_checkpoint(self, engine):
        engine.runner.close_after(1)
        self.assertEqual(engine.runner.run(), Ended.CLOSED)

    def test_what_was_on_the_way_comes_first(self):
        self.with_a_checkpoint()
        with self.opened() as store:
            engine = Engine(store)
            self.run_to_checkpoint(engine)
            self.assertEqual(engine.recorded, [(0, 1), (0, 2), (1, 30)])
            self.assertEqual(engine.sum, 0)  # its snapshot is of before
            self.assertEqual(engine.runner.state(store.load(), 0, 0), b"0")

    def test_another_shape_is_refused(self):
        self.with_a_checkpoint()
        with self.opened() as store:
            store.restore(shape=[2])
            with self.assertRaises(unaligned.NotRescalable) as refused:
                Engine(store).runner.run()
            self.assertEqual(refused.exception.id, 1)
            self.assertIn("go back to a savepoint", str(refused.exception))
            store.restore(shape=[1])  # nothing is lost
            self.assertEqual(len(store.load().files_of(0, 0)), 1)
            unaligned.check(store, store.load())

    def test_a_savepoint_goes_on_in_another_shape(self):
        with self.opened(True) as store:
            engine = Engine(store, [(0, 1), (0, 2), (1, 30)])
            ran = threading.Thread(target=engine.runner.run)
            ran.start()
            saved = engine.runner.savepoint()
            engine.runner.close()
            ran.join()
        with self.opened() as store:
            store.restore(saved, [2])
            record = store.load()
            unaligned.check(store, record)
            self.assertEqual((record.id, unaligned.load(store, record, 0, 0), json.loads(record.payload_of(0, 0))), (saved, [], 33))

    def test_a_file_that_cannot_be_put_declines(self):
        with self.opened(True) as store:
            term, runner = store.report.term, mock.Mock(reserve=store.reserve, forfeit=store.forfeit)
            runner.files.put.side_effect = StoreError("NotPut", "the disk is full", False)
            barrier = Barrier(1, None, None, term, False)
            with self.assertRaisesRegex(StoreError, "full"):
                unaligned.acknowledge(runner, unaligned.Recorded(barrier, [(0, 1)]), 0, 0)
            self.assertEqual([it.args[:4] for it in runner.decline.mock_calls], [(term, 1, 0, 0)])

    def test_kills(self):
        """Forty sources, full channels and a slow sink: each element is published once, in order, wherever the process is killed."""
        os.mkdir(f"{self.folder}/target")
        for kill in range(KILLS):
            words = [str(self.folder), "0", "1000000", *(["new"] if kill == 0 else [])]
            with subprocess.Popen([sys.executable, str(EXAMPLE), *words], stdout=subprocess.PIPE, text=True) as engine:
                self.assertRegex(engine.stdout.readline(), "^checkpoint ")
                time.sleep(0.07 * kill)
                engine.kill()
        following, published = [0] * 40, pathlib.Path(self.folder).glob("target/*.published")
        for path in sorted(published, key=lambda it: int(it.stem)):
            for source, element in map(json.loads, path.read_text().splitlines()):
                self.assertEqual(element, following[source])
                following[source] += 1
        self.assertGreater(sum(following), 0)


if __name__ == "__main__":
    unittest.main()
