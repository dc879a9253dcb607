"""What a task takes from its inputs: the cases of examples/inputs.rows, and how long it waits."""
import pathlib
import threading
import time
import unittest

from relkvanu import BadStep, OutOfRange
from relkvanu.inputs import Barrier, Inputs
from relkvanu.reads import Kind
from relkvanu.unaligned import Recorded, Snap, UnalignedInputs

ROWS = pathlib.Path(__file__).resolve().parents[3] / "examples/inputs.rows"


def barrier(id, kind=Kind.CHECKPOINT):
    return Barrier(id, kind, None, 1, False)


def element(word):
    input, _, it = word.partition(":")
    return int(input), it


class Case:
    """The inputs of a case, which one of the first three words begins."""

    def inputs(self, count):
        self.it = Inputs(int(count))

    def unaligned(self, count, *recorded, room=100):
        self.it = UnalignedInputs(int(count), room, recorded=map(element, recorded))

    def full(self, *words):
        self.unaligned(*words, room=1)

    def put(self, input, *items):
        for it in items:
            if it == ".":
                self.it.end(int(input))
            else:
                self.it.put(int(input), barrier(int(it[1:]), {"|": Kind.CHECKPOINT, "/": Kind.SAVEPOINT}[it[0]]) if it[0] in "|/" else it)

    def give_up(self, id, wanted):
        return "yes" if self.it.give_up(int(id)) else "no", wanted

    def take(self, *wanted):
        return tuple(self.taken() for _ in wanted), wanted

    def any(self, *wanted):
        return sorted(self.taken() for _ in wanted), sorted(wanted)

    def taken(self):
        try:
            input, it = self.it.take()
        except BadStep as why:
            return {"EndedInput": "end", "TwoOrders": "two-orders"}[why.name]
        if isinstance(it, Recorded):
            return f"rec{it.barrier.id}[" + ",".join(f"{input}:{element}" for input, element in it.elements) + "]"
        return f"snap{it.barrier.id}" if isinstance(it, Snap) else f"cut{it.id}" if isinstance(it, Barrier) else f"{input}:{it}"


class Rows(unittest.TestCase):
    def test_rows(self):
        case, rows = Case(), [row.split() for row in ROWS.read_text(encoding="utf-8").splitlines() if row and row[0] != "#"]
        self.assertGreater(len(rows), 90)
        for word, *words in rows:
            told = getattr(case, word)(*words)
            self.assertEqual(*(told or (None, None)), (word, *words))


def filled(channels, **words):
    inputs = UnalignedInputs(len(channels), 8, **words)
    for input, items in enumerate(channels):
        for item in items:
            inputs.put(input, item)
    return inputs


def takes(inputs, count):
    return [inputs.take() for _ in range(count)]


class Waits(unittest.TestCase):
    def test_a_number_that_does_not_fit(self):
        with self.assertRaises(OutOfRange):
            Inputs(1).give_up(1 << 64)

    def test_after_a_timeout(self):
        began = time.monotonic()
        inputs = filled([[1, barrier(7), 2], [10]], after=500)
        self.assertEqual(takes(inputs, 2), [(0, 1), (1, 10)])
        self.assertEqual(inputs.take()[1], Snap(barrier(7)))
        self.assertGreaterEqual(time.monotonic() - began, 0.5)
        inputs.put(1, 20)
        inputs.put(1, barrier(7))
        self.assertEqual([it for _, it in takes(inputs, 3)][0], Recorded(barrier(7), [(1, 20)]))

    def test_before_the_timeout_it_is_aligned(self):
        inputs = filled([[1, barrier(7), 2], [10, barrier(7), 20]], after=60_000)
        self.assertEqual([it for _, it in takes(inputs, 5)], [1, 10, barrier(7), 2, 20])

    def test_a_full_input_waits_for_the_task(self):
        inputs = UnalignedInputs(1, 1)
        thread = threading.Thread(target=lambda: [inputs.put(0, it) for it in (1, barrier(7), 2, 3)])
        thread.start()
        taken = [it for _, it in takes(inputs, 5)]
        self.assertEqual([it for it in taken if isinstance(it, int)], [1, 2, 3])
        self.assertEqual([type(it) for it in taken if not isinstance(it, int)], [Snap, Recorded])
        thread.join()
