"""The steps of examples/alignment.rows and examples/unaligned.rows, and acknowledgements that take a cut."""
import pathlib
import unittest

from relkvanu import AckCompleted, Aligner, BadArgument, BadStep, Coordinator, Cut, Fenced, OutOfRange, Settings, Step
from relkvanu.aligner import Recorder

EXAMPLES = pathlib.Path(__file__).resolve().parents[3] / "examples"
FAULTS = {"UnknownInput": "unknown_input", "HeldInput": "held_input", "EndedInput": "ended_input", "BadInputs": "bad_inputs"}


def told(step):
    return f"{step.name.lower()} 0" if isinstance(step, Step) else f"{type(step).__name__.lower()} {step.id}"


class Case:
    """The alignment of a case, or its recorder, which an open begins."""

    def __init__(self, kind):
        self.kind = kind

    def open(self, inputs):
        self.aligner = self.kind(inputs)
        return Step.NOTHING

    def make(self, event, *numbers):
        try:
            return told(self.open(*numbers) if event == "open" else getattr(self.aligner, event)(*numbers))
        except (BadStep, BadArgument) as fault:
            return f"{FAULTS[fault.name]} 0"


def cut_of(record):
    return Aligner(1).barrier(0, record)


class Alignment(unittest.TestCase):
    def setUp(self):
        self.settings = Settings(interval=1000)

    def test_steps_are_those_of_the_rows(self):
        for kind, name in ((Aligner, "alignment"), (Recorder, "unaligned")):
            case, rows = Case(kind), [row for row in (EXAMPLES / f"{name}.rows").read_text().splitlines() if " = " in row]
            self.assertGreater(len(rows), 60)
            for row in rows:
                (event, *numbers), wanted = row.partition(" = ")[0].split(), row.partition(" = ")[2]
                self.assertEqual(case.make(event, *map(int, numbers)), wanted, row)

    def test_an_acknowledgement_takes_a_cut(self):
        with Coordinator(self.settings, [1], 0) as job:
            job.tick(1000)
            cut = cut_of(1)
            self.assertEqual((cut.id, repr(cut)), (1, "Cut(id=1)"))
            self.assertEqual(job.ack_cut(1100, cut, 0, 0, [7]), AckCompleted(0, 0))
            self.assertEqual(job.count(7).uses, 1)

    def test_an_acknowledgement_of_a_term_takes_a_cut(self):
        with Coordinator.open_fenced(self.settings, [1], 0, 1, 5) as job:
            job.tick(1000)
            name = job.reserve(1, 1)[0]
            with self.assertRaises(Fenced):
                job.ack_cut_in(2, 1100, cut_of(1), 0, 0, [name])
            self.assertEqual(job.ack_cut_in(1, 1100, cut_of(1), 0, 0, [name]), AckCompleted(0, 0))

    def test_nobody_else_makes_a_cut(self):
        self.assertRaises(TypeError, Cut)
        with self.assertRaises(AttributeError):
            cut_of(3).id = 4

    def test_numbers_that_do_not_fit_are_told(self):
        for step in (lambda: Aligner(1).element(1 << 32), lambda: Aligner(1).barrier(0, 1 << 64), lambda: Aligner(1).end(-1)):
            self.assertRaises(OutOfRange, step)
