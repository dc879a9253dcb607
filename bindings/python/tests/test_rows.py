"""The rows of examples/rows that are lists of calls, through the package, whose library reads the lines of a row's script: they print what the row's output says.
The logs of examples/logs and examples/reads."""
import contextlib
import dataclasses
import itertools
import pathlib
import re
import unittest

from relkvanu import (
    BadArgument, BadLine, Cancelled, Coordinator, Counted, Failed, Fenced, FileCounts, Forfeited, Garbage, HeldAtOnce, HeldInterval, HeldPause, Live, Mode,
    Named, Refused, Reserved, RunningTerm, Settings, Shown, Standing, Taken, TooShort, Triggered, calls, lines,
)

TOP = pathlib.Path(__file__).resolve().parents[3]
ROWS = TOP / "examples/rows"
OTHERS = set((ROWS / "OTHERS").read_text().split())
SETTINGS = Settings(interval=1000)

TEXTS = {
    Triggered: "tick expired {0.expired} triggered {0.id}",
    HeldInterval: "tick expired {0.expired} held interval",
    HeldAtOnce: "tick expired {0.expired} held at-once",
    HeldPause: "tick expired {0.expired} held pause",
    Failed: "tick expired {0.expired} failed",
    Shown: "{0.json}",
    Counted: "count {0.file} {0.uses}",
    Named: "term 1",
    Reserved: "reserved {0.first}",
}


def text_of(reply):
    """What a reply prints: its words here, or its name and its numbers, as in "ack completed 1 2"."""
    if type(reply) in TEXTS:
        return TEXTS[type(reply)].format(reply)
    name = re.sub("(?<=.)([A-Z])", r" \1", type(reply).__name__).lower()
    return " ".join([name, *map(str, dataclasses.astuple(reply))])


def opened(rows):
    """Opens the job as the config, job and start lines of a row say; None if it does not have one of each and then only calls."""
    says = []
    for line in rows:
        with contextlib.suppress(BadLine):
            says.append(lines.line_says(line))
    says = [line for line in says if line != lines.Skip()]
    kinds = [type(line) for line in says]
    if {*kinds[:2]} != {Settings, lines.Job} or kinds[2:3] != [lines.Start] or {*kinds[3:]} - {lines.Call}:
        return None
    settings, job = (says[0], says[1]) if kinds[0] == Settings else (says[1], says[0])
    return Coordinator(settings, job.shape, says[2].now)


def by_method(job, line):
    """Makes the call of a line by its method, and returns the reply that the line has."""
    call = calls.line_call(line)
    name, term = type(call).__name__.lower(), vars(call).get("term")
    if isinstance(call, (calls.Fence, calls.Reserve, calls.Forfeit, calls.Advance)):
        reply = getattr(job, name)(*vars(call).values())
        return Reserved(reply.start, len(reply)) if name == "reserve" else reply or {"fence": Named(), "forfeit": Forfeited()}[name]
    return getattr(job, f"{name}_in")(term, *numbers_of(call)) if term else getattr(job, name)(*numbers_of(call))


def told(job, number, line, make=Coordinator.line):
    """What a line prints: nothing, or a line."""
    try:
        reply = make(job, line)
    except BadLine as fault:
        return [] if fault.name == "NoCall" else [f"line {number} fault {fault}"]
    except (Refused, BadArgument) as fault:
        return [f"refused {fault}"]
    if reply is None:
        return []
    if isinstance(reply, Taken):
        return [" ".join(["take", *map(str, reply.files or ["none"])])]
    return [text_of(reply)]


def outcome(call):
    """The reply of a call, or its refusal in words."""
    try:
        return call()
    except Refused as fault:
        return str(fault)


def numbers_of(call):
    """Its number, or none, beside the term."""
    return [number for name, number in vars(call).items() if name != "term"]


def said(line):
    """The call that a line says; None if it says none."""
    try:
        return calls.line_call(line)
    except (BadLine, BadArgument, Refused):
        return None


class Rows(unittest.TestCase):
    def test_the_calls_of_rows_are_written_again(self):
        found = set()
        for path in sorted(ROWS.glob("*.in")):
            for line in path.read_bytes().removesuffix(b"\n").split(b"\n"):
                call = said(line)
                if call is not None:
                    self.assertEqual(calls.line_call(call.line().encode()), call, line)
                    self.assertEqual(lines.line_says(line), lines.Call())
                    found.add(type(call))
        self.assertEqual(found, set(calls.Call.__args__) - {calls.Fence, calls.Reserve, calls.Forfeit, calls.Advance})  # no row has these

    def test_calls_of_one_number_are_those_of_their_lines(self):
        """Each method of the coordinator and each function of lines that is made of the header."""
        made = {**calls.OF_A_MOMENT, **calls.OF_A_NUMBER}
        for kind in set(made) - {calls.CallKind.TAKE, calls.CallKind.SHOW}:
            name, call = calls.CallKind(kind).name.lower(), made[kind](1000, 0)
            given = numbers_of(call)
            self.assertEqual(calls.line_call(" ".join([name, *map(str, given)]).encode()), call)
            if kind != calls.CallKind.COUNT:
                self.assertEqual(getattr(lines, f"{name}_line")(*given), call.line())
            with Coordinator(SETTINGS, [1], 0) as job, Coordinator(SETTINGS, [1], 0) as twin:
                self.assertEqual(outcome(lambda: getattr(job, name)(*given)), outcome(lambda: twin.line(call.line().encode())), name)

    def test_rows(self):
        run = 0
        for path in sorted(ROWS.glob("*.in")):
            rows = path.read_bytes().removesuffix(b"\n").split(b"\n")
            job = opened(rows)
            self.assertEqual(job is None, path.stem in OTHERS, path.stem)
            if job is not None:
                with self.subTest(path.stem), job:
                    output = [text for number, line in enumerate(rows, 1) for text in told(job, number, line)]
                    self.assertEqual(output, path.with_suffix(".out").read_text().splitlines())
                run += 1
        self.assertGreater(run, 0)


class Lines(unittest.TestCase):
    def test_a_call_is_written_as_its_line(self):
        """Each function of lines that is not made of the header."""
        self.assertEqual(lines.ack_line(5, 1, 1, 2, [12, 11], [7]), "ack 5 1 1.2 +11 +12 =7")
        self.assertEqual((lines.ack_line(5, 1, 0, 0, [7], term=3), lines.decline_line(5, 1, 0, 0, 3)), ("in 3 ack 5 1 0.0 +7", "in 3 decline 5 1 0.0"))
        self.assertEqual((lines.restore_line(5, None, [1, 2]), lines.restore_line(5, 3)), ("restore 5 latest 1 2", "restore 5 3"))
        self.assertEqual((lines.reserve_line(2, 9), lines.forfeit_line(2, [7, 8]), lines.take_line(9)), ("reserve 2 9", "forfeit 2 7 8", "take 9"))
        self.assertRaisesRegex(BadLine, "^TooLong$", lines.ack_line, 5, 1, 0, 0, [(1 << 64) - 1 - place for place in range(9000)])
        self.assertRaises(OverflowError, lines.tick_line, 1 << 64)
        self.assertRaises(BadArgument, lines.restore_line, 5, None, [0])

    def test_a_line_says_its_call(self):
        for line, call in (
            (b"decline 5 1 0.3", calls.Decline(5, 1, 0, 3)), (b"restore 5 4 1 2", calls.Restore(5, 4, (1, 2))), (b"advance 5 3 70", calls.Advance(5, 3, 70)),
            (b"reserve 2 9", calls.Reserve(2, 9)), (b"forfeit 2 7 8", calls.Forfeit(2, (7, 8))), (b"in 4 take 9", calls.Take(9, 4)), (b"", None),
            (b"in 3 ack 5 1 1.2 +12 =9 +11 =7", calls.Ack(5, 1, 1, 2, (11, 12), (7, 9), 3)),
        ):
            self.assertEqual(calls.line_call(line), call)
            if call is not None:
                self.assertEqual(calls.line_call(call.line().encode()), call)
        for line, kind, name in ((b"start 7", BadLine, "NoCall"), (b"restore 5 latest 0", BadArgument, "BadShape"), (b"restore 5 0", Refused, "NoSuchSavepoint")):
            self.assertRaisesRegex(kind, f"^{name}$", calls.line_call, line)

    def test_a_log_is_made_again(self):
        settings = Settings(interval=1000, timeout=5000, keep_on_cancel=True)
        text = lines.opening_lines(settings, [1, 2], 7)
        self.assertEqual(text, "config 1000 0 1 5000 0 1 keep\njob 1 2\nstart 7\n")
        says = [lines.line_says(line) for line in text.encode().splitlines()]
        self.assertEqual(says, [settings, lines.Job((1, 2)), lines.Start(7)])
        with Coordinator(settings, [1, 2], 7) as job:
            job.tick(2000)
            job.ack(2000, 1, 0, 0, [1, 2])
            self.assertEqual(job.line(b"cancel 2000"), Cancelled(1, 2))
            with self.assertRaises(TooShort) as raised:
                job.line(b"take 9", 1)
            self.assertEqual((raised.exception.places, job.file_counts()), (2, FileCounts(0, 2, 0)))
            self.assertEqual(job.line(b"take 9", 2), Taken((1, 2)))
            self.assertIsNone(job.line(b"# a comment"))
            with self.assertRaisesRegex(BadLine, "TooLong"):
                job.line(b"tick" + b" " * (1 << 17))


def listed(numbers):
    return " ".join(map(str, numbers)) or "none"


def record(it):
    return f"{it.kind.value} {it.id} {'done' if it.done else 'pending'}" if it else "none"


def live(job):
    found = list(itertools.takewhile(bool, map(job.live, itertools.count())))
    return " ".join(map(record, found)) or "none"


def read(job, name, *words):
    """What a line that begins with ? tells: a read with its numbers."""
    given = [int(word) for word in words]
    try:
        told = live(job) if name == "live" else getattr(job, name)(given) if name == "garbage" else getattr(job, name)(*given)
    except Fenced as error:
        return f"fenced {error}"
    if name == "choice":
        return f"{told.kind.value} {told.id}" if told else "fresh"
    texts = {
        Mode: lambda: told.name.lower(), Standing: lambda: told.name.lower().replace("_", " "), Live: lambda: record(told), type(None): lambda: "none",
        FileCounts: lambda: f"{told.in_use} {told.waiting} {told.taken}", RunningTerm: lambda: f"{told.term} {told.next_name}", tuple: lambda: listed(told),
        Garbage: lambda: f"garbage {listed(told.garbage)} unissued {listed(told.unissued)}",
    }
    return texts.get(type(told), lambda: str(told))()


def printed(job, line, make):
    """What a line of a log prints: a second line has the term that began, if there are names."""
    if line.startswith("? "):
        return [read(job, *line.split()[1:])]
    try:
        found = told(job, 0, line.encode(), make)
    except Fenced as error:
        return [f"refused {error}" if error.name in ("NoNames", "HasNames", "NameInUse") else f"fenced {error}"]
    if found and found[0].startswith(("restored ", "cancelled ")):
        with contextlib.suppress(Fenced):
            found.append(f"term {job.term().term}")
    return found


def replay(test, log, make):
    """Makes the calls of a log so, and compares what each prints."""
    calls_of_log = [it for it in log.strip().split("\n") if not it.startswith("#")]
    settings, shape, start = (lines.line_says(line.encode()) for line in calls_of_log[:3])
    wanted, found = [], []
    with Coordinator(settings, shape.shape, start.now) as job:
        for line, _, answer in (it.partition("->") for it in calls_of_log[3:]):
            wanted.append(answer.strip())
            found += printed(job, line.strip(), make) if line.strip() else []
    test.assertEqual(found, wanted)
    test.assertGreater(len(found), 5)


def logs():
    """The example of docs/LOGS.md and the logs of examples/logs and examples/reads, whose answers stand beside their lines."""
    found = {it.stem: it.read_text() for folder in ("logs", "reads") for it in sorted((TOP / "examples" / folder).glob("*.log"))}
    return {"page": (TOP / "docs/LOGS.md").read_text().partition("## 5. An example")[2].split("```")[1], **found}


class Logs(unittest.TestCase):
    def test_logs(self):
        self.assertGreater(len(logs()), 14)
        for name, log in logs().items():
            for make in (Coordinator.line, by_method):
                with self.subTest(name):
                    replay(self, log, make)
