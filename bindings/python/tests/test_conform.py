"""Traces that obey the rules, and those that break one: which line, and what comes of it."""
import contextlib
import io
import pathlib
import re
import tempfile
import unittest

from relkvanu.conform import RULES, check, main
from relkvanu.trace import NoTrace

OPENING = ["process 1 starts", "config 10 0 1 1000 0 1 delete", "job 1", "start 0", "log synced", "task 0.0 1 starts"]


def checkpoint(record, file, start=1, reused=""):
    """A checkpoint of one task, from the tick to the answer."""
    task, now = f"0.0 {start}", 10 * record
    return [
        f"tick {now}", "log synced", f"barrier {record} to {task}", f"task {task} begins {record}", f"task {task} writes {file}",
        f"task {task} syncs {file}", f"task {task} sends ack {record} +{file}{reused}", f"from {task}",
        f"ack {now} {record} 0.0 +{file}{reused}", "log synced", f"answer to {task} accepted",
    ]


DISCARD = ["take 64", "log synced", "discarder unlinks 1", "folder synced", "deleted 1", "log synced"]
WHOLE = [*OPENING, *checkpoint(1, 1), *checkpoint(2, 2), *DISCARD]
RESTART = ["process 1 ends", "log cut", "process 2 starts", "restore 20 latest", "log synced", "sweeper lists 2", "task 0.0 2 starts"]


def without(lines, line, which=0):
    """The lines without one of them, and its place."""
    places = [place for place, it in enumerate(lines) if it == line]
    return lines[: places[which]] + lines[places[which] + 1 :]


def found(lines):
    """Line and rule of each finding that breaks a rule, and what came of it."""
    findings = check(lines)
    return [(it.line, it.rule) for it in findings if it.rule], [it.what for it in findings if not it.rule]


class Obeying(unittest.TestCase):
    def test_what_breaks_no_rule(self):
        for name, lines in {
            "a whole job": WHOLE, "a restart": [*WHOLE, *RESTART, *checkpoint(3, 3, start=2, reused=" =2")], "comments and empty lines": ["# a job", "", *WHOLE],
            "a message that was dropped or refused": [
                *OPENING, "tick 10", "log synced", "barrier 1 to 0.0 1", "from 0.0 1", "dropped decline 10 1 0.0", "from 0.0 1", "refused ack 10 7 0.0 +1"],
            "a sweep after a restore": [
                *OPENING, "task 0.0 1 writes 9", "process 1 ends", "log cut", "process 2 starts", "restore 0 latest", "log synced", "sweeper unlinks 9",
                "folder synced", "task 0.0 2 starts"],
            "a task deletes a file that it never acknowledged": [*OPENING, "task 0.0 1 writes 9", "task 0.0 1 unlinks 9"],
        }.items():
            self.assertEqual(check(lines), [], name)


class Judging(unittest.TestCase):
    def breaks(self, lines, rule, line, *came):
        """The first broken rule is this one, at this line (from 1)."""
        rules, what = found(lines)
        self.assertEqual(rules[:1], [(line, rule)], lines)
        for it in came:
            self.assertTrue(any(it in one for one in what), (it, what))


class Explored(unittest.TestCase):
    def test_each_trace_breaks_the_rule_that_was_switched_off(self):
        """The name of its file begins with the rule's number (explore/RULES)."""
        traces = sorted((pathlib.Path(__file__).resolve().parents[3] / "docs/protocol").glob("*.trace"))
        self.assertGreater(len(traces), 30)
        for path in traces:
            rules, came = found(path.read_text(encoding="utf-8").splitlines())
            self.assertEqual((rules[0][1], came != []), (int(path.name[:2]), True), path.name)


class Breaking(Judging):
    """Each changes the job that obeys the rules in one place, otherwise than the traces of docs/protocol."""

    def test_1_a_barrier_an_answer_a_deletion_and_a_start_rest_on_the_log(self):
        at = WHOLE.index("barrier 1 to 0.0 1")
        self.breaks(without(WHOLE, "log synced", 1), 1, at)
        at = WHOLE.index("answer to 0.0 1 accepted")
        self.breaks(without(WHOLE, "log synced", 2), 1, at)
        at = WHOLE.index("discarder unlinks 1")
        self.breaks(without(WHOLE, "log synced", 5), 1, at)
        self.breaks(without(WHOLE, "log synced"), 1, 5)
        self.breaks(without([*WHOLE, *RESTART], "log synced", 7), 1, len(WHOLE) + 6)

    def test_1_an_old_log_is_put_back(self):
        """What was acted on since is not in it. A copy that lacks nothing does no harm."""
        copied = [*OPENING, *checkpoint(1, 1), "log copied"]
        ended = ["process 1 ends", "log cut", "log put back", "process 2 starts", "restore 20 latest", "log synced"]
        lines = [*copied, *checkpoint(2, 2), *DISCARD, *ended]
        self.breaks(lines, 1, lines.index("log put back") + 1, "file 1 is lost: record 1")
        self.assertIn("a log is put back that lacks the last 4 synced lines", str(check(lines)[0]))
        self.assertEqual(check([*copied, *ended]), [])

    def test_2_a_file_that_is_written_again(self):
        at = WHOLE.index("task 0.0 1 sends ack 1 +1")
        self.breaks([*WHOLE[:at], "task 0.0 1 writes 1", *WHOLE[at:]], 2, at + 2)

    def test_6_a_task_deletes_what_is_accepted_or_under_way(self):
        self.breaks([*WHOLE, "task 0.0 1 unlinks 2"], 6, len(WHOLE) + 1, "file 2 is lost: record 2")
        at = WHOLE.index("task 0.0 1 sends ack 1 +1") + 1
        self.breaks([*WHOLE[:at], "task 0.0 1 unlinks 1", *WHOLE[at:]], 6, at + 1)

    def test_9_a_file_that_is_there_or_comes_back(self):
        at = WHOLE.index("deleted 1")
        self.breaks(without(WHOLE, "discarder unlinks 1"), 9, at, "file 1 is left")
        self.breaks(without(WHOLE, "folder synced"), 9, at)
        lines = [*without(WHOLE, "folder synced"), "storage loses power"]
        self.breaks(lines, 9, at, "file 1 is left")
        away = list(WHOLE)
        away.insert(WHOLE.index("discarder unlinks 1"), "storage away")
        self.breaks(away, 9, at + 2)


NAMED = [*OPENING[:4], "fence 1", *OPENING[4:]]


def named(record, file, start=1, term=1, reused=""):
    """A checkpoint of one task, which reserves the name of its file."""
    plain = [line.replace("ack", f"in {term} ack") if line.startswith("ack") else line for line in checkpoint(record, file, start, reused)]
    at = next(place for place, line in enumerate(plain) if " writes " in line)
    return [*plain[:at], f"reserve {term} 1", "log synced", *plain[at:]]


# The task of term 1 has written file 3, and never acknowledges it.
REPLACED = [*NAMED, *named(1, 1), *named(2, 2), "reserve 1 1", "log synced", "task 0.0 1 writes 3", "restore 20 latest", "log synced", "task 0.0 2 starts"]


class WithNames(Judging):
    """The job gives out the names of files."""

    def test_what_breaks_no_rule(self):
        """A sweep deletes garbage at any time, names need not be written, and a process goes on."""
        ended = [*REPLACED, "reserve 2 1", "process 1 ends", "log cut", "process 2 starts", "restore 20 latest", "log synced", "task 0.0 3 starts"]
        for lines in (
            [*NAMED, *named(1, 1), *named(2, 2), *DISCARD], [*REPLACED, *named(3, 4, 2, 2, " =2")], [*REPLACED, "sweeper lists 1 2 3", "sweeper unlinks 3"],
            [*NAMED, *named(1, 1), "reserve 1 1", "log synced", "task 0.0 1 writes 2", "forfeit 1 2", "log synced", "sweeper unlinks 2"],
            [*NAMED, "reserve 1 5", "log synced", "tick 10", "task 0.0 1 gives up 1"], [*ended, *named(3, 4, 3, 3, " =2")],
        ):
            self.assertEqual(check(lines), [])

    def test_8_a_sweep_of_what_is_not_garbage(self):
        held = REPLACED[:REPLACED.index("task 0.0 1 writes 3") + 1]
        for before, file in ((held, 2), (held, 1), (held, 3), (held, 9), (REPLACED, 2)):  # in use, waiting, held, not given out, in use
            self.breaks([*before, f"sweeper unlinks {file}"], 8, len(before) + 1)
        self.breaks([*held, "sweeper unlinks 2"], 8, len(held) + 1, "file 2 is lost: record 2")

    def test_8_a_restore_that_is_not_durable_makes_no_garbage(self):
        lines = [*REPLACED[:REPLACED.index("restore 20 latest") + 1], "sweeper unlinks 3"]
        self.breaks(lines, 8, len(lines))

    def test_1_a_name_is_used_before_its_reservation_is_durable(self):
        at = NAMED.index("task 0.0 1 starts") + 1 + named(1, 1).index("reserve 1 1") + 1
        lines = [*NAMED, *named(1, 1)]
        self.breaks([*lines[:at], *lines[at + 1:]], 1, at + 1)

    def test_a_message_of_a_replaced_task_is_refused(self):
        told = ["tick 30", "log synced", "barrier 3 to 0.0 2", "from 0.0 1"]
        for message in ("in 1 ack 30 3 0.0 =2", "in 1 ack 30 3 0.0 +3", "in 1 decline 30 3 0.0", "ack 30 3 0.0 =2"):
            self.assertEqual(check([*REPLACED, *told, f"refused {message}"]), [], message)
        for call in ("reserve 1 1", "forfeit 1 3"):
            self.assertEqual(check([*REPLACED, f"refused {call}"]), [], call)
        lines = [*REPLACED, *told, "in 2 ack 30 3 0.0 =2"]  # it got the term of others
        self.breaks(lines, 3, len(lines), "record 3 is done, and has a part of a task that was replaced")

    def test_a_message_that_comes_twice(self):
        lines = [*NAMED, *named(1, 1), "task 0.0 1 sends ack 1 +1", "from 0.0 1", "refused in 1 ack 10 1 0.0 +1", "answer to 0.0 1 refused"]
        self.assertEqual(check(lines), [])
        self.breaks([*lines, "task 0.0 1 unlinks 1"], 6, len(lines) + 1, "file 1 is lost: record 1")

    def test_9_a_file_that_was_reported_and_that_no_sweep_deletes(self):
        """A file that comes back is garbage: so a sweep may delete it at any time, and nothing is lost."""
        before = [*NAMED, *named(1, 1), *named(2, 2)]
        comes_back = [*before, *without(DISCARD, "folder synced"), "storage loses power"]
        stays = [*before, *without(DISCARD, "discarder unlinks 1")]
        away = [*before, "storage away", *DISCARD, "storage back"]
        for trace in (comes_back, stays, away):
            self.breaks(trace, 9, trace.index("deleted 1") + 1)
            self.assertEqual(len(check(trace)), 1)
            self.assertEqual(check([*trace, "sweeper unlinks 1", "folder synced"]), [])
            self.assertEqual(check([*trace, "sweeper unlinks 1"]), [])
        self.assertEqual(check(comes_back[:-1]), [], "it did not come back")
        self.assertEqual(check([*comes_back, "process 1 ends"]), [], "another process may sweep")

    def test_9_a_report_that_was_cut(self):
        """The log does not have it after the crash: the next process reports anew."""
        lines = [*NAMED, *named(1, 1), *named(2, 2), "take 64", "log synced", "deleted 1", "process 1 ends", "log cut", "process 2 starts"]
        self.assertEqual(check(lines), [])
        self.breaks([*lines, "deleted 1", "log synced"], 9, lines.index("deleted 1") + 1)

    def test_8_a_name_that_is_not_given_up(self):
        """The file stays until the next restore."""
        at, whole = named(2, 2).index("task 0.0 1 writes 2"), named(2, 2)
        written = [*NAMED, *named(1, 1), *whole[:at + 1]]
        for last in ("task 0.0 1 gives up 2", "task 0.0 1 sends decline 2"):
            lines = [*written, last]
            self.breaks(lines, 8, len(lines), "file 2 is left")
            self.breaks([*lines, "log synced", "task 0.0 1 keeps 7"], 8, len(lines), "file 2 is left")
            for later in (["forfeit 1 2", "log synced"], ["task 0.0 1 keeps 2"], ["restore 20 latest", "log synced"], ["cancel 20"],
                          ["process 1 ends"]):
                self.assertEqual(check([*lines, *later]), [], later)
        words = "rule 8: a sweep deletes only garbage, and a task gives up the names that it will not acknowledge: task 0.0 1 declines record 2"
        self.assertIn(words, str(check(lines)[0]))
        self.assertEqual(check([*written, "forfeit 1 2", "log synced", "task 0.0 1 sends decline 2"]), [])

    def test_8_a_file_that_a_task_keeps_for_a_later_record(self):
        whole, tolerant = named(1, 1), [line.replace("config 10 0 1 1000 0", "config 10 0 1 1000 5") for line in NAMED]
        kept = [*tolerant, *whole[:whole.index("task 0.0 1 sends ack 1 +1")], "task 0.0 1 gives up 1", "task 0.0 1 keeps 1", "from 0.0 1",
                "in 1 decline 10 1 0.0", "log synced"]
        later = [*kept, "tick 20", "log synced", "barrier 2 to 0.0 1", "task 0.0 1 begins 2", "task 0.0 1 sends ack 2 +1", "from 0.0 1",
                 "in 1 ack 20 2 0.0 +1", "log synced", "answer to 0.0 1 accepted"]
        self.assertEqual(check(later), [])
        self.breaks([*kept, "task 0.0 1 gives up 2"], 8, len(kept) + 1, "file 1 is left")

    def test_8_a_refused_message(self):
        """A task that goes on has read the answer. One whose message is under way, or that may not have read it yet, has not given up the name
        late."""
        whole = named(1, 1)
        sent = [*NAMED, *whole[:whole.index("task 0.0 1 sends ack 1 +1") + 1]]
        self.assertEqual(check([*sent, "task 0.0 1 gives up 1"]), [], "it is under way, and may be accepted")
        refused = [*sent, "from 0.0 1", "refused in 1 ack 10 9 0.0 +1", "answer to 0.0 1 refused"]
        self.assertEqual(check(refused), [])
        goes_on = ["tick 20", "task 0.0 1 begins 2"]
        self.breaks([*refused, *goes_on], 8, len(refused), "file 1 is left")
        self.assertEqual(check([*refused, "forfeit 1 1", "log synced", *goes_on]), [])

    def test_8_the_files_of_another_record(self):
        """A task that takes part in two records at once gives up one of them."""
        lines = [*NAMED, *named(1, 1), "reserve 1 2", "log synced", "task 0.0 1 begins 2", "task 0.0 1 writes 2", "task 0.0 1 begins 3",
                 "task 0.0 1 writes 3"]
        self.assertEqual(check([*lines, "task 0.0 1 gives up 2", "forfeit 1 2", "log synced"]), [])
        self.breaks([*lines, "task 0.0 1 gives up 2", "forfeit 1 3", "log synced"], 8, len(lines) + 1, "file 2 is left")

    def test_damaged_lines(self):
        for line in ("reserve 1", "reserve 1 x", "reserve", "fence", "in 1", "in x tick 10", "forfeit", "reserve 1 1 1", "in 1 in 1 tick 10", "fence 9"):
            with self.subTest(line=line), self.assertRaises(NoTrace):
                check([*NAMED, line])
        for line in ("reserve 1 1", "in 1 tick 10", "forfeit 1"):
            with self.subTest(line=line), self.assertRaises(NoTrace):
                check([*OPENING, line])


class Damaged(unittest.TestCase):
    def refuses(self, lines, line):
        with self.assertRaises(NoTrace) as told:
            check(lines)
        self.assertIn(f"line {line}:", str(told.exception))

    def test_lines_that_are_none(self):
        for line in (
            "task 0.0 starts", "process one starts", "tick", "write 1", "task 0.0 1 writes 1 2", "barrier 1", "log", "restore", "TICK 10",
            "task 0.0 1 sends ack 1 1", "answer to 0.0 1 maybe",
            "ack 10 1 0.0 +1", "tick 10 10",  # calls that the library does not take
            "refused tick 10",  # and one that it does not refuse
        ):
            with self.subTest(line=line):
                self.refuses([*OPENING, line], 7)

    def test_lines_in_a_wrong_place(self):
        """An opening that is none, a log that was not copied, and a process that has ended."""
        self.refuses(["process 1 starts", "tick 10", "job 1", "start 0"], 4)
        self.refuses(["tick 10"], 1)
        for line in ("log put back", "tick 10", "process 1 goes on"):
            self.refuses([*OPENING, "process 1 ends", line], 8)


def acknowledged(record, task, end=("log synced",)):
    """A message of a task without files, and what the process does with it."""
    subtask = task.split()[0]
    return [f"task {task} sends ack {record}", f"from {task}", f"ack 0 {record} {subtask}", *end, f"answer to {task} accepted"]


def with_sink(record, call, task="0.0 1", end=("log synced",)):
    """A record of one task with a sink, up to the answer. `call` makes it."""
    return [*call, f"barrier {record} to {task}", f"task {task} begins {record}", f"task {task} prepares {record}", *acknowledged(record, task, end)]


def read(*elements, task="0.0 1"):
    return [f"task {task} reads {element}" for element in elements]


FIRST = [*OPENING, *read(1), *with_sink(1, ["tick 10", "log synced"]), "complete 1 to 0.0 1"]  # and not published yet
BEGUN = ["restore 0 latest", "log synced", "task 0.0 2 starts"]
STOP = ["savepoint 0", "stop with 2", "log synced"]
BACK = ["savepoint 0", "back to 1 with 3", "ack 0 3 0.0", "restore 0 3", "log synced", "task 0.0 2 starts"]
CHAINED = ["process 1 starts", "config 10 0 1 1000 0 1 delete", "job 2", "start 0", "log synced", "channel 0.0 to 0.1", "task 0.0 1 starts",
           "task 0.1 1 starts", "task 0.0 1 reads 1", "tick 10", "log synced", "barrier 1 to 0.0 1", "barrier 1 to 0.1 1", "task 0.0 1 begins 1"]


class Elements(Judging):
    """What sources read and sinks publish."""

    def test_a_stop_and_a_begin(self):
        stopped = [*FIRST, "task 0.0 1 publishes 1", *read(2), *with_sink(2, STOP, end=("restore 0 2", "log synced", "complete 2 to 0.0 1"))]
        again = [*read(3, task="0.0 2"), *with_sink(3, ["tick 20", "log synced"], "0.0 2"), "complete 3 to 0.0 2", "task 0.0 2 publishes 3"]
        self.assertEqual(check([*stopped, "task 0.0 1 publishes 2", "begin", *BEGUN, *again]), [])
        self.assertEqual(check([*stopped, "begin", *BEGUN, "task 0.0 2 publishes 2", *again]), [])
        self.breaks([*stopped, "begin", *BEGUN, *again], 12, len(stopped) + 5)

    def test_a_way_back(self):
        later = [*FIRST, "task 0.0 1 publishes 1", *read(2), "savepoint 0", "log synced", "barrier 2 to 0.0 1", "task 0.0 1 begins 2", "task 0.0 1 prepares 2"]
        again = [*read(2, task="0.0 2"), *with_sink(4, ["tick 20", "log synced"], "0.0 2"), "complete 4 to 0.0 2", "task 0.0 2 publishes 4"]
        self.assertEqual(check([*later, *BACK, "task 0.0 2 drops 2", *again]), [])
        self.breaks([*later, *BACK, "task 0.0 2 publishes 2", *again], 12, len(later) + len(BACK) + 1, "element 2 of 0.0 is published twice")

    def test_what_was_published_before_a_way_back_comes_again(self):
        second = [*FIRST, "task 0.0 1 publishes 1", *read(2), *with_sink(2, ["tick 20", "log synced"]), "complete 2 to 0.0 1", "task 0.0 1 publishes 2"]
        back = ["restore 20 3" if line == "restore 0 3" else line for line in BACK]
        again = [*read(2, task="0.0 2"), *with_sink(4, ["tick 30", "log synced"], "0.0 2"), "complete 4 to 0.0 2", "task 0.0 2 publishes 4"]
        retained = ["config 10 0 1 1000 0 2 delete" if line.startswith("config") else line for line in [*second, *back, *again]]
        self.assertEqual(check(retained), [])

    def test_11_an_element_behind_the_barrier(self):
        lines = [*CHAINED, "task 0.0 1 reads 2", "task 0.1 1 takes 1 from 0.0", "task 0.1 1 takes barrier 1 from 0.0", "task 0.1 1 takes 2 from 0.0"]
        self.breaks(lines, 11, len(lines))
        late = [*lines[:-1], "savepoint 0", "log synced", "barrier 2 to 0.1 1", lines[-1]]  # record 1 is over: the coordinator says so by the next one
        self.assertEqual(check(late), [])

    def test_12_what_is_found_is_given_up(self):
        second = [*FIRST, "task 0.0 1 publishes 1", *read(2), "savepoint 0", "log synced", "barrier 2 to 0.0 1", "task 0.0 1 begins 2", "task 0.0 1 prepares 2"]
        self.assertEqual(check([*second, *BEGUN, "task 0.0 2 drops 2", *read(2, task="0.0 2")]), [])
        self.breaks([*second, *BEGUN, *read(2, task="0.0 2")], 12, len(second) + len(BEGUN) + 1)

    def test_15_a_way_back_to_a_record_that_lacks_a_file(self):
        """Nobody misses the file of an older record until the job goes back to it. A storage that is away has none."""
        retained = ["config 10 0 1 1000 0 2 delete" if line.startswith("config") else line for line in [*OPENING, *checkpoint(1, 1), *checkpoint(2, 2)]]
        back = [line.replace("0.0", "0.0 =1") if line.startswith("ack") else line for line in BACK]
        back = [line.replace(" 0 ", " 20 ") for line in back]
        self.assertEqual(check([*retained, *back]), [])
        for gone in ("storage lacks 1", "storage away"):
            lines = [*retained, gone, *back]
            self.breaks(lines, 15, lines.index("restore 20 3") + 1)
        self.assertEqual(check([*retained, "storage lacks 1", "tick 30", "log synced"]), [])
        self.breaks([*retained, "storage lacks 1", *back], 15, len(retained) + 5, "file 1 is lost: record 3 uses it")
        self.assertEqual(found([*retained, "storage lacks 2"])[1], ["file 2 is lost: record 2 uses it"])

    def test_15_a_restore_to_a_savepoint_that_lacks_a_file(self):
        saved = [line.replace("tick 10", "savepoint 10") for line in [*OPENING, *checkpoint(1, 1)]]
        restored = ["restore 10 1", "log synced", "task 0.0 2 starts"]
        self.assertEqual(check([*saved, *restored]), [])
        self.breaks([*saved, "storage lacks 1", *restored], 15, len(saved) + 2, "file 1 is lost: record 1 uses it")

    def test_1_a_sink_is_told_before_the_log_is_synced(self):
        unanswered = without(FIRST, "answer to 0.0 1 accepted")
        self.assertEqual(check(unanswered), [])
        self.breaks(without(unanswered, "log synced", 2), 1, len(unanswered) - 1)


LOST = ["process 1 ends", "log cut", "log lost"]


def told(lines, record):
    """The lines with the manifest of the record, between its commit and the answer."""
    at = next(place for place, line in enumerate(lines) if re.match(rf"(in [0-9]+ )?ack [0-9]+ {record} 0\.0", line)) + 2
    return [*lines[:at], f"manifest {record}", *lines[at:]]


def recovered(record, files, more=(), number=2, swept=()):
    """A process makes the job again, and the next one begins it. Without names it sweeps what no record has."""
    return [f"process {number} recovers {record}", *OPENING[1:4], "trigger 0", f"ack 0 {record} 0.0{files}", *more, "log synced", f"process {number} ends",
            f"process {number + 1} starts", "restore 0 latest", "log synced", *(f"sweeper unlinks {file}" for file in swept), *["folder synced"] * bool(swept),
            "task 0.0 2 starts"]


ONE = told([*OPENING, *checkpoint(1, 1)], 1)
TWO = told([*ONE, *checkpoint(2, 2)], 2)
AGAIN = [*LOST, *recovered(2, " +2", swept=[1])]
# With names: the task of term 1 has reserved the name 2 as well.
NAMED_ONE = [*told([*NAMED, *named(1, 1)], 1), "reserve 1 1", "log synced", *LOST]
NAMES = ["fence 3", "advance 0 1 3"]


class Lost(Judging):
    """Jobs that lost their log and were made again from a manifest."""

    def test_what_breaks_no_rule(self):
        """Without names and with; where nobody was told of a record, whose manifest may be missing; and of a log that is lost twice."""
        third, untold = told(checkpoint(3, 3, start=2, reused=" =2"), 3), ["savepoint 0", "decline 0 2 0.0"]
        again = [line.replace("0.0 2", "0.0 3") for line in recovered(3, " +2 +3", number=4)]
        for lines in (
            [*TWO, *AGAIN, *third], [*NAMED_ONE, *recovered(1, " +1", NAMES), *told(named(2, 3, start=2, term=3, reused=" =1"), 2)],
            [*ONE, *checkpoint(2, 2)[:-1], *LOST, *recovered(1, " +1", untold, swept=[2])],
            [*TWO, *AGAIN, *third, "process 3 ends", "log cut", "log lost", *again],
        ):
            self.assertEqual(check(lines), [])

    def test_16_a_deletion_before_the_manifest(self):
        taken = ["take 64", "log synced", "discarder unlinks 1", "folder synced"]
        late = [*ONE, *checkpoint(2, 2)[:-1], *taken]
        self.breaks(late, 16, len(late) - 1)
        self.breaks([*late[:-2], "answer to 0.0 1 accepted"], 16, len(late) - 1)
        self.breaks([*late[:-2], "tick 30", "log synced", "barrier 3 to 0.0 1"], 16, len(late) + 1)
        self.breaks([*late, *LOST, *recovered(1, " +1", ["savepoint 0", "decline 0 2 0.0"])], 16, len(late) - 1, "file 1 is lost: record 1")
        self.assertEqual(check([*TWO, *taken]), [])

    def test_16_a_sink_is_told_before_the_manifest(self):
        first = told([*OPENING, *read(1), *with_sink(1, ["tick 10", "log synced"])], 1)
        second = [*first, *read(2), *with_sink(2, ["tick 20", "log synced"]), "complete 2 to 0.0 1"]
        self.breaks(without(second, "answer to 0.0 1 accepted", 1), 16, len(second) - 1)

    def test_18_a_process_that_has_not_ended(self):
        self.breaks([*TWO, "log lost", *recovered(2, " +2")], 18, len(TWO) + 2)

    def test_a_log_that_was_not_lost(self):
        lost = [*ONE, *LOST]
        for lines in ([*ONE, "log comes back"], [*ONE, "process 2 recovers 1"], [*lost, *recovered(1, " +1"), "process 9 recovers 1"], [*lost, "process 2 starts"]):
            self.assertRaises(NoTrace, check, lines)

    def test_a_sweep_while_no_process_runs(self):
        """What the durable log says is garbage may go, also when the log is lost or made again."""
        ended = [*NAMED, *named(1, 1), "reserve 1 1", "forfeit 1 2", "log synced", "manifest 1", *LOST[:2]]
        swept = ["sweeper unlinks 2"]
        for lines in (ended, [*ended, "log lost"], [*ended, "log lost", *recovered(1, " +1", NAMES)[:-4]]):
            self.assertEqual(check([*lines, *swept]), [])
            self.breaks([*lines, "sweeper unlinks 1"], 8, len(lines) + 1)


class Command(unittest.TestCase):
    def said(self, text):
        with tempfile.TemporaryDirectory() as folder:
            path = pathlib.Path(folder) / "trace"
            path.write_text(text, encoding="utf-8")
            out, errors = io.StringIO(), io.StringIO()
            with contextlib.redirect_stdout(out), contextlib.redirect_stderr(errors):
                status = main([str(path)])
            return status, out.getvalue(), errors.getvalue()

    def test_status_and_words(self):
        whole = "".join(line + "\n" for line in WHOLE)
        self.assertEqual(self.said(whole), (0, "the trace obeys the rules\n", ""))
        status, out, _ = self.said(whole + "process 2 starts\n")
        self.assertEqual(status, 1)
        self.assertEqual(out, f"line {len(WHOLE) + 1}: rule 5: {RULES[5]}: process 2 starts, and process 1 has not ended\n")
        status, out, errors = self.said("what\n")
        self.assertEqual((status, out, errors), (2, "", "relkvanu-conform: line 1: not a line of a trace: what\n"))
        with contextlib.redirect_stderr(io.StringIO()), contextlib.redirect_stdout(io.StringIO()):
            self.assertEqual((main([]), main(["/no/such/trace"])), (2, 2))
