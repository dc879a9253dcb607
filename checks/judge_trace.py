#!/usr/bin/env python3
"""checks/judge_trace.py FOLDER TRACE: puts the lines of the log of FOLDER/job.db into what an engine has told of itself, and has relkvanu-conform judge
the whole: it obeys the rules. Prints how many lines there are.

The engine tells before a step or after an answer. Each line has in front the greatest place in the log that the process was answered by then, or 0 if
who tells does not know it. More of the log may have been committed: where a step rests on that, as the deletion of a file that was taken, lines are
put in until it does."""
import pathlib
import sqlite3
import sys

from relkvanu import Coordinator, Error, Fenced, Refused, lines
from relkvanu.conform import check

AHEAD = 200  # lines that may be committed, and that nobody has told an answer of


class Merged:
    """The trace so far, in parts: one more begins with each line of the log. And a coordinator that has made the calls of these lines."""

    def __init__(self, opening, log):
        self.parts, self.log, self.opening = [[]], log, opening.splitlines()
        self.core = self.opened()
        self.process, self.started = None, 0

    def opened(self):
        settings, shape, start, *named = (line.encode() for line in self.opening)
        core = Coordinator(lines.line_says(settings), lines.line_says(shape).shape, lines.line_says(start).now)
        for line in named:
            core.line(line)
        return core

    @property
    def next(self):
        return len(self.parts) - 1

    def tell(self, *told):
        self.parts[-1] += told

    def put_line(self):
        """The next line of the log."""
        line = self.log[self.next]
        self.parts.append([*sender(line), line, "log synced"])
        self.core.line(line.encode())

    def put_until(self, place):
        while self.next < place:
            self.put_line()

    def put_until_so(self, holds):
        for _ in range(AHEAD):
            if self.next == len(self.log) or holds():
                return
            self.put_line()

    def sent_in(self, line):
        """The part in which the task sent this message, or in which the process started that refused the call."""
        words = line.split(" ")
        begins = f"task {words[5]} {words[1]} sends " if words[0] == "in" else "no message"
        sent = (place for place in range(self.next, self.started, -1) if any(it.startswith(begins) for it in self.parts[place]))
        return next(sent, self.started)

    def was_refused_in(self, line):
        """The last part in which the library refused this call, since it was sent; None if there is none."""
        core, begin, found = self.opened(), self.sent_in(line), None
        for place in range(self.next):
            if place >= begin and is_refused(core, line):
                found = place
            core.line(self.log[place].encode())
        return found

    def put_refused(self, line):
        """A call that the library refused when it came. Before that was told, others may have been made, after which it would be taken: a message of a
        record that was pending is late once the record is done. Then it is put where it was refused."""
        part = self.next if is_refused(self.core, line) else self.was_refused_in(line)
        if part is None:
            self.put_until_so(lambda: is_refused(self.core, line))
            part = self.next
        self.parts[part] += [*sender(line), f"refused {line}"]

    def start_process(self, text):
        if self.process is not None:  # it was killed
            self.tell(f"process {self.process} ends", "log cut")
        is_first = self.process is None and not any(self.parts)
        self.tell(text, *([*self.opening, "log synced"] if is_first else ()))
        self.process, self.started = text.split(" ")[1], self.next

    def put(self, place, text):
        self.put_until(place)
        words = text.split(" ")
        if words[0] == "process" and words[2] == "starts":
            return self.start_process(text)
        if words[0] == "refused":
            return self.put_refused(text.partition(" ")[2])
        if words[0] == "process":
            self.process = None
        elif words[0] == "discarder":
            self.put_until_so(lambda: int(words[2]) in self.core.taken_files())
        elif words[0] == "sweeper":
            self.put_until_so(lambda: self.core.garbage([int(words[2])]).garbage)
        elif words[0] == "task" and words[3] == "writes":
            self.put_until_so(lambda: self.core.term().next_name > int(words[4]))
        self.tell(text)


def sender(line):
    """Whose message a line of the log is, if it is one: a subtask's start has the number of its term."""
    words = line.split(" ")
    return [f"from {words[5]} {words[1]}"] if words[0] == "in" else []


def is_refused(core, line):
    with Coordinator.open_saved(core.save()) as copy:
        try:
            copy.line(line.encode())
        except (Refused, Fenced):
            return True
        except Error as fault:
            raise AssertionError(f"{line}: {fault}") from fault
        return False


def merged(folder, told):
    with sqlite3.connect(f"file:{folder}/job.db?mode=ro", uri=True) as database:
        ((opening,),) = database.execute("SELECT opening FROM job")
        rows = database.execute("SELECT place, line FROM log ORDER BY place").fetchall()
    assert [place for place, _ in rows] == list(range(1, len(rows) + 1)), "the log was cut"
    it = Merged(opening, [line for _, line in rows])
    events = [(int(place), text) for place, _, text in (line.partition(" ") for line in told)]
    for at, (place, text) in enumerate(events):
        if text.startswith("process ") and text.endswith(" ends"):  # with all lines of its log
            place = next((then for then, other in events[at:] if other.endswith(" starts") and other.startswith("process ")), len(rows))
        it.put(place, text)
    it.put_until(len(rows))
    return [line for part in it.parts for line in part]


def main(folder, told):
    trace = merged(folder, pathlib.Path(told).read_text(encoding="utf-8").splitlines())
    assert any(line.startswith("refused in ") for line in trace) and any(line.startswith("sweeper unlinks") for line in trace)
    findings = check(trace)
    assert not findings, "\n".join(map(str, findings[:20]))
    print(f"traced: relkvanu-conform found that a trace of {len(trace)} lines obeys the rules")


if __name__ == "__main__":
    main(*sys.argv[1:])
