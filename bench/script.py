#!/usr/bin/env python3
"""script.py [KIND] [LINES]: prints a script of a kind, by default 1000000 lines, as many as one may have.

The same arguments give the same script, and no line is refused. The kinds:

  rounds       4 subtasks with 1 new and 7 old files each; what is released is taken and deleted (the default)
  ticks        ticks alone, a millisecond apart
  taken        1 subtask with 1 new file; what is released is taken, and never reported
  subtasks     64 subtasks with 3 new and up to 8 old files each; what is released is taken, and never reported
  many         4096 subtasks, the same
  waiting      64 subtasks, the same, but nothing is taken
  discarder    64 new files a round, taken by eights; one of eight can't be deleted at first
  savepoints   900 savepoints live; in each round one is taken and one disposed of
"""

import itertools
import sys

INTERVAL = 1000
NEVER = 1 << 40  # the greatest timeout
RETAINED = 2


def opening(subtasks):
    yield f"config {INTERVAL} 0 1 {NEVER} 0 {RETAINED} delete"
    yield f"job {subtasks}"
    yield "start 0"


class Files:
    """The files that each subtask writes: some new ones in each round, and of the older the newest."""

    def __init__(self, subtasks, new, old):
        self.subtasks, self.new, self.old = subtasks, new, old

    def one(self, subtask, place):
        """The file that is the subtask's at this place, counted from 0 over all rounds."""
        return 1 + place * self.subtasks + subtask

    def ack(self, number, round_, subtask):
        first = (round_ - 1) * self.new
        reused = range(max(0, first - self.old), first)
        words = "".join(f" ={self.one(subtask, place)}" for place in reused)
        words += "".join(f" +{self.one(subtask, place)}" for place in range(first, first + self.new))
        return f"ack {round_ * INTERVAL + subtask % INTERVAL} {number} 0.{subtask}{words}"

    def released(self, round_):
        """The files that only the checkpoint used that is dropped in this round, in rising order."""

        def kept_from(dropped):  # the least place that a checkpoint of a round uses
            return max(0, (dropped - 1) * self.new - self.old)

        dropped = round_ - RETAINED
        if dropped < 1:
            return []
        places = range(kept_from(dropped), kept_from(dropped + 1))
        return sorted(self.one(subtask, place) for place in places for subtask in range(self.subtasks))


def rounds(files, after):
    """Rounds in which a checkpoint is triggered and acknowledged; `after` gives the further lines."""
    for number in itertools.count(1):
        yield f"tick {number * INTERVAL}"
        for subtask in range(files.subtasks):
            yield files.ack(number, number, subtask)
        yield from after(number, files.released(number))


def deleted(number, released):
    yield f"count {released[0] if released else number}"
    yield f"take {max(1, len(released))}"
    for file in released:
        yield f"deleted {file}"


def taken(_, released):
    yield f"take {max(8, len(released))}"


def nothing(_, __):
    return iter(())


def discarded(_, released):
    """The last file of each take is reported as not deleted, and taken once more at the end."""
    for at in range(0, len(released), 8):
        yield "take 8"
        *gone, kept = released[at : at + 8]
        yield from (f"deleted {file}" for file in gone)
        yield f"undeleted {kept}"
    if released:
        yield f"take {len(released)}"
        yield from (f"deleted {file}" for file in released[7::8])


def ticks():
    for moment in itertools.count():
        yield f"tick {moment}"


def savepoints(live):
    for number in itertools.count(1):
        yield f"savepoint {number}"
        yield f"ack {number} {number} 0.0 +{number}"
        if number > live:
            yield f"dispose {number - live}"
            yield "take 1"
            yield f"deleted {number - live}"


KINDS = {
    "rounds": lambda: (opening(4), rounds(Files(4, 1, 7), deleted)),
    "ticks": lambda: (opening(4), ticks()),
    "taken": lambda: (opening(1), rounds(Files(1, 1, 0), taken)),
    "subtasks": lambda: (opening(64), rounds(Files(64, 3, 8), taken)),
    "many": lambda: (opening(4096), rounds(Files(4096, 3, 8), taken)),
    "waiting": lambda: (opening(64), rounds(Files(64, 3, 8), nothing)),
    "discarder": lambda: (opening(1), rounds(Files(1, 64, 0), discarded)),
    "savepoints": lambda: (opening(1), savepoints(900)),
}


def main():
    words = sys.argv[1:]
    kind = words.pop(0) if words and words[0] in KINDS else "rounds"
    if len(words) > 1 or not all(word.isdecimal() for word in words):
        sys.exit(__doc__)
    most = int(words[0]) if words else 1_000_000
    lines = itertools.chain.from_iterable(KINDS[kind]())
    sys.stdout.writelines(f"{line}\n" for line in itertools.islice(lines, most))


main()
