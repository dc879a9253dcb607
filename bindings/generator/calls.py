"""The calls of the header that take one number beside the handle, or none, those of tasks, and the reads: each language makes them all in the same way."""
import re
from typing import Dict, List, NamedTuple, Optional, Tuple

from generator import header
from generator.header import Number, parameters, pointed

# Calls after which a timer waits as long as before. After any other one it looks again.
QUIET = ("dispose", "deleted", "undeleted")
# Kinds of lines that read, for which a store has reads.
READS = ("show", "count")
# Calls on names, whose replies are not among those of the others: each language has them by hand.
BY_HAND = ("fence",)
# Reports of the discarder, which a store makes by itself: a store has no method for them.
REPORTS = ("deleted", "undeleted")
# The calls of tasks, of several numbers, a subtask or lists, and whose replies the first ones have.
TASKS = {"ack": "ack", "decline": "decline", "reserve": "reserve", "forfeit": "forfeit", "advance": "restore", "ack_in": "ack", "decline_in": "decline"}


class Call(NamedTuple):
    """A call: its name, its number, what the header says of it, and what it is answered."""

    name: str
    number: Optional[str]
    comment: str
    replies: List[Number]
    is_read: bool

    def kind(self) -> str:
        """Its number of the header, without RELKVANU_."""
        return f"CALL_{self.name.upper()}"

    def has_moment(self) -> bool:
        return self.number == "now"

    def is_quiet(self) -> bool:
        return self.name in QUIET

    def is_plain(self) -> bool:
        """Whether it changes a coordinator, with names or without. A fence has a reply of its own, and a count is a read."""
        return bool(self.replies) and not self.is_read

    def family(self) -> str:
        """The call whose replies these are. It is another one if a reply begins with its name: a trigger is answered as a tick."""
        others = [member for member, _ in header.enums()["call_kind"].members]
        first = self.replies[0].name.partition("_")[0].lower() if self.replies else self.name
        return first if first in others else self.name

    def reply(self) -> Optional[Number]:
        """Its reply, if it has one alone, and no other call has it."""
        return self.replies[0] if len(self.replies) == 1 and self.family() == self.name else None

    def names_record(self) -> bool:
        """Whether a reply names a record that the call made."""
        return any(field == "id" for it in self.replies for field, _, _ in it.fields())

    def named(self) -> str:
        """Its name with an article, as in "an undeleted"."""
        return f"{'an' if self.name[0] in 'aeiou' else 'a'} {header.words(self.name)}"


def answered(told: str) -> List[Number]:
    """The replies that the comment of a function names, of those to calls without a buffer. `A to B` are all of the header between them."""
    known = {it.name: it for it in header.replies()}
    listed = list(known)
    found = []
    for first, last in re.findall(r"RELKVANU_(\w+)(?: to RELKVANU_(\w+))?", told.partition("Refused:")[0]):
        if first in known:
            found += [known[it] for it in listed[listed.index(first):listed.index(last or first) + 1]]
    return found


def numbers_of(function: object) -> Optional[List[str]]:
    """The numbers that a function takes beside the handle, or None if it takes anything else."""
    handle, *rest = [(name, pointed(kind)[:2]) for name, kind in parameters(function)]
    return [name for name, _ in rest] if handle[1] == ("relkvanu", 1) and all(kind == ("uint64_t", 0) for _, kind in rest) else None


def calls() -> List[Call]:
    """Each kind of call whose function takes at most one number, in the order of their numbers."""
    _, functions = header.declarations()
    paragraphs, found = header.paragraphs(), []
    reads = header.reads()
    for member, _ in header.enums()["call_kind"].members:
        name = f"relkvanu_{member}"
        taken = numbers_of(functions[name]) if name in functions else None
        if taken is not None and len(taken) <= 1:
            comment, *rest = paragraphs[name]
            replies = answered(" ".join(rest))
            if not replies and member not in BY_HAND:
                raise ValueError(f"the comment of {name} names no number below `what, if code is RELKVANU_DONE` before its refusals")
            found.append(Call(member, taken[0] if taken else None, comment, replies, name in reads))
    return found


def plain() -> List[Call]:
    """The calls that change a coordinator, with names or without."""
    return [it for it in calls() if it.is_plain()]


def stored() -> List[Call]:
    """Those for which a store has a method."""
    return [it for it in plain() if it.name not in REPORTS]


def of_their_own(found: List[Call]) -> List[Call]:
    """Those with one reply, which is theirs alone."""
    return [it for it in found if it.reply() is not None]


# The reads of numbers, of an enum, of a choice, of live records and of files, each with what it tells, or the reply of one that has a number. Of a "list?"
# there may be none.
LOOKS = {
    "mode": "enum", "moment": "number", "due": "number", "oldest_expiry": "EXPIRES", "choice": "choice", "live": "live", "missing": "MISSING",
    "live_from": "live", "standing": "enum", "waiting_file": "WAITING", "files_of": "list?", "pins_of": "list", "taken_files": "list",
}


class Function(NamedTuple):
    """A call of TASKS, or a read: its name, what the header says of it, and what it takes, each a moment, a term, a number, a place, a subtask or a list."""

    name: str
    comment: str
    given: List[Tuple[str, str]]

    def kind(self) -> str:
        """The word of its line, which has a term before it if the call has one."""
        return self.name.removesuffix("_in")

    def family(self) -> str:
        return TASKS[self.name]

    def has_moment(self) -> bool:
        return ("moment", "now") in self.given

    def tells(self) -> str:
        """What a read tells."""
        return LOOKS[self.name]

    def has_list(self) -> bool:
        return any(kind == "list" for kind, _ in self.given)

    def each(self, forms: Dict[str, str], between: str = ", ") -> str:
        """What it takes, each in the form of its kind, in which {} is its name. One whose kind has no form is left out."""
        return between.join(forms[kind].format(name) for kind, name in self.given if kind in forms)


def given_to(function: object) -> List[Tuple[str, str]]:
    """What a function takes beside the handle: the kind and the name of each."""
    kinds = {"now": "moment", "term": "term", "place": "place", "vertex": "subtask", "index": ""}
    given = [(name, pointed(it)) for name, it in parameters(function)[1:] if not name.endswith("_len")]
    found = [(kinds.get(name, "list" if depth else "number"), name) for name, (_, depth, is_const) in given if is_const or not depth]
    return [(kind, "subtask" if kind == "subtask" else name) for kind, name in found if kind]


def of_tasks(*left_out: str) -> List[Function]:
    """The calls of tasks but some. What they say has the names without the prefixes of C, and which files a task may delete."""
    _, functions = header.declarations()
    found = []
    for name in [it for it in TASKS if it not in left_out]:
        comment, replies = header.paragraphs()[f"relkvanu_{name}"]
        said = [comment, *re.findall(r"(?<=\. )[^.]*\bdelete a file\b[^.]*\.", replies)]
        told = re.sub(r"RELKVANU_(\w+)", lambda it: header.camel(it[1].lower()), " ".join(said))
        found.append(Function(name, told.replace("relkvanu_", ""), given_to(functions[f"relkvanu_{name}"])))
    return found


def looks() -> List[Function]:
    """The reads. What they say has no replies, and none for the reply of one that has no number."""
    _, functions = header.declarations()
    found = []
    for name in LOOKS:
        told = re.sub(r"^RELKVANU_\w+: |: RELKVANU_\w+(?:(?:,| or| to) RELKVANU_\w+)*|RELKVANU_WAITING; ", "", header.paragraphs()[f"relkvanu_{name}"][0])
        told = re.sub(r"RELKVANU_\w+", "none", told).replace("Writes the files", "The files").replace("Writes none", "None")
        told += " None if it has not acknowledged in one." if LOOKS[name] == "list?" else ""
        told = re.sub(r"(?:^|(?<=\. ))[a-z]", lambda it: it[0].upper(), told)
        found.append(Function(name, told, given_to(functions[f"relkvanu_{name}"])))
    return found


class Step(NamedTuple):
    """A step of an alignment: its name, its function, what the header says of it, what it takes beside the inputs, and whether it changes anything."""

    name: str
    function: str
    comment: str
    given: List[Tuple[str, str]]
    is_change: bool


def steps(mode: str) -> List[Step]:
    """The steps of an aligner (align) or a recorder (unaligned) that is open. What they say has the names of steps without the prefixes of C."""
    _, functions = header.declarations()
    found = []
    for name, it in functions.items():
        step = name.removeprefix(f"relkvanu_{mode}_")
        if step not in (name, "open"):
            told = re.sub(r"relkvanu_align_", "", " ".join(header.paragraphs()[name]))
            told = re.sub(r"RELKVANU_STEP_(\w+)", lambda it: it[1].lower(), told)
            (_, state), *rest = parameters(it)
            given = [(header.SCALARS[pointed(kind)[0]][1], word) for word, kind in rest if not word.startswith("inputs")]
            found.append(Step(step, name, told[0].upper() + told[1:], given, not pointed(state)[2]))
    return found
