"""Reads scripts and logs for the second model, and prints its answers. As second_model.py it was written from the pages alone: S is docs/SCRIPT.md,
L LOGS.md, and N RULES.md."""
from second_model import NAMES, TERMS, Coordinator, Fenced, Names, Refused, made_config, made_shape

# S 5 and 11: the greatest of each.
NUMBERS = 2**64 - 1
PARTS = 65535
LINE_BYTES = 131_072
THREADS = 64
# S 4, L 1: the words that follow the first one. n is a number, s a subtask, k `keep` or `delete`, t `latest` or a number, N any numbers, F any files.
SCRIPT_LINES = {
    "config": "nnnnnnk", "job": "nN", "start": "n", "tick": "n", "savepoint": "n", "ack": "nnsF", "decline": "nns", "dispose": "n", "restore": "ntN",
    "cancel": "n", "take": "n", "deleted": "n", "undeleted": "n", "show": "n", "count": "n", "all": "nnnn",
}  # fmt: skip
CALLS_OF_LOGS = {"trigger": "n", "configure": "nnnnnnnk"}
LINES_OF_NAMES = {"fence": "n", "reserve": "nn", "forfeit": "nN", "advance": "nnn"}


class Fault(Exception):
    """A line that cannot be read (S 5)."""


def read_number(word, greatest=NUMBERS):
    """S 3."""
    digits = word.lstrip(b"0")
    if not word or word.strip(b"0123456789") or len(digits) > 20 or int(digits or b"0") > greatest:
        raise Fault("Number")
    return int(digits or b"0")


def read_subtask(word):
    vertex, dot, index = word.partition(b".")
    if not dot:
        raise Fault("Number")
    return read_number(vertex, PARTS), read_number(index, PARTS)


def read_file(word):
    """A file with its sign."""
    if word[:1] not in (b"+", b"="):
        raise Fault("Word")
    return word[:1] == b"+", read_number(word[1:])


def read_choice(word, choices):
    if word not in choices:
        raise Fault("Word")
    return choices[word]


READ = {
    "n": read_number,
    "s": read_subtask,
    "k": lambda word: read_choice(word, {b"keep": True, b"delete": False}),
    "t": lambda word: None if word == b"latest" else read_number(word),
}


def read_words(words, form):
    """S 5, 3: the values of the words after the first, which are read from left to right."""
    values, words = [], list(words)
    for kind in form:
        if kind in "NF":
            rest, words = words, []
            values.append([(read_number if kind == "N" else read_file)(word) for word in rest])
        elif words:
            values.append(READ[kind](words.pop(0)))
        else:
            raise Fault("Missing")
    if words:
        raise Fault("Extra")
    return values


class Script:
    """A script, or a log: what it has opened, and the answers to its lines."""

    def __init__(self, logs=False):
        self.logs, self.number, self.faulty, self.stopped = logs, 0, False, False
        self.config = self.shape = self.coordinator = self.names = None
        self.forms = {**SCRIPT_LINES, **(CALLS_OF_LOGS | LINES_OF_NAMES if logs else {})}

    def line(self, text):
        """The lines that are printed for a line, which is given as bytes without its newline (S 5 and 6)."""
        self.number += 1
        if self.stopped:
            return []
        try:
            return self.answers(text)
        except Fault as fault:
            self.faulty = True
            # L 4: a log stops at its first fault
            self.stopped = self.logs
            return [f"line {self.number} fault {fault}"]
        except Refused as refused:
            return [str(refused)]

    def answers(self, text):
        if len(text) > LINE_BYTES:
            raise Fault("TooLong")
        # S 3: one carriage return at the end, words between spaces, comments
        words = [word for word in text.removesuffix(b"\r").split(b" ") if word]
        if not words or words[0].startswith(b"#"):
            return []
        if self.logs and words[0] == b"in":
            return self.of_a_term(words[1:])
        return self.call(0, *self.read(words, self.forms))

    def read(self, words, forms):
        """The first word, and the values of the others."""
        first = words[0].decode("latin-1")
        if first not in forms:
            raise Fault("Word")
        return first, read_words(words[1:], forms[first])

    def of_a_term(self, words):
        """L 1: `in t LINE`."""
        if not words:
            raise Fault("Missing")
        term, words = read_number(words[0]), words[1:]
        if not words:
            raise Fault("Missing")
        if words[0].startswith(b"#"):
            raise Refused("NoCall")
        word, values = self.read(words, SCRIPT_LINES | CALLS_OF_LOGS)
        if word in ("config", "job", "start", "all"):
            raise Refused("NoCall")
        return self.call(term, word, values)

    def call(self, term, word, values):
        if word in ("config", "job", "start"):
            return self.opening(word, values)
        # L 2
        if self.logs and word == "all":
            raise Refused("NoCall")
        if self.coordinator is None:
            raise Refused("NotStarted")
        if word == "all":
            return self.all(*values)
        if word in LINES_OF_NAMES:
            return self.on_names(word, values)
        values = self.fields(word, values)
        if term and self.names is None:
            raise Refused("NoNames")
        return self.on_coordinator(term, word, values)

    def opening(self, word, values):
        """S 6: the refusals of the lines that open the coordinator."""
        if self.coordinator is not None:
            raise Refused("Started")
        if word == "config":
            self.config = made_config(values)
        elif word == "job":
            self.shape = made_shape([values[0], *values[1]])
        elif self.config is None or self.shape is None:
            raise Refused("NotReady")
        else:
            self.coordinator = Coordinator(self.config, self.shape, *values)
        return []

    def fields(self, word, values):
        """What the words of a call mean for the coordinator."""
        if word == "ack":
            files = values[3]
            return [*values[:3], [file for fresh, file in files if fresh], [file for fresh, file in files if not fresh]]
        if word == "restore":
            return [*values[:2], made_shape(values[2]) if values[2] else None]
        if word == "configure":
            return [values[0], made_config(values[1:])]
        return values

    def on_coordinator(self, term, word, values):
        """A call on the coordinator, through the layer of names if there is one (N "Refusals of the layer")."""
        make = getattr(self.coordinator, word)
        if self.names is None:
            return [make(*values)]
        if word in ("ack", "decline"):
            self.names.expect_term(term)
        if word in ("restore", "cancel"):
            self.names.expect_next_term()
            return [make(*values), self.names.end_term()]
        if word != "ack":
            return [make(*values)]
        self.names.expect_reserved(values[3])
        answer = make(*values)
        self.names.reserved.difference_update(values[3])
        return [answer]

    def on_names(self, word, values):
        """N "Calls on names"."""
        if word == "fence":
            if self.names is not None:
                raise Refused("HasNames")
            self.names = Names(*values, self.coordinator.known())
            return ["term 1"]
        if self.names is None:
            raise Refused("NoNames")
        if word == "reserve":
            return [self.names.reserve(*values, self.coordinator.mode)]
        if word == "forfeit":
            return [self.names.forfeit(*values)]
        return self.advance(*values)

    def advance(self, now, term, first):
        """N "After a lost history"."""
        if not 1 <= first <= NAMES + 1:
            raise Fenced("BadName")
        self.names.expect_next_term()
        if term >= TERMS:
            raise Fenced("TermsUsedUp")
        return [self.coordinator.restore(now, None), self.names.end_term(term, first)]

    def all(self, now, number, threads, first):
        """S 8."""
        if not 1 <= threads <= THREADS:
            raise Refused("BadThreads")
        record = self.coordinator.records.get(number)
        if record is None or record.done:
            raise Refused("NotPending")
        subtasks = [it for it in record.subtasks() if it not in record.acks]
        if first + len(subtasks) - 1 > NUMBERS:
            raise Refused("FilesUsedUp")
        replies = []
        for at, subtask in enumerate(subtasks):
            try:
                replies.append(self.coordinator.ack(now, number, subtask, [first + at], []))
            except Refused:
                pass
        counts = f"all {len(replies)} {len(subtasks) - len(replies)}"
        return [f"{counts} {replies[-1].removeprefix('ack ')}" if replies else f"{counts} pending {record.missing}"]


def answers_of(lines, logs=False):
    """The answers of each line of a script, and whether one of its lines has a fault."""
    script = Script(logs)
    return [script.line(line) for line in lines], script.faulty
