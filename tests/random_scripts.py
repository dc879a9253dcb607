"""Writes random scripts and logs for tests/compare_models. Most of their words fit what the second model says of the job, such as a subtask that is
missing or a file that is in use. Some are wrong on purpose, so that each refusal and each fault comes up, and in lines with several wrong words
the order of the refusals too."""
from itertools import islice

from second_model import CANCELLED, FAILED, FILES, MOMENTS, NAMES, NAMES_AT_ONCE, SAVEPOINT, SAVEPOINTS, SETTINGS, TERMS
from second_script import LINE_BYTES, NUMBERS, Script

# How often each line is tried, beside the others. A script gives each of them another weight.
WEIGHTS = {
    "tick": 20, "savepoint": 4, "ack": 40, "decline": 4, "dispose": 2, "restore": 2, "cancel": 0.4, "take": 5, "deleted": 5, "undeleted": 2, "show": 6,
    "count": 8, "finish": 8, "opening_again": 0.5, "blank": 0.5,
}  # fmt: skip
WEIGHTS_OF_LOGS = {"trigger": 4, "configure": 3, "tolerate": 1, "fence": 3, "reserve": 10, "forfeit": 3, "advance": 1, "no_call": 0.5}
NONSENSE = ["x", "-1", "+5", "=5", "5", "1.2", "1.", ".1", "1.2.3", "1.65536", "18446744073709551616", "0" * 30 + "7", "7\t", "\0", "\u0663", "latest", "keep", "in", "tick", "1e3", "#"]

# A word of each kind that a line has.
RIGHT = {"n": 1, "s": "0.0", "k": "keep", "t": "latest"}


class Writer:
    """A script that grows by a line at a time: its lines, and the model's answers to them."""

    def __init__(self, random, logs):
        self.random, self.logs = random, logs
        self.script, self.lines, self.answers = Script(logs), [], []
        self.file, self.given_up, self.wild, self.left = 0, [], 0, 0
        # Some scripts have the greatest numbers of files too.
        self.files_to_choose = (1, 1, 1, -1) if random.random() < 0.3 else (1,)
        weights = {**WEIGHTS, **(WEIGHTS_OF_LOGS if logs else {"all": 5})}
        self.weights = {word: weight * random.choice((0.2, 1, 1, 1, 5)) for word, weight in weights.items()}

    @property
    def job(self):
        return self.script.coordinator

    def say(self, *words):
        self.say_bytes(" ".join(map(str, words)).encode())

    def say_bytes(self, line):
        self.lines.append(line)
        self.answers.append(self.script.line(line))

    def happens(self, chance):
        return self.random.random() < chance

    def pick(self, right, wrong):
        """One of what fits, or now and then one of what does not, if there is any."""
        right, wrong = list(right), list(wrong)
        return self.random.choice(wrong if wrong and (not right or self.happens(self.wild)) else right or wrong)

    def some(self, files, most):
        """A few of the files, or none."""
        files = list(files)
        return self.random.sample(files, min(len(files), self.random.randrange(most + 1)))

    # Words.

    def settings(self):
        random, job = self.random, self.job
        values = [
            random.choice((10, 100, 1000, 5000)), random.choice((0, 0, 0, 1, 700, 3000)), random.choice((1, 1, 2, 3, 64)),
            random.choice((1, 500, 5000, 60_000, 2**40)), random.choice((0, 0, 1, 2, 1000)), random.choice((1, 1, 2, 3, 1000)),
        ]  # fmt: skip
        if job and self.happens(0.7):
            # the present ones but for one
            kept, at = [*vars(job.config).values()][:6], random.choice((0, 1, 2, 3, 4, 4, 4, 5))
            values = [*kept[:at], values[at], *kept[at + 1 :]]
        if self.happens(self.wild + 0.05):
            at = random.randrange(6)
            least, greatest = SETTINGS[at]
            values[at] = random.choice((least, greatest, max(least - 1, 0), greatest + 1, NUMBERS) if self.wild else (least, greatest))
        return [*values, random.choice(("keep", "delete"))]

    def shape(self):
        small = [self.random.randint(1, 3) for _ in range(self.random.choice((1, 1, 2, 3)))]
        return self.pick([small], [[0], [1, 0, 2], [4097], [4000, 97], [1] * 257, [NUMBERS, 1]])

    def moment(self):
        job, random = self.job, self.random
        if job is None:
            return self.pick((0, 5, 1000), (MOMENTS + 1, NUMBERS))
        pending = [it.started + job.config.timeout for it in job.pending()]
        marks = [job.seen, job.due, job.due, job.seen - random.randint(1, 100), job.seen - random.randint(1, 3000), *(job.seen + random.randint(0, 100) for _ in range(6))]
        marks += [job.last + job.config.pause] * 2 if job.last is not None else []
        marks += pending if self.happens(0.1) else []
        mark = random.choice(marks) - random.choice((0, 0, 0, 1))
        return self.pick([min(max(mark, 0), MOMENTS)], (MOMENTS + 1, NUMBERS) if self.left > 12 else (MOMENTS, MOMENTS + 1))

    def record(self):
        job = self.job
        if job is None:
            return 1
        right = [it.number for it in job.pending()] * 3 + list(job.records) + [max(job.next - it, 1) for it in (1, 2, 3)]
        return self.pick(right, (0, job.next, job.next + 3, MOMENTS, NUMBERS))

    def subtask(self, number):
        record = self.job and self.job.records.get(number)
        if not record:
            return f"{self.random.randrange(3)}.{self.random.randrange(3)}"
        missing = [it for it in islice(record.subtasks(), 50) if it not in record.acks]
        wrong = [*islice(record.acks, 2), (len(record.shape), 0), (0, record.shape[0]), (65535, 65535)]
        return "{}.{}".format(*self.pick(missing, wrong))

    def new_file(self):
        self.file += self.random.randint(1, 3)
        return self.random.choice(self.files_to_choose) * self.file % (NUMBERS + 1)

    def fresh(self):
        job, names = self.job, self.script.names
        if names is None:
            right = [self.new_file() for _ in range(self.random.randrange(3))]
            return right + (self.some(job.known(), 3) if job and self.happens(self.wild) else [])
        right = self.some(islice(names.reserved, 20), 3)
        wrong = [names.next, names.next + 5, max(names.next - self.random.randint(1, 9), 0), *self.given_up, *self.some(job.known(), 1)]
        return right + (self.some(wrong, 2) if self.happens(self.wild) else [])

    def reused(self):
        job = self.job
        if job is None:
            return []
        choice = job.choice()
        pools = [set(choice.named()) if choice else (), *(it.pins for it in job.pending()), job.used()]
        right = self.some(self.random.choice(pools), 4)
        if self.happens(self.wild):
            right += self.some([*job.waiting[-3:], *job.taken[-3:], self.new_file()], 2)
        return right

    def files(self):
        files = [f"+{it}" for it in self.fresh()] + [f"={it}" for it in self.reused()]
        self.random.shuffle(files)
        if files and self.happens(self.wild / 3):
            files.append(self.random.choice("+=") + self.random.choice(files)[1:])
        if self.happens(self.wild / 60):
            first, count = self.file + 10**6, self.random.choice((4096, 4097)) if self.left < 12 else 4097
            files = [f"{self.random.choice('+=')}{first}", *(f"+{first + at}" for at in range(1, count))]
        return files

    def savepoints(self, done=True):
        return [it.number for it in self.job.records.values() if it.kind == SAVEPOINT and it.done == done] if self.job else []

    def term(self, of_task=True):
        """What stands before a call of a term: nothing, or `in` and the term."""
        names = self.script.names
        if not self.logs:
            return []
        if names is None or not of_task:
            return ["in", self.random.choice((0, 1, 2, TERMS, NUMBERS))] if self.happens(0.02 + self.wild / 4) else []
        return self.pick([["in", names.term]], [[], ["in", 0], ["in", names.term - 1], ["in", names.term + 1], ["in", NUMBERS]])

    # Lines: each returns its words.

    def words(self, line):
        """Those of a line with this first word, or for this end."""
        if line in ("tick", "trigger", "savepoint", "cancel"):
            return [*self.term(False), line, self.moment()]
        return self.reported(line) if line in ("deleted", "undeleted") else getattr(self, line)()

    def ack(self):
        number = self.record()
        return [*self.term(), "ack", self.moment(), number, self.subtask(number), *self.files()]

    def finish(self):
        """Acknowledges what is missing of a pending record, but for the last subtask, which it returns."""
        pending = [it for it in self.job.pending() if it.missing <= 20] if self.job else []
        if not pending:
            return self.words("tick")
        number, missing = pending[-1].number, pending[-1].missing
        for _ in range(missing - 1):
            self.say(*self.term(), "ack", self.moment(), number, self.subtask(number), *self.files())
        return [*self.term(), "ack", self.moment(), number, self.subtask(number), *self.files()]

    def decline(self):
        number = self.record()
        return [*self.term(), "decline", self.moment(), number, self.subtask(number)]

    def dispose(self):
        wrong = [*self.savepoints(False), self.record(), 0]
        right = self.savepoints() + ([self.job.base] * 2 if self.job and self.job.base else [])
        return [*self.term(False), "dispose", self.pick(right, wrong)]

    def restore(self):
        target = self.pick(["latest", "latest", *self.savepoints()[-3:]], [*self.savepoints(False), self.record(), 0])
        shape = self.shape() if self.happens(0.3) else []
        if shape and self.left < 12 and self.happens(0.2):
            shape = self.random.choice(([4096], [1] * 256, [4000, 96]))
        return [*self.term(False), "restore", self.moment(), target, *shape]

    def configure(self):
        return [*self.term(False), "configure", self.moment(), *self.settings()]

    def tolerate(self):
        """No failure is tolerated for a moment, and then as many as there are: the configuration before and after it is the same otherwise."""
        if not self.job:
            return self.configure()
        values = [*vars(self.job.config).values()]
        lines = [["configure", self.job.seen, *values[:4], tolerable, values[5], "keep"] for tolerable in (0, min(max(self.job.failures, 1), 1000))]
        self.say(*lines[0])
        return lines[1]

    def take(self):
        return [*self.term(False), "take", self.random.choice((0, 1, 1, 2, 3, 10, NUMBERS))]

    def reported(self, word):
        job = self.job
        wrong = [self.new_file(), *(job.waiting[:1] + job.waiting[-2:] + self.some(job.used(), 1) if job else [])]
        return [*self.term(False), word, self.pick(job.taken if job else [], wrong)]

    def show(self):
        return [*self.term(False), "show", self.record()]

    def count(self):
        return [*self.term(False), "count", self.pick(self.job.known() if self.job else [], [self.new_file(), 0])]

    def all(self):
        small = [it.number for it in self.job.pending() if it.missing <= 30] if self.job else []
        known = self.some(self.job.known(), 2) if self.job else []
        first = self.pick([self.new_file(), NUMBERS - 40 - self.new_file()], [NUMBERS, NUMBERS - 1, *known])
        threads = self.pick((1, 2, 7, 64), (0, 65, NUMBERS))
        # (the greatest records would take the model long)
        others = [it for it in (0, self.record()) if it not in (self.job.records if self.job else ())]
        return ["all", self.moment(), self.pick(small, others), threads, first]

    def fence(self):
        names = self.script.names
        if names is not None and self.happens(0.9):
            return self.reserve()
        above = min(max(self.job.known(), default=0) + 1, NAMES) if self.job else 1
        high = NAMES + 1 - self.random.choice((0, 1, 5, 100_000))
        return ["fence", self.pick([above + self.random.randint(0, 5), high], [0, NAMES + 1, NAMES + 2, *[max(above - 1, 0)] * 3])]

    def reserve(self):
        names = self.script.names
        term = self.pick([names.term] if names else [1], [0, 2, NUMBERS])
        return ["reserve", term, self.pick((1, 2, 5), (0, NAMES_AT_ONCE, NAMES_AT_ONCE + 1, NUMBERS))]

    def forfeit(self):
        names = self.script.names
        term = self.pick([names.term] if names else [1], [0, 2, NUMBERS])
        self.given_up = self.some(islice(names.reserved, 20), 2) if names else []
        return ["forfeit", term, *self.given_up, *self.some((0, 1, names.next if names else 5, NUMBERS), 1)]

    def advance(self):
        names = self.script.names
        terms, firsts = ([names.term, names.term - 1, names.term + 3], [names.next, 1, names.next + 4]) if names else ([1], [1])
        if self.left < 12:
            terms, firsts = [*terms, *[TERMS - 1] * 3], [*firsts, NAMES, NAMES + 1]
        return ["advance", self.moment(), self.pick(terms, (0, TERMS)), self.pick(firsts, (0, NAMES + 2))]

    def no_call(self):
        line = self.random.choice((["config", *self.settings()], ["job", 1], ["start", 5], ["all", 1, 1, 1, 1], ["#", "in"]))
        return ["in", self.random.choice((0, 1, NUMBERS)), *line] if self.happens(0.7) else ["all", 1, 1, self.random.randrange(3), 1]

    def opening_again(self):
        return self.random.choice((["config", *self.settings()], ["job", *self.shape()], ["start", self.moment()]))

    def blank(self):
        return self.random.choice(([], ["#"], ["", "#tick", 5], ["# \0 \u0663"]))

    # Whole scripts.

    def mutated(self, words):
        """A line of these words that has perhaps a fault."""
        words = [str(it) for it in words] or ["tick"]
        at = self.random.randrange(len(words))
        kind = self.random.randrange(8)
        if kind == 0:
            del words[at:]
        elif kind == 1:
            words.insert(at + 1, self.random.choice(NONSENSE))
        elif kind in (2, 3, 4):
            words[at] = self.random.choice(NONSENSE)
        elif kind == 5:
            words[at] = words[at].upper() + self.random.choice(("", "\r", "\t"))
        elif kind == 6:
            words.append("5")
        elif self.happens(0.4):
            return b" " * (LINE_BYTES - 5 + self.random.choice((0, 1))) + b"count"
        return " ".join(words).encode()

    def dressed(self, words):
        """The same line in another dress: leading zeros, more spaces, a carriage return."""
        words = ["0" * self.random.randrange(3) + str(it) if isinstance(it, int) else str(it) for it in words]
        return (" " * self.random.randrange(2) + "  ".join(words) + self.random.choice(("", " ", "\r", " \r"))).encode()

    def begin(self):
        """What comes before the coordinator is open, and its opening."""
        for _ in range(self.random.choice((0, 0, 0, 4, 20))):
            self.wild = 0.3
            self.say(*self.words(self.random.choice(["opening_again"] * len(self.weights) + list(self.weights))))
        self.wild = 0
        for edge in self.some(([1] * 256, [4096], [1, 4095]), 1):
            self.say("job", *edge)
        for words in self.random.sample((["config", *self.settings()], ["job", *self.shape()]), 2):
            self.say(*words)
        self.say("start", self.random.choice([0, 1, 7, 1_000_000] * 9 + [MOMENTS]))

    def line(self):
        return self.words(*self.random.choices(list(self.weights), self.weights.values()))

    def next_line(self):
        """A line of those that fit the mode, or any."""
        mode, names = self.job and self.job.mode, self.script.names
        if names and self.left < 12 and self.happens(0.3):
            return self.words(self.random.choice(("advance", "restore", "cancel") if names.term == TERMS else ("advance", "reserve")))
        if self.left == 20 and self.happens(0.5):
            return self.words("cancel")
        if mode == FAILED and self.happens(0.2):
            return self.restore()
        if mode == CANCELLED and self.happens(0.3):
            return self.words(self.random.choice(("dispose", "cancel", "restore", "tick")))
        return self.line()

    def write(self, count):
        self.begin()
        self.left = count
        while self.left > 0:
            self.left -= 1
            self.wild = self.random.choice((0.02, 0.02, 0.02, 0.4))
            words = self.next_line()
            if not self.logs and self.happens(0.05):
                self.say_bytes(self.mutated(self.words(self.random.choice(list(self.weights)))))
            elif self.happens(0.03):
                self.say_bytes(self.dressed(words))
            else:
                self.say(*words)
            if self.job and self.job.mode == CANCELLED:
                self.left = min(self.left, 20)
        if self.logs:
            self.say_bytes(self.mutated(self.line()))
        return self

    def write_limits(self):
        """What chance brings too seldom: each kind of line before there is a coordinator, each fault of a script, and each limit."""
        for word, form in self.script.forms.items():
            right = [RIGHT[kind] for kind in form if kind in RIGHT]
            wrong = [] if self.logs else [right[:-1], ["x"], [*right[:-1], "x"], [*right, "x"]]
            for words in wrong + ([right] if word not in ("config", "job", "start") else []):
                self.say(word, *words)
        settings = [1000, 0, 1, 1000, 0, 1]
        for at, (least, greatest) in enumerate(SETTINGS):
            for value in (*range(max(least - 1, 0), least + 1), greatest, greatest + 1):
                self.say("config", *settings[:at], value, *settings[at + 1 :], "delete")
        for shape in ([1] * 256, [1] * 257, [4096], [4097], [4095, 1], [1, 4096], [1, 0], [0, 1], [1]):
            self.say("job", *shape)
        self.say("config", *settings, "keep")
        self.say("start", 0)
        self.write_most()
        return self

    def write_most(self):
        """As many savepoints as there may be, pending and done, as many files as an acknowledgement may have, and one more of each; the last term."""
        for _ in range(SAVEPOINTS + 1):
            self.say("savepoint", 5)
        for words in (["ack", 6, 7, "0.0", "+1"], ["savepoint", 7], ["dispose", 7], ["savepoint", 8], ["savepoint", 8], ["restore", 9, "latest"], ["savepoint", 9]):
            self.say(*words)
        files = [f"+{10 + at}" for at in range(FILES)]
        for given in (["=9", *files], [*files[1:], "=10"], [*files, "+9"], files, files):
            self.say("ack", 10, SAVEPOINTS + 2, "0.0", *given)
        self.say("show", SAVEPOINTS + 2)
        if self.logs:
            for words in (["fence", 4105], ["fence", 4106], ["advance", 10, TERMS - 1, NAMES], ["restore", 11, "latest"], ["cancel", 11], ["advance", 11, 1, 1]):
                self.say(*words)
            for count in (0, 3, 2, 1):
                self.say("reserve", TERMS, count)
