"""Writers that drive jobs as engines do, badly at times, and keep their answers."""
import itertools
import random
import threading
import time

import harness
from relkvanu_service import Failed, Gone, OldTerm, Service, ack, decline, deleted, dispose, restore, savepoint, take, undeleted

SETTINGS = {"interval": 40, "at_once": 2, "timeout": 1500, "tolerable": 2, "retained": 2}
SHAPE = [2, 3]
PATIENCE = harness.BUSY * 60  # seconds, in which a service or its database is there again


class Writer(threading.Thread):
    """Calls one job until it is stopped. `made` has each acknowledged call, with its answer. It is also who starts tasks: where its term has ended,
    by a restore of another writer, it begins the next one."""

    TOKEN = None
    PAUSE = 0.05  # seconds between two turns: eight of them so leave a processor for others, and make some hundred calls a second

    def __init__(self, urls, job, number):
        super().__init__(daemon=True)
        self.service = Service(*urls, token=self.TOKEN, patience=PATIENCE)
        self.job = self.service.job(job)
        self.name_of_job = job
        self.random = random.Random(number)
        self.session, self.turns = None, 7 * number
        self.made, self.fenced, self.errors = [], 0, []
        self.no_memory, self.not_made = 0, 0
        self.over = threading.Event()

    def run(self):
        while not self.over.wait(self.PAUSE):
            try:
                self.turn()
            except Failed as failed:
                # a record may have ended since it was seen; memory may have run out while it was read
                if failed.status not in (404, 507):
                    self.errors.append(str(failed))
                    return
            except Exception as failed:
                self.errors.append(repr(failed))
                raise

    def files(self, count):
        while True:
            try:
                if self.session is None:
                    self.session = self.job.session(self.job.term()["term"], block=7)
                return [self.session.name() for _ in range(count)]
            except OldTerm:
                self.session = None

    def turn(self):
        self.turns += 1
        state = self.job.state()
        if state["mode"] == "failed" or self.turns % 20 == 0:
            return self.send([restore()])
        pending = [record for record in state["live"] if not record["done"]]
        if pending and self.random.random() < 0.9:
            return self.acknowledge(state, self.random.choice(pending)["id"])
        return self.send(self.other(state))

    def acknowledge(self, state, record):
        """Most of the missing subtasks acknowledge, with new files and some of the last checkpoint's."""
        told = self.job.record(record)
        last = state["choice"].get("id")
        held = {}
        if last and (live := self.job.record(last)["live"]):
            held = {entry["subtask"]: entry["files"] for entry in live["acks"]}
        missing = told["missing"] or ["0.0"]
        chosen = missing if self.random.random() < 0.7 else self.random.sample(missing, self.random.randint(1, len(missing)))
        calls = [ack(record, subtask, self.files(2), held.get(subtask, [])[:2]) for subtask in chosen]
        if self.random.random() < 0.05:
            calls.append(decline(record, chosen[0]))
        self.send(calls)

    def other(self, state):
        done = [record["id"] for record in state["live"] if record["kind"] == "savepoint" and record["done"]]
        kind = self.random.random()
        if kind < 0.15:
            return [savepoint()]
        if kind < 0.25 and done:
            return [dispose(done[0])]
        if kind < 0.30:
            return [restore(shape=[state["shape"][0], self.random.randint(1, 8)])]
        if kind < 0.35:
            return [ack(1, "0.0", self.files(1))]  # late
        time.sleep(0.002)
        return [take(self.random.randint(1, 32))]

    def send(self, calls):
        if self.session is None:
            self.files(1)
        term = self.session.term
        calls = [{**call, "term": term} if call["call"] in ("ack", "decline") else call for call in calls]
        answers = self.job.calls(calls)
        for call, answer in zip(calls, answers):
            if "seq" in answer:
                self.made.append((call, answer))
            self.fenced += "fenced" in answer
            self.no_memory += "no_memory" in answer
            self.not_made += "not_made" in answer
        files = [file for answer in answers for file in answer.get("files", [])]
        if files:
            self.send([deleted(file) if self.random.random() < 0.8 else undeleted(file) for file in files])


def end(writers):
    """Ends these writers, each after the call that it makes."""
    for writer in writers:
        writer.over.set()
    for writer in writers:
        writer.join(PATIENCE + 60)
        assert not writer.is_alive(), "a writer hangs"


def made_by(writers):
    """How many calls of these writers were acknowledged."""
    return sum(len(writer.made) for writer in writers)


def same_call(call, line):
    """Whether a line of the log is this call."""
    words = line.split(" ")
    if words[0] == "in":
        if int(words[1]) != call["term"]:
            return False
        words = words[2:]
    if call["call"] != words[0]:
        return False
    if words[0] == "ack":
        fresh, reused = ({word[1:] for word in words[4:] if word[0] == sign} for sign in "+=")
        return [str(call["id"]), call["subtask"]] == words[2:4] and set(call["fresh"]) == fresh and set(call["reused"]) == reused
    if words[0] in ("deleted", "undeleted"):
        return words[1] == call["file"]
    return True


def check_made(made, log, seen):
    """Each acknowledged call, given with its answer, is in the log at the place that its answer named, with that answer, and at a place that is
    not seen yet."""
    for call, answer in made:
        seq = answer["seq"]
        assert seq not in seen, f"place {seq} was given twice"
        seen.add(seq)
        entry = log[seq - 1]
        assert same_call(call, entry["line"]), f"{seq}: {call} is {entry['line']}"
        assert harness.answer_text(answer) == entry["answer"], f"{seq}: {answer} is {entry['answer']}"


def check_kept(whole, log, first):
    """The log has all calls from the first to its last. The whole one was read later, so the timer may have made more since. Returns the
    whole one up to that last call."""
    assert log[0]["seq"] == first, (log[0], first)
    last = log[-1]["seq"]
    rest = [{name: entry[name] for name in ("seq", "at", "line", "answer")} for entry in log]
    differ = [pair for pair in itertools.zip_longest(whole[first - 1 : last], rest) if pair[0] != pair[1]]
    assert not differ, (len(whole), len(rest), first, last, differ[:3])
    return whole[:last]


def whole_log(job):
    """What the log has. It may be cut while it is read: on a busy machine it is long until an image is made."""
    while True:
        try:
            return list(job.log(terms=True))
        except Gone:
            time.sleep(0.1)


def check(writers, service, job, shape, archive=None):
    """The writers' acknowledged calls are in the log, with what was cut from it, and the oracle answers it alike. Returns how many were
    acknowledged, how many the log has, and how many answers the oracle gave."""
    state = service.job(job).state()
    before = state["first"]
    log = whole_log(service.job(job))
    if archive:
        # meanwhile an image may have been made, and the log cut behind it
        assert before <= log[0]["seq"] <= service.job(job).state()["first"], (before, log[0])
        log = check_kept(archive.log(job), log, log[0]["seq"])
    seen = set()
    for writer in (writer for writer in writers if writer.name_of_job == job):
        assert not writer.errors, writer.errors[:3]
        check_made(writer.made, log, seen)
    now = service.job(job).term()
    assert now["term"] > 1 and now["next_name"] > 1, f"the writers did next to nothing: {now}, {len(log)} calls"
    return len(seen), len(log), harness.check_log(service.job(job).state(), shape, log)
