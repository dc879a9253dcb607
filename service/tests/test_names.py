"""Terms and names: zombies after a restore, names that are given out once, what is garbage, and the jobs of a recovery."""
import contextlib
import os
import random
import re
import signal
import subprocess
import threading
import time

import kills
from harness import (
    BUSY, COMMAND, PROGRAM, SETTINGS, WHOLE, Archive, at_once, beside, caught_up, check_log, counts, entry_of, folder, leader_and_standby, lease_of, raised, save,
    served, served_job, until
)
from postgres import postgres
from relkvanu.service_moves import MAKING
from relkvanu_service import Failed, Fenced, OldTerm, Refused, Service, ack, cancel, decline, deleted, dispose, reserve, restore, savepoint
from test_metrics import scraped
from test_events import Stream

JOB = {"name": "orders", "settings": SETTINGS, "shape": [1]}


def test_each_job_gives_out_names():
    """From its first call on. One that a recovery makes has none before it has its records."""
    with served() as server:
        for names in (False, True):
            status, _, told = server.request("POST", "/v1/jobs", {**JOB, "names": names})
            assert (status, told["field"]) == (400, "names") and "every job gives out the names" in told["error"], told
        job = Service(server.url).open("orders", SETTINGS, [1])
        assert (job.state()["next_name"], job.state()["seq"], [(it["line"], it["answer"]) for it in job.log()]) == ("1", 1, [("fence 1", "term 1")])
        made = Service(server.url).open("made", MAKING, [1])
        assert (made.state()["next_name"], made.state()["seq"]) == (None, 0)
        assert made.call(savepoint())["id"] == 1 and made.call(ack(1, "0.0", [7]))["ack"] == "completed" and "term" not in made.call(restore())
        asks = (lambda: made.call(reserve(1, 5)), lambda: made.call(ack(1, "0.0", [8], term=1)), made.term, lambda: made.garbage([7]), made.session(1).name)
        assert [raised(Fenced, ask).name for ask in asks] == ["NoNames"] * len(asks)


def test_a_zombie_after_a_restore():
    with served() as server:
        job = Service(server.url).open("orders", SETTINGS, [1])
        old = job.begin().session(block=10)
        names = [old.name() for _ in range(3)]
        assert job.call(savepoint())["id"] == 1 and old.ack(1, "0.0", names[:1])["ack"] == "completed"
        job.call(savepoint())
        start = job.begin(1)
        before = job.state()
        assert start.term == old.term + 1 and start.files == {"0.0": names[:1]}
        zombie = job.session(old.term)
        late = [
            lambda it: it.ack(2, "0.0", names[1:2]), lambda it: it.ack(2, "0.0"), lambda it: it.ack(1, "0.0", [], names[:1]), lambda it: it.decline(2, "0.0"),
            lambda it: it.forfeit(names), lambda it: it.name(),
        ]
        for call in late:
            assert raised(OldTerm, lambda: call(job.session(old.term))).name == "OldTerm"
            assert raised(OldTerm, lambda: call(zombie))
        # one without a term is refused too, and one of a term that has not begun
        for answer in job.calls([ack(2, "0.0", names[1:2]), decline(2, "0.0"), ack(2, "0.0", term=start.term + 1)]):
            assert answer == {"fenced": "OldTerm"}, answer
        assert job.state()["seq"] == before["seq"] and job.state()["files"] == before["files"]
        # in one request the term of all calls, and one of its own
        path, calls = "/v1/jobs/orders/calls", [reserve(old.term, 1), {"call": "reserve", "count": 2}, {"call": "decline", "id": 1, "subtask": "0.0"}]
        answers = server.request("POST", path, {"term": start.term, "calls": calls})[2]["answers"]
        assert [answer.get("fenced", answer.get("reserve", answer.get("decline"))) for answer in answers] == ["OldTerm", "reserved", "late"], answers
        new = start.session()
        name = new.name()
        assert job.call(savepoint())["id"] == 3 and new.ack(3, "0.0", [name], names[:1])["ack"] == "completed"
        spent = raised(Fenced, lambda: new.ack(3, "0.0", [name]))
        assert (spent.name, spent.file) == ("Spent", name)
        never = raised(Fenced, lambda: new.ack(3, "0.0", [10**6]))
        assert (never.name, never.file) == ("NeverReserved", 10**6)
        # one that was suspended beside a service that was killed
        server.again()
        assert raised(OldTerm, lambda: job.session(old.term).ack(3, "0.0"))
        told = job.call(cancel())
        assert told["term"] == start.term + 1 and raised(OldTerm, lambda: new.ack(3, "0.0"))
        assert raised(Fenced, lambda: job.session(told["term"]).name()).name == "Ended" and raised(Refused, job.begin).name == "NotRunning"
        log = list(job.log(terms=True))
        check_log(job.state(), [1], log)
        assert server.stop() == 0


TERM = re.compile(r"\bin [0-9]+ |\b(reserve|forfeit) [0-9]+( |$)")


def terms_in(told):
    """What of an answer has a term: a member of that name, or a line."""
    if isinstance(told, dict):
        return [name for name in told if name in ("term", "terms")] + [it for value in told.values() for it in terms_in(value)]
    if isinstance(told, list):
        return [it for value in told for it in terms_in(value)]
    return [told] if isinstance(told, str) and TERM.search(told) else []


def test_no_event_no_list_and_no_stream_has_the_term():
    with served() as server:
        service = Service(server.url)
        job = service.open("orders", SETTINGS, [1])
        for base in ("latest", 1, 2):
            task = job.begin(base).session(block=4)
            task.ack(job.call(savepoint())["id"], "0.0", [task.name()])
            task.forfeit([task.name()])
        job.call(dispose(1))
        file = job.take(1)[0]
        job.call(deleted(file))
        caught_up(job)
        paths = [
            "/v1/jobs", "/v1/jobs/orders", "/v1/view", "/v1/view/orders", *(f"/v1/jobs/orders/{rest}" for rest in (
                "records", "records/3", "records/3/acks", "files", f"files/{file}", "log?limit=1000", "events", "samples")),
        ]
        for path in paths:
            status, _, told = server.get(path)
            assert status == 200 and not terms_in(told), (path, terms_in(told))
        events = server.get("/v1/jobs/orders/events")[2]["events"]
        triggered = [event for event in events if event["event"] == "triggered"]
        bases = [{"kind": "fresh"}, {"kind": "savepoint", "id": 1}, {"kind": "savepoint", "id": 2}]
        assert [event["base"] for event in triggered] == bases, triggered
        stream = Stream(server, "/v1/jobs/orders/stream?after=0")
        until(lambda: len(stream.told) >= len(events))
        assert not terms_in([data for _, data in stream.told]), stream.told
        # the lines of the log have them for a write token alone
        whole = list(job.log(terms=True))
        assert [entry["line"].split(" ")[0] for entry in whole if terms_in(entry["line"])].count("in") == 3, whole
        assert [entry["line"] for entry in job.log()] == [re.sub(r"^(in|reserve|forfeit) \d+", r"\1 *", entry["line"]) for entry in whole]
        assert job.term() == {"term": 4, "next_name": int(job.state()["next_name"])} == {"term": 4, "next_name": 13}


def test_tokens_for_terms():
    read, write, other = "r" * 20, "w" * 20, "o" * 20
    with served(tokens=[f"read {read}", f"write {write}", f"write {other} jobs=other"]) as server:
        assert server.request("POST", "/v1/jobs", JOB, token=write)[0] == 201
        job = "/v1/jobs/orders"
        asked = [("GET", f"{job}/term", None), ("POST", f"{job}/garbage", {"files": ["1"]}), ("POST", f"{job}/fence", {"first_name": 9})]
        for method, path, body in asked:
            assert [server.request(method, path, body, token)[0] for token in (None, read, other)] == [401, 401, 403], path
        assert [server.request("GET", f"{job}/log?terms=1", token=token)[0] for token in (read, write)] == [403, 200]
        assert server.get(f"{job}/log", read)[0] == 200 and server.get(f"{job}/log?terms=2", write)[0] == 400
        assert server.get(f"{job}/term", write)[2]["term"] == 1
        bad = [("garbage", {}, "files"), ("garbage", {"files": [7]}, "files[0]"), ("garbage", {"files": ["1"] * 10_001}, "files"),
               ("fence", {"first_name": 0}, "first_name"), ("garbage", {"files": [], "job": 1}, "job")]
        for word, body, field in bad:
            status, _, told = server.request("POST", f"{job}/{word}", body, token=write)
            assert (status, told.get("field")) == (400, field), (word, body, told)
        assert server.request("POST", "/v1/jobs/none/garbage", {"files": []}, token=write)[0] == 404 and server.get("/v1/jobs/none/term", write)[0] == 404
        told = server.request("POST", f"{job}/fence", {"first_name": "9"}, write, [("Accept", "application/problem+json")])
        assert told[0] == 409 and told[2]["type"] == "urn:relkvanu:problem:fenced" and told[2]["fenced"] == "HasNames", told


def uses(log):
    """When each file was in use, by the log: from the place of the acknowledgement that named it to that at which its record ended."""
    live, found = {}, []
    for entry in log:
        words = entry["line"].split(" ")
        if words[0] == "in":
            words = words[2:]
        if words[0] == "ack" and not entry["answer"].startswith("ack late"):
            live.setdefault(int(words[2]), []).extend((int(word[1:]), entry["seq"]) for word in words[4:])
        for record in entry["ended"]:
            found += [(file, since, entry["seq"]) for file, since in live.pop(record, [])]
    return found + [(file, since, float("inf")) for held in live.values() for file, since in held]


class Churn:
    """A job whose tasks write files, fail, are replaced, and go on in terms that have ended; its discarder; and what was told to be garbage."""

    def __init__(self, server):
        self.at, self.over, self.errors, self.told = f"{server.folder}/files", threading.Event(), [], []
        os.mkdir(self.at)
        self.job = Service(server.url).open("orders", {"interval": 30, "retained": 2, "timeout": 1000, "tolerable": 5}, [2])
        self.job.claim(self.at)
        self.current = self.job.begin()

    def task(self, number):
        chance = random.Random(number)
        start, session, kept, done = None, None, [], set()
        while not self.over.is_set():
            # one in four goes on in its ended term for a while, as one that was suspended
            if start is not self.current and (session is None or chance.random() < 0.25):
                start, kept, done = self.current, [], set()
                session = self.job.session(start.term, block=chance.randint(1, 9))
            try:
                for record in [it["id"] for it in self.job.state()["live"] if not it["done"] and it["id"] not in done]:
                    kept = self.take_part(session, chance, record, f"0.{number}", kept)
                    done.add(record)
            except OldTerm:
                start, session = None, None
            except (Refused, Fenced):
                kept = []
            except Failed as failed:
                self.errors.append(failed)
                return
            time.sleep(0.003)

    def take_part(self, session, chance, record, subtask, kept):
        """Returns the new files."""
        fresh = [session.name() for _ in range(2)]
        for name in fresh:
            save(f"{self.at}/s-{name}", "state")
        if chance.random() < 0.2:
            session.forfeit(fresh[:1])
            fresh = fresh[1:]
        session.ack(record, subtask, fresh, kept[-1:])
        return fresh

    def sweeper(self):
        while not self.over.is_set():
            next_name = int(self.job.state()["next_name"])
            garbage, unissued = self.job.garbage(range(0, next_name + 3))
            after = self.job.state()["seq"]
            if unissued and min(unissued) < next_name or 0 not in garbage:
                self.errors.append((garbage, unissued, next_name))
            self.told.append((after, garbage))
            time.sleep(0.01)

    def discard(self):
        for file in self.job.take(20):
            with contextlib.suppress(FileNotFoundError):
                os.remove(f"{self.at}/s-{file}")
            self.job.call(deleted(file))

    def discarder(self):
        while not self.over.is_set():
            self.discard()
            time.sleep(0.02)

    def in_use(self):
        """A record that is pending may have ended since it was seen."""
        return {f"s-{file}" for record in self.job.state()["live"] for files in (self.job._held(record["id"]) or {}).values() for file in files}


def churned(server, churn, sweep):
    """Lets all of them go on, while the job begins again and the service is killed, until a checkpoint is complete."""
    sweepers = [subprocess.Popen([*sweep, "--every", "1s"], stdout=subprocess.DEVNULL, stderr=subprocess.DEVNULL) for _ in range(2)]
    threads = [*(beside(churn.task, number) for number in range(2)), *(beside(it) for it in (churn.sweeper, churn.sweeper, churn.discarder))]
    for turn in range(4 * BUSY):
        if turn > 3 and churn.job.state()["choice"]["kind"] == "checkpoint":
            break
        time.sleep(1)
        churn.current = churn.job.begin()
        server.again()
    churn.over.set()
    for it in threads:
        it.join(COMMAND)
    for it in sweepers:
        it.kill()
        it.wait()


def test_garbage_is_never_in_use():
    """Tasks, restores, a discarder, kills and sweepers, all at once. What was told to be garbage was in use at no later place of the log, and at the end the
    folder has exactly the files in use."""
    with served(kills.KEEPING) as server:
        churn = Churn(server)
        job, keeps = churn.job, Archive(server.database)
        sweep = [PROGRAM, "clean", "--only", "garbage", "--job", "orders", "--folder", churn.at, "--prefix", "s-", "--url", server.url]
        churned(server, churn, sweep)
        assert not churn.errors, churn.errors[:3]
        rows = keeps.rows(f"select ended, seq, at, line, what, a, b, files from {WHOLE} it order by seq")
        log = [{**entry_of(*row), "ended": [int(it) for it in (ended or "").split()]} for ended, *row in rows]
        last = {}
        for file, _, end in uses(log):
            last[file] = max(last.get(file, 0), end)
        wrong = [(after, file) for after, garbage in churn.told for file in garbage if last.get(file, 0) > after]
        assert not wrong, wrong[:5]
        # after a restore without tasks each name is known, or garbage
        job.begin()
        garbage = set(job.garbage(range(1, int(job.state()["next_name"])))[0])
        known = {file for file, _, end in uses(log) if end == float("inf")}
        assert garbage and not garbage & known, garbage & known
        while counts(job) != (0, 0):
            churn.discard()
        assert subprocess.run([*sweep, "--once"], stdout=subprocess.DEVNULL, timeout=COMMAND, check=False).returncode == 0
        assert {name for name in os.listdir(churn.at) if not name.startswith(".")} == churn.in_use() != set(), (os.listdir(churn.at), churn.in_use())
        return f"{len(churn.told)} answers beside {len(log)} calls and kills, {len(garbage)} names garbage at the end"


def test_a_job_of_a_recovery_is_turned():
    with served() as server:
        job = Service(server.url).open("orders", MAKING, [1])
        job.calls([savepoint(), ack(1, "0.0", [5, 7])])
        assert [raised(Fenced, lambda: job.fence(first)).name for first in (1, 5, 7)] == ["NameInUse"] * 3
        before = job.state()["seq"]
        told = job.fence(8, key="turn")
        assert (told["term"], told["first_name"], told["seq"]) == (1, "8", before + 1), told
        assert job.fence(8, key="turn") == told and raised(Fenced, lambda: job.fence(8)).name == "HasNames"
        failed = raised(Failed, lambda: job.fence(9, key="turn"))
        assert failed.status == 422
        # the tasks of before are refused, and those of the restart go on with the files of before
        assert job.calls([ack(1, "0.0", [9])]) == [{"fenced": "OldTerm"}]
        server.again()
        start = job.begin(1)
        assert (start.term, start.files) == (2, {"0.0": [5, 7]})
        task = start.session(block=3)
        assert task.name() == 8 and job.call(savepoint())["id"] == 2 and task.ack(2, "0.0", [8], [5])["ack"] == "completed"
        garbage, unissued = job.garbage([0, 4, 5, 6, 7, 8, 9, 10, 11, 2**64 - 1])
        assert (garbage, unissued) == ([0, 4, 6], [11, 2**64 - 1]), (garbage, unissued)
        assert job.begin(2).term == 3 and job.garbage([8, 9, 10])[0] == [9, 10]
        job.call(dispose(1))
        (released,) = job.take(5)
        assert released == 7 and job.garbage([7]) == ([], [])
        job.call(deleted(7))
        assert job.garbage([7]) == ([7], [])
        check_log(job.state(), [1], list(job.log(terms=True)))


def test_a_leader_that_is_over_answers_no_garbage():
    """Requests reach a leader that is suspended, and another takes over. The old one answers none of them when it goes on."""
    rounds = 3
    with postgres() as database, folder() as at:
        first, second = leader_and_standby(at, database.url, f"lease_seconds = {lease_of(3)}\n")
        Service(first.url).open("orders", SETTINGS, [1])
        old, new, later = first, second, []
        for _ in range(rounds):
            # each is in the socket of the old leader before it is suspended, or comes while it is
            answers = []

            def ask(server, answers=answers):
                answers.append(server.request("POST", "/v1/jobs/orders/garbage", {"files": [str(file) for file in range(2000)]})[0])

            old.process.send_signal(signal.SIGSTOP)
            asked = [beside(ask, old) for _ in range(4)]
            until(lambda: new.get("/readyz")[0] == 200, 20, 0.01)
            start = Service(new.url).job("orders").begin()
            Service(new.url).job("orders").session(start.term, 100).name()
            old.process.send_signal(signal.SIGCONT)
            for one in asked:
                one.join(COMMAND)
            later += answers
            assert old.ended() == 75
            assert new.request("POST", "/v1/jobs/orders/garbage", {"files": ["0"]})[2]["garbage"] == ["0"]
            old.stand_by()
            assert old.request("POST", "/v1/jobs/orders/garbage", {"files": ["0"]})[0] == 503
            old, new = new, old
        assert len(later) == 4 * rounds and not [status for status in later if status not in (0, 503)], later
        return f"{len(later)} requests to leaders that were suspended: {later.count(503)} were answered 503, {later.count(0)} not at all"


def test_the_session_of_the_client():
    with served_job("orders", SETTINGS, [2], 0) as (server, job):
        start = job.begin()
        session, found = start.session(block=10), []

        def some(_):
            for _ in range(25):
                found.append(session.name())

        at_once(some, range(4))
        assert sorted(found) == list(range(1, 101)), "names of threads"
        assert [entry["line"] for entry in job.log(terms=True)].count(f"reserve {start.term} 10") == 10
        session.forfeit(range(1, 6000))
        assert job.garbage(found)[0] == found
        names = session.names()
        record = job.call(savepoint())["id"]
        assert session.ack(record, "0.0", [next(names)], sizes=[100])["ack"] == "pending" and session.decline(record, "0.1")["decline"] == "aborted"
        record, name = job.call(savepoint())["id"], next(names)
        both = session.calls([ack(record, "0.0", [name]), ack(99, "0.1"), decline(record, "0.1")])
        assert [both[0]["ack"], both[1], both[2]["decline"]] == ["pending", {"refused": "UnknownCheckpoint"}, "aborted"], both
        # a refusal leaves the name with the task, until it is given up
        name = next(names)
        assert raised(Refused, lambda: session.ack(99, "0.0", [name])).name == "UnknownCheckpoint" and job.garbage([name])[0] == []
        session.forfeit([name])
        assert job.garbage([name])[0] == [name]
        job.call(restore())
        before = sum(value for name, value in scraped(server)[1].items() if "reserve" in name)
        for _ in range(3):
            assert raised(OldTerm, lambda: [session.name() for _ in range(20)]) and raised(OldTerm, lambda: session.calls([decline(record, "0.1")]))
        assert sum(value for name, value in scraped(server)[1].items() if "reserve" in name) == before + 1, "it asks once, and then knows"
        assert scraped(server)[1]['relkvanu_calls_total{call="reserve",job_name="orders",outcome="fenced"}'] == 1
        gauges = scraped(server)[1]
        assert gauges['relkvanu_term{job_name="orders"}'] == 3 and gauges['relkvanu_next_name{job_name="orders"}'] == int(job.state()["next_name"])
