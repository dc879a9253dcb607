"""The history against the second model of the coordinator: which call released each file, when each record ended and how, and which subtasks were
missing. It is deleted and made again, and has the same content. It
outlives what happens to its file and to the leader: the database keeps summaries of the calls that are cut. One that can't be written is seen, harms no call
and is not thrown away."""
import glob
import os
import sqlite3
import threading
import time

from harness import (
    SETTINGS, Server, Service, caught_up, configured, folder, lease_of, lose_history, script, served, served_job, small_disk, sqlite, until
)
from postgres import postgres
from second_script import Script
from relkvanu_service import ack, deleted, dispose, savepoint, take
from test_disks import fill
from test_images import KEEPING, read_and_cut, seen, worked
from test_metrics import scraped
from writers import SETTINGS as OF_WRITERS
from writers import SHAPE, Writer, end


class Model:
    """The history of records and files: each line of a log changes the second model (tests/second_model.py), and what it had before says what the line has ended."""

    def __init__(self, opening):
        self.script, self.records, self.files = Script(logs=True), {}, {}
        for line in opening:
            self.script.line(line.encode())
        self.now = self.script.coordinator

    def follow(self, entry):
        words = entry["line"].split(" ")
        words = words[2:] if words[0] == "in" else words
        records, acks = dict(self.now.records), {number: len(it.acks) for number, it in self.now.records.items()}
        used, taken, known = self.now.used(), set(self.now.taken), self.now.known()
        assert self.script.line(entry["line"].encode())[0] == entry["answer"], entry
        for number in self.now.records.keys() - records.keys():
            self.records[number] = {"kind": self.now.records[number].kind, "started": entry["at"], "how": "pending", "acks": 0, "slowest": None}
        for number, it in records.items():
            if len(it.acks) > acks[number]:
                self.acknowledged(self.records[number], it, entry, words[3])
            if number not in self.now.records:
                self.ended(self.records[number], it, entry, words)
        assert sorted(set(map(int, entry["ended"]))) == sorted(records.keys() - self.now.records.keys()), entry
        self.moved(entry["seq"], used, taken, known)

    def acknowledged(self, told, record, entry, subtask):
        told.update(acks=len(record.acks), slowest=subtask, last_ack=entry["at"])
        told.setdefault("first_ack", entry["at"])
        if record.done:
            told.update(how="completed", finished=entry["at"], missing=[])

    def ended(self, told, record, entry, words):
        if record.done:
            told["why"] = "disposed" if words[0] == "dispose" else "not retained"
            return
        missing = [f"{vertex}.{index}" for vertex, index in record.subtasks() if (vertex, index) not in record.acks]
        told.update(how=self.how(record, entry, words), finished=entry["at"], missing=missing)
        if told["how"] == "declined":
            told["why"] = f"declined by {words[3]}"

    def how(self, record, entry, words):
        """A record ended that was pending."""
        if words[0] in ("ack", "restore"):
            return "subsumed" if words[0] == "ack" else "restored"
        if words[0] == "decline" and int(words[2]) == record.number:
            return "declined"
        is_late = words[0] == "tick" and record.started + OF_WRITERS["timeout"] <= entry["at"]
        return "expired" if is_late else "failed over"

    def moved(self, seq, used, taken, known):
        """What a call has done to files, by those that were in use, taken and known before it."""
        for file in self.now.known() - known:
            self.files[file] = {"born": seq}
        for file in (used | self.now.known() - known) - self.now.used():
            self.files[file]["released"] = seq
        for file in set(self.now.taken) - taken:
            self.files[file]["taken"] = seq
        for file in taken - set(self.now.taken):
            if file in self.now.waiting:
                self.files[file].pop("taken")
            else:
                self.files[file]["deleted"] = seq


def compare(job, log):
    lines = script(job.state(), SHAPE, log).splitlines()
    model = Model(lines[:len(lines) - len(log)])
    for entry in log:
        model.follow(entry)
    told, before = {}, None
    while page := job.records(before, 1000):
        told.update({record["id"]: record for record in page})
        before = page[-1]["id"]
    assert set(told) == set(model.records)
    for id, wanted in model.records.items():
        record = told[id]
        for name in ("kind", "started", "how", "acks", "slowest", "first_ack", "last_ack", "finished"):
            assert record[name] == wanted.get(name), (id, name, record, wanted)
        assert record["missing"] == wanted.get("missing", []), (id, record, wanted)
        if "why" in wanted:
            assert record["why"] == wanted["why"], (id, record, wanted)
    gone = 0
    for file, wanted in model.files.items():
        if file % 3:
            continue
        history = job.file(file)["history"]
        for name in ("born", "taken", "deleted") + (("released",) if "taken" in wanted else ()):
            seq = history[name]["seq"] if history[name] else None
            assert seq == wanted.get(name), (file, name, history, wanted)
        gone += "taken" in wanted
    for file in sorted(model.now.used())[:20]:
        told = job.file(file)
        by = {(id, f"{vertex}.{index}") for id, it in model.now.records.items() for (vertex, index), files in it.acks.items() if file in files}
        pins = sum(file in it.pins for it in model.now.records.values())
        assert {(use["record"], use["subtask"]) for use in told["used_by"]} == by, (file, told, by)
        assert (told["uses"], told["pins"]) == (len(by) + pins, pins), (file, told, by, pins)
    return len(model.records), gone


def test_records_and_files_against_a_model():
    with served_job("orders", OF_WRITERS, SHAPE) as (server, job):
        writers = [Writer([server.url], "orders", number) for number in range(4)]
        for writer in writers:
            writer.start()
        time.sleep(3)
        server.kill()  # in the middle of the history's work too
        server.start()
        time.sleep(2)
        end(writers)
        for writer in writers:
            assert not writer.errors, writer.errors
        # nothing moves any more: pending records expire, and the job fails over
        until(lambda: job.state()["mode"] == "failed", 30)
        log = list(job.log(terms=True))
        until(lambda: job.files()["upto"] == len(log), 20)
        first = compare(job, log)
        lose_history(server)
        until(lambda: job.files()["upto"] == len(log), 20)
        assert compare(job, log) == first
        assert threading.active_count() < 50
        return f"{len(log)} calls: {first[0]} records, and {first[1]} files that were taken, attributed as the model does; twice"


def test_the_history_of_another_log_is_forgotten():
    """The database is replaced by an earlier copy, whose log is then as long again, but another one."""
    with served_job("orders", {"interval": 1 << 40}, [1]) as (server, job):
        job.calls([savepoint(), ack(1, "0.0", [11])])
        with sqlite3.connect(server.database) as base, sqlite3.connect(f"{server.folder}/copy") as copy:
            base.backup(copy)
        job.calls([dispose(1), take()])
        until(lambda: job.files()["upto"] == job.state()["seq"] and job.files()["taken"])
        server.stop()
        for name in glob.glob(f"{server.database}*"):
            os.remove(name)
        os.rename(f"{server.folder}/copy", server.database)
        server.args = ["--history", f"{server.folder}/another"]
        server.start()
        job.calls([savepoint(), ack(2, "0.0", [12]), savepoint()])
        server.stop()
        server.args = []
        server.start()
        until(lambda: (it := job.files())["upto"] == 7 and not it["taken"])
        assert job.file(11)["history"]["released"] is None and len(job.records()) == 3, job.file(11)


def test_the_history_of_an_earlier_version_is_set_aside():
    with served_job("orders", {"interval": 1 << 40}, [1]) as (server, job):
        job.call(savepoint())
        server.stop()
        [path] = glob.glob(f"{server.folder}/history-*[0-9]")
        sqlite(path, "alter table progress drop column at")
        server.start()
        until(lambda: job.files()["upto"] == 3)
        assert os.path.exists(f"{path}.bad") and "it is made again" in server.log(), server.log()


def test_a_database_is_no_history():
    """By a mistake the setting names the database of another service, or that of the service itself. It stays where it is, and calls go on."""
    with served() as server, folder() as at:
        first = Service(server.url).open("orders", {"interval": 1 << 40}, [1])
        first.call(savepoint())
        for database, history in ((f"{at}/other.db", server.database), (f"{at}/own.db", f"{at}/own.db")):
            other = Server(at, database, args=["--history", history]).start()
            job = Service(other.url).open("users", {"interval": 1 << 40}, [1])
            job.call(savepoint())
            until(lambda: "it is the database of a service, and no history" in other.log())
            assert "the history is broken" in until(lambda: (it := other.get("/healthz"))[0] == 200 and it)[2]
            assert job.call(savepoint())["seq"] == 4 and glob.glob(f"{history}.bad*") == [], os.listdir(at)
            assert other.stop() == 0
            assert sqlite(history, "select count(*) from sqlite_master where name = 'progress'") == [(0,)]
        assert first.call(savepoint())["seq"] == 4 and server.process.poll() is None


FILES = [10, 350, 391, 392, 402, 412, 420]


def prepared(job):
    """As much as is cut to the most part: records that ended, are done and are pending; files in use, waiting, taken and deleted."""
    worked(job, 41)
    job.calls([savepoint(), ack(42, "0.0", [420]), dispose(40)])
    read_and_cut(job, 150)
    return seen(job, FILES)


def history_of(server):
    return f"{server.folder}/history-{server.port}"


def same(before, after):
    """Two results of `seen` are equal, or the first difference is said. Ranks are of the acknowledgements that the log had: a cut may fall between two."""
    def plain(part):
        return [{key: it[key] for key in it if key not in ("median", "p99")} if isinstance(it, dict) else it for it in part] if isinstance(part, list) else part

    for name, old, new in zip(("histories", "live", "records", "files", "state"), map(plain, reversed(before)), map(plain, reversed(after))):
        assert old == new, f"{name}: {[pair for pair in zip(old, new) if pair[0] != pair[1]][:3]} of {old!r:.500} and {new!r:.500}"


def test_a_lost_history_is_made_again_with_what_was_cut():
    with served_job("orders", SETTINGS, [2], args=KEEPING) as (server, job):
        before = prepared(job)
        lose_history(server)
        caught_up(job)
        same(before, seen(job, FILES))
        # what was released and not taken before the cut is attributed, and the pending record ends as it should
        files = job.take(9)
        job.calls([deleted(file) for file in files] + [ack(42, "0.1")])
        caught_up(job)
        whys = {job.file(file)["history"]["why"] for file in files}
        assert whys == {"savepoint 40 was disposed of"}, whys
        record = job.record(42)["history"]
        assert (record["how"], record["acks"], record["missing"]) == ("completed", 2, []), record
        [kept] = sqlite(server.database, "select count(distinct seq), sum(length(text)) from summary")
        [[ended]] = sqlite(server.database, "select count(*) from past")
        assert kept[0] < 12 and ended > 30, (kept, ended)
        return f"{before[0]['first'] - 1} of {before[0]['seq']} calls cut; {kept[0]} summaries of {kept[1]} bytes in all, {ended} records that ended"


def test_a_new_leader_knows_what_was_cut():
    with postgres() as database, folder() as at:
        servers = [Server(at, database.url, configured(at, f"lease_seconds = {lease_of(3)}\nimage_calls = 20\nkeep_calls = 30\n")) for _ in range(3)]
        leader, standby = servers[0].start(), servers[1].start(ready=False)
        job = Service(leader.url).open("orders", SETTINGS, [2])
        before = prepared(job)
        for old, new in (leader, standby), (standby, servers[2]):
            if new.process is None:
                new.start(ready=False)  # a machine that was not there before
            old.kill()
            new.wait_ready()
            job = Service(new.url).job("orders")
            caught_up(job)
            same(before[1:], seen(job, FILES)[1:])


def test_a_damaged_history_is_set_aside_and_nothing_is_overwritten():
    with served_job("orders", SETTINGS, [2], args=KEEPING) as (server, job):
        before = prepared(job)
        path = history_of(server)
        for content in (b"first " * 4000, b"second " * 4000):
            server.stop()
            for beside in glob.glob(f"{path}-*"):
                os.remove(beside)
            with open(path, "wb") as it:
                it.write(content)
            server.start()
            caught_up(job)
            same(before, seen(job, FILES))
        # in the middle of its work
        server.stop()
        [[root]], [[size]] = sqlite(path, "select rootpage from sqlite_master where name = 'record'"), sqlite(path, "pragma page_size")
        with open(path, "r+b") as it:
            it.seek((root - 1) * size)
            it.write(b"\xff" * size)
        server.start()
        job.call(savepoint())
        until(lambda: "malformed" in server.log() and job.files()["upto"] == job.state()["seq"])
        assert len(job.records()) == len(before[2]) + 1
        aside = sorted(glob.glob(f"{path}.bad*"))
        assert [os.path.basename(it) for it in aside] == [os.path.basename(path) + end for end in (".bad", ".bad.2", ".bad.3")], aside
        for it, content in zip(aside, (b"first ", b"second ", b"SQLite ")):
            with open(f"{it}/{os.path.basename(path)}", "rb") as old:
                assert old.read().startswith(content), it


def test_a_history_that_cannot_be_written_is_kept():
    """At a start: its disk is full, and another program has locked it."""
    with folder() as at, small_disk(at, "12m") as small:
        server = Server(at, args=[*KEEPING, "--history", f"{small}/h.db"]).start()
        job = Service(server.url).open("orders", SETTINGS, [2])
        before = prepared(job)
        server.stop()
        with open(f"{small}/fill", "wb", buffering=0) as it:
            fill(it)
        for _ in range(2):
            server.start()
            job.calls([savepoint()])
            server.stop()
            assert not glob.glob(f"{small}/*.bad*"), os.listdir(small)
        os.remove(f"{small}/fill")
        with sqlite3.connect(f"{small}/h.db", isolation_level=None) as base:
            base.execute("begin immediate")
            base.execute("update version set number = number")
            server.start()
            until(lambda: scraped(server)[1]["relkvanu_history_up"] == 0, 10)
            assert len(job.records()) >= len(before[2])  # it can be read meanwhile
            base.execute("rollback")
        base.close()
        caught_up(job)
        assert [record["id"] for record in job.records()][2:] == [record["id"] for record in before[2]] and not glob.glob(f"{small}/*.bad*")
        until(lambda: scraped(server)[1]["relkvanu_history_up"] == 1, 10)
        assert server.stop() == 0


def test_a_broken_history_is_seen():
    with folder() as at, small_disk(at, "1m") as small:
        server = Server(at, args=["--history", f"{small}/h.db", "--image-calls", "100", "--keep-calls", "100"]).start()
        job = Service(server.url).open("orders", SETTINGS, [1])
        assert server.get("/healthz")[::2] == (200, "ok\n")
        with open(f"{small}/fill", "wb", buffering=0) as it:
            fill(it)
        for _ in range(12):
            job.calls([{"call": "tick"}] * 100)
        until(lambda: scraped(server)[1]["relkvanu_history_up"] == 0, 10)
        until(lambda: scraped(server)[1]['relkvanu_history_lag_seconds{job_name="orders"}'] > 1, 10)
        assert server.get("/healthz")[::2] == (200, "ok, but the history is broken: the service's log says why\n"), server.get("/healthz")
        assert "full" in server.log() and server.get("/readyz")[0] == 200

        def told():  # what the metrics, the state and `/log` say, and what the table has
            [[rows, least]] = sqlite(server.database, "select count(*), min(seq) from call")
            metric = scraped(server)[1]['relkvanu_log_kept_calls{job_name="orders"}']
            return metric == rows and job.state()["first"] == least == server.get("/v1/jobs/orders/log?limit=1")[2]["calls"][0]["seq"], least

        assert told() == (True, 1), told()
        os.remove(f"{small}/fill")
        caught_up(job)
        until(lambda: (it := scraped(server)[1])["relkvanu_history_up"] == 1 and it['relkvanu_history_lag_seconds{job_name="orders"}'] == 0)
        until(lambda: told()[0] and told()[1] > 800, 20)
        assert server.get("/healthz")[2] == "ok\n"
        until(lambda: scraped(server)[1].get('relkvanu_disk_free_bytes{of="history"}', 0) > 0)
        assert scraped(server)[1]['relkvanu_stored_bytes{of="database"}'] >= os.path.getsize(server.database)


def test_the_history_of_a_newer_version():
    with served_job("orders", SETTINGS, [2], args=KEEPING) as (server, job):
        prepared(job)
        server.stop()
        path = history_of(server)
        sqlite(path, "update version set number = 2")
        server.start()
        assert server.get("/v1/jobs/orders")[0] == 200
        until(lambda: scraped(server)[1]["relkvanu_history_up"] == 0)
        until(lambda: "a newer program has made them" in server.log())
        assert not os.path.exists(f"{path}.bad")
