"""Events that the log does not have: after a cut, and after a backup was restored. Engines go on from the job's state. The
stream of a job's events, the times of a record's acknowledgements, and the search for records."""
import json
import socket
import subprocess
import threading
import time

from harness import COMMAND, ENGINE, SETTINGS, Server, Service, caught_up, configured, folder, needed, raised, served, served_job, slowed, told_by, until
from postgres import postgres
from relkvanu_service import Gone, OtherLog, ack, cancel, decline, deleted, dispose, restore, savepoint
from slow import Slow
from test_images import read_and_cut

CUTTING = ["--image-calls", "40", "--keep-calls", "0"]


def cut_behind(job, calls):
    """Makes calls that are no events until the log is cut behind the last event. Returns the state."""
    def is_cut():
        calls()
        state = job.state()
        return state["first"] > state["last_event"] and state
    return until(is_cut)


def polls(server):
    """How many polls of events were answered, by status."""
    lines = [line for line in server.get("/metrics")[2].splitlines() if line.startswith('relkvanu_http_requests_total{route="events"')]
    return {line.split('status="')[1][:3]: int(line.rsplit(" ", 1)[1]) for line in lines}


def test_after_a_cut():
    with served_job("a", SETTINGS, [1], args=CUTTING) as (server, job):
        job.calls([savepoint(), ack(1, "0.0", range(1, 301)), savepoint()])
        assert [server.get(f"/v1/jobs/a/events?after={after}&limit={most}")[2]["upto"] for after, most in ((0, 1), (3, 1), (3, 0), (5, 1))] == [3, 4, 3, 5]
        missed = job.events()[0] - 1  # an engine that has not heard of savepoint 2
        job.call(dispose(1))
        knew = job.state()["last_event"]  # and one that has heard of all
        cut_behind(job, lambda: job.calls([deleted(file) for file in job.take(8)] or [{"call": "tick"}]))
        read_and_cut(job, knew, 40)  # the next image may be under way, and with it the next cut
        state = job.state()
        assert {server.get(path)[1]["relkvanu-log"] for path in ("/readyz", "/v1/jobs/a/files", "/v1/jobs/none")} == {state["log"]}
        begun = time.monotonic()
        gone = raised(Gone, lambda: job.events(missed, 20))
        assert (gone.status, gone.reason, gone.first) == (410, "cut", state["first"]) and gone.log == state["log"], vars(gone)
        assert time.monotonic() - begun < 15 * slowed()  # and not once the wait is over
        # whoever missed nothing waits as before
        assert job.events(knew, 1) == (state["seq"], [])
        assert server.get("/v1/jobs/a/events")[2] == {"first": state["first"], "log": state["log"], "upto": state["seq"], "events": []}
        told, follower = [], job.follower(missed)
        told += follower.next()
        assert [(event["event"], event.get("id")) for event in told] == [("missed", None), ("triggered", 2)], told
        assert told[0]["reason"] == "cut" and told[0]["state"]["first"] >= state["first"] and told[1]["kind"] == "savepoint"
        job.call(cancel())
        told = follower.next()
        assert [event["event"] for event in told] == ["cancelled"], told


def test_a_commit_whose_writer_has_not_heard_of_it():
    """A reader of the database sees it before. It is told with the next poll: the place of one that was told too early would be taken for that of another log."""
    with postgres() as database, folder() as at:
        line = Slow(database.port, 0)
        url = database.url.replace(str(database.port), str(line.port))
        server = Server(at, url, configured(at, "lease_seconds = 600\n")).start()
        job = Service(server.url).open("a", SETTINGS, [1])
        first = job.calls([savepoint()])[0]["seq"]
        line.holds = b"_1"  # in the name of a statement that commits calls
        late = threading.Thread(target=job.calls, args=([savepoint()],), daemon=True)
        late.start()
        until(lambda: int(database.sql("select max(seq) from call")) > first)
        stream = Stream(server, f"/v1/jobs/a/stream?after={first - 1}")
        upto, told = job.events(first - 1)
        assert (upto, [it["seq"] for it in told]) == (first, [first]) and job.events(upto) == (first, []), told
        until(lambda: stream.events() == ["triggered"] and stream.id)
        again = Stream(server, "/v1/jobs/a/stream", [("Last-Event-ID", stream.id)])
        until(lambda: b"200 OK" in again.head)
        line.holds = None
        late.join()
        assert [it["seq"] for it in job.events(upto)[1]] == [first + 1]
        until(lambda: again.events() == ["triggered"] and stream.events() == ["triggered", "triggered"])


class Copy:
    """A backup of a service's database that is restored, as docs/RECOVERY.md says."""

    def __init__(self, server, database):
        self.server, self.database = server, database
        self.path = f"{server.folder}/copy.db"

    def make(self):
        if self.database:
            self.database.run("pg_dump", "--format=custom", f"--file={self.database.data}/dump", f"--dbname={self.database.url}")
        else:
            assert told_by("backup", "--database", self.server.database, "--to", self.path)[0] == 0

    def restore(self):
        server = self.server
        server.stop()
        if self.database:
            self.database.sql("drop schema public cascade")
            self.database.sql("create schema public")
            self.database.run("pg_restore", "--single-transaction", f"--dbname={self.database.url}", f"{self.database.data}/dump")
        else:
            assert told_by("put-back", self.path, "--database", server.database)[0] == 0
        server.start()


def ends(follower):
    """The engine hears that it must not go on."""
    told = raised(OtherLog, lambda: follower.next(5))
    assert (told.status, told.reason) == (410, "other_log") and "restore the job to a record whose files are all there" in str(told), told


def restored(server, database):
    """An engine, over a start that changes nothing and a restore that loses what it knows."""
    job, copy = Service(server.url).open("a", SETTINGS, [1]), Copy(server, database)
    for number in range(1, 4):
        job.calls([savepoint(), ack(number, "0.0", [number])])
    told = job.poll(0)
    early, after, log = told["events"][2]["seq"], told["upto"], told["log"]
    server.again()
    state = job.state()
    assert state["log"] != log and after == state["last_event"] == 8
    # places from before the start are places of this log
    follower = job.follower(after, log)
    job.call(savepoint())
    assert [event["seq"] for event in follower.next(5)] == [9]
    copy.make()
    job.call(ack(4, "0.0", [4]))
    for number in range(5, 9):
        job.calls([savepoint(), ack(number, "0.0", [number])])
    assert len(follower.next(5)) == 9 and follower.after == 18
    other = job.follower(follower.after, follower.log)
    copy.restore()
    # the log is shorter than the place
    assert job.state()["seq"] == 9
    for _ in range(2):
        ends(follower)
    assert follower.after == 18
    # the log has grown beyond the place again, by other calls
    for number in range(20):
        job.calls([savepoint(), ack(5 + number, "0.0", [100 + number])])
    ends(other)
    # a place from before the backup is one of this log
    assert [event["seq"] for event in job.follower(early, log).next(5)] == list(range(early + 1, 50))
    status, _, body = server.get("/v1/jobs/a/events?after=5&log=nobody")
    assert (status, body["field"], body["reason"]) == (410, "after", "other_log"), body


def test_after_a_restored_backup():
    with served() as server:
        return restored(server, None)


def test_after_a_restored_dump_of_postgres():
    with postgres() as database, served("lease_seconds = 2\n", database=database.url) as server:
        return restored(server, database)


def test_an_engine_in_rust_over_a_restored_backup():
    needed(ENGINE)
    with served() as server:
        run = subprocess.Popen([ENGINE, server.url, "rust", "100000"], stdout=subprocess.PIPE, stderr=subprocess.STDOUT, text=True)
        job, copy = Service(server.url).job("rust"), Copy(server, None)
        until(lambda: (server.get("/v1/jobs/rust")[2] or {}).get("seq", 0) > 40)
        copy.make()
        far = job.state()["seq"] + 200
        until(lambda: job.state()["seq"] > far)
        copy.restore()
        told = run.communicate(timeout=COMMAND)[0]
        assert run.returncode == 1 and "End the engine and its tasks, and restore the job to a record" in told, told
        assert job.state()["seq"] < far and len(restores_of(job)) == 1, job.state()
        told = subprocess.run([ENGINE, server.url, "rust", "5"], stdout=subprocess.PIPE, stderr=subprocess.STDOUT, text=True, timeout=COMMAND, check=False)
        assert told.returncode == 0 and "5 checkpoints completed, " in told.stdout, told


def restores_of(job):
    return [entry for entry in job.log() if entry["line"].startswith("restore ")]


def test_an_engine_in_rust_hears_of_others():
    """Somebody restores its job, and later cancels it."""
    needed(ENGINE)
    with served() as server:
        run = subprocess.Popen([ENGINE, server.url, "rust", "100000"], stdout=subprocess.PIPE, stderr=subprocess.STDOUT, text=True)
        job = Service(server.url).job("rust")
        until(lambda: (server.get("/v1/jobs/rust")[2] or {}).get("seq", 0) > 40)
        job.call(restore())
        until(lambda: len(restores_of(job)) == 3)
        far = job.state()["seq"] + 40
        until(lambda: job.state()["seq"] > far)
        assert len(restores_of(job)) == 3
        job.call(cancel())
        told = run.communicate(timeout=COMMAND)[0]
        assert run.returncode == 1 and "cancelled" in told, told


class Stream(threading.Thread):
    """Reads a stream until it ends: its messages as pairs of a name and data, the last id, and how many comments came."""

    def __init__(self, server, path, headers=()):
        super().__init__(daemon=True)
        self.told, self.id, self.alive, self.head, self.over = [], None, 0, b"", False
        self.socket = socket.create_connection(("127.0.0.1", server.port), timeout=COMMAND)
        lines = [f"GET {path} HTTP/1.1", "Host: localhost", "Connection: close", *(f"{name}: {value}" for name, value in headers)]
        self.socket.sendall("\r\n".join([*lines, "", ""]).encode())
        self.start()

    def run(self):
        text = b""
        try:
            while piece := self.socket.recv(65536):
                text += piece
                while b"\n\n" in text or b"\r\n\r\n" in text and not self.head:
                    if not self.head:
                        self.head, _, text = text.partition(b"\r\n\r\n")
                        continue
                    message, _, text = text.partition(b"\n\n")
                    self.message(message.decode())
        except OSError:
            pass
        self.over = True

    def message(self, text):
        # the parts of the body have their lengths before them
        fields = dict(line.split(": ", 1) for line in text.splitlines() if ": " in line)
        self.alive += ": alive" in text
        self.id = fields.get("id", self.id)
        if "event" in fields:
            self.told.append((fields["event"], json.loads(fields["data"])))

    def events(self):
        return [name for name, _ in self.told if name != "calls"]

    def close(self):
        self.socket.close()


def test_a_stream_tells_what_comes():
    with served_job("orders", SETTINGS, [2], config="[limits]\nidle_seconds = 2\n") as (server, job):
        job.calls([savepoint()])
        path = "/v1/jobs/orders/stream"
        whole, later = Stream(server, path), Stream(server, f"{path}?after=3")
        until(lambda: whole.events() == ["triggered"])
        assert b"200 OK" in whole.head and b"text/event-stream" in whole.head and later.events() == [], whole.head
        job.calls([ack(1, "0.0", [1])])  # no event, but told
        until(lambda: any(name == "calls" and data["seq"] == 4 for name, data in later.told), 5)
        job.calls([ack(1, "0.1", [2]), savepoint(), decline(2, "0.0")])
        for stream in (whole, later):
            until(lambda it=stream: it.events()[-3:] == ["completed", "triggered", "declined"], 5)
        polled = server.get("/v1/jobs/orders/events?after=0")[2]["events"]
        assert [data for name, data in whole.told if name != "calls"] == polled, whole.told
        # it is kept though nothing comes
        until(lambda: whole.alive >= 3 and not whole.over, 10)
        # a client that comes back misses nothing and gets nothing twice
        again = Stream(server, path, [("Last-Event-ID", later.id)])
        job.call(dispose(1))
        until(lambda: again.events() == ["disposed"], 5)
        assert server.request("GET", path, headers=[("Last-Event-ID", "x")])[0] == 400
        assert server.get(f"{path}?after=99")[0] == 410 and server.get("/v1/jobs/none/stream")[0] == 404
        # a stop ends it at once
        started = time.monotonic()
        assert server.stop() == 0 and time.monotonic() - started < 10 * slowed()  # it waits for answers for 12 s
        until(lambda: whole.over and later.over and again.over, 5)


def test_streams_take_the_places_of_polls():
    with served("[limits]\npolls = 2\n") as server:
        Service(server.url).open("orders", SETTINGS, [1]).call(savepoint())
        streams = [Stream(server, "/v1/jobs/orders/stream") for _ in range(2)]
        until(lambda: all(it.events() for it in streams))
        for path in ("/v1/jobs/orders/stream", "/v1/jobs/orders/events?after=0&wait=0"):
            status, headers, _ = server.get(path)
            assert status == 503 and headers["retry-after"] == "1" and headers["connection"] == "close", (path, status, headers)
        assert server.get("/v1/jobs/orders")[0] == 200
        streams[0].close()
        until(lambda: server.get("/v1/jobs/orders/events")[0] == 200)


def test_the_times_of_acknowledgements():
    with served_job("orders", SETTINGS, [5]) as (server, job):
        job.calls([savepoint()])
        for index in (3, 0, 4, 1):
            time.sleep(0.05)
            job.calls([ack(1, f"0.{index}", [10 + index], sizes=[100 + index])])
        job.calls([ack(1, "0.2", reused=[])])
        job.calls([savepoint(), dispose(1), ack(1, "0.3", [99])])
        caught_up(job)
        told = server.get("/v1/jobs/orders/records/1/acks?limit=2")[2]
        log = {entry["line"].split()[5]: entry for entry in job.log() if entry["line"].startswith("in ") and "late" not in entry["answer"]}
        started = job.record(1)["history"]["started"]
        took = sorted(entry["at"] - started for entry in log.values())
        assert [told[name] for name in ("count", "late", "are_all", "first", "median", "p99", "slowest")] == [5, 1, True, took[0], took[2], took[4], took[4]], told
        assert [(one["subtask"], one["took"], one["fresh"], one["full_bytes"]) for one in told["acks"]] == [
            ("0.2", took[4], 0, None), ("0.1", took[3], 1, 101),
        ], told
        # the service's moments may be a tenth slower than what this process sleeps by
        assert took[0] >= 44 and took[3] >= 170, took
        assert server.get("/v1/jobs/orders/records/9/acks")[0] == 404
        assert server.get("/v1/jobs/orders/records/2/acks")[2]["median"] is None
        return f"after {took} ms"


def test_records_are_searched():
    with served_job("orders", SETTINGS, [1]) as (server, job):
        for number in range(1, 31):
            job.calls([savepoint(), decline(number, "0.0") if number % 3 else ack(number, "0.0")])
        caught_up(job)

        def ids(query):
            return [record["id"] for record in server.get(f"/v1/jobs/orders/records?{query}")[2]["records"]]

        assert ids("how=completed") == list(range(30, 0, -3)) and ids("how=completed&limit=2&before=20") == [18, 15]
        assert ids("kind=checkpoint") == [] and ids("kind=savepoint&limit=1") == [30] and ids("how=failed+over") == ids("how=failed%20over") == []
        told = server.get("/v1/jobs/orders/records?how=late")
        assert (told[0], told[2]["field"]) == (400, "how"), told
