"""Requests good and bad: each bad one has a status and names the field, and changes nothing."""
import contextlib
import random
import socket
import time

from harness import BUSY, COMMAND, check_log, lease_of, served, served_job, slowed, sqlite, until
from relkvanu.service_moves import MAKING  # the settings of a job that a recovery has not made whole
from relkvanu_service import Service, cancel

JOB = {"name": "orders", "settings": {"interval": 1000000}, "shape": [2, 1]}
# The settings of a job that has not said more than its interval.
DEFAULTS = {"pause": 0, "at_once": 1, "timeout": 600_000, "tolerable": 0, "retained": 1, "keep_on_cancel": False}
ACK = {"call": "ack", "id": 1, "subtask": "0.0"}

# method, path, body, status, field. (The units of http/wire.rs, files/job_storage.rs and model/settings.rs have more bodies.)
BAD = [
    ("POST", "/v1/jobs", "[]", 400, "body"),
    ("POST", "/v1/jobs", {**JOB, "name": ""}, 400, "name"),
    ("POST", "/v1/jobs", {**JOB, "name": "x" * 65}, 400, "name"),
    ("POST", "/v1/jobs", {**JOB, "name": 7}, 400, "name"),
    ("POST", "/v1/jobs", {"name": "b", "shape": [1]}, 400, "settings"),
    ("POST", "/v1/jobs", {**JOB, "name": "b", "settings": {"interval": "10"}}, 400, "settings.interval"),
    ("POST", "/v1/jobs", {**JOB, "name": "b", "settings": {"interval": 2**40 + 1}}, 400, "settings.interval"),
    ("POST", "/v1/jobs", {**JOB, "name": "b", "settings": {"interval": 10, "at_once": 0}}, 400, "settings.at_once"),
    ("POST", "/v1/jobs", {**JOB, "name": "b", "settings": {"interval": 10, "tolerable": 1001}}, 400, "settings.tolerable"),
    ("POST", "/v1/jobs", {**JOB, "name": "b", "settings": {"interval": 10, "keep_on_cancel": 1}}, 400, "settings.keep_on_cancel"),
    ("POST", "/v1/jobs", {**JOB, "name": "b", "shape": [1.5]}, 400, "shape"),
    ("POST", "/v1/jobs", {**JOB, "name": "b", "storage": "/srv"}, 400, "storage"),
    ("POST", "/v1/jobs", {**JOB, "name": "b", "storage": {"folder": "srv"}}, 400, "storage.folder"),
    ("POST", "/v1/jobs", {**JOB, "name": "b", "storage": {"folder": "/srv", "more": 1}}, 400, "storage.more"),
    ("PUT", "/v1/jobs/orders/storage", {"folder": "/srv", "suffix": 7}, 400, "suffix"),
    ("PUT", "/v1/jobs/none/storage", {"folder": "/srv"}, 404, None),
    ("POST", "/v1/jobs/none/calls", {"calls": [ACK]}, 404, None),
    ("POST", "/v1/jobs/orders/calls", {"calls": []}, 400, "calls"),
    ("POST", "/v1/jobs/orders/calls", {"calls": [ACK] * 1001}, 400, "calls"),
    ("POST", "/v1/jobs/orders/calls", {"calls": [ACK, {**ACK, "id": 2**53 + 1}]}, 400, "calls[1].id"),
    ("POST", "/v1/jobs/orders/calls", {"calls": [ACK, {**ACK, "fresh": ["1", "-2"]}]}, 400, "calls[1].fresh[1]"),
    ("POST", "/v1/jobs/orders/calls", {"calls": [{**ACK, "now": 5}]}, 400, "calls[0].now"),
    ("POST", "/v1/jobs/orders/calls", {"calls": [{"call": "take", "most": 5}]}, 400, "Idempotency-Key"),
    ("POST", "/v1/jobs/orders/calls", {"calls": [{"call": "savepoint"}]}, 400, "Idempotency-Key"),
    ("GET", "/v1/jobs/orders/log?after=x", None, 400, "after"),
    ("GET", "/v1/jobs/orders/log?limit=1001", None, 400, "limit"),
    ("GET", "/v1/jobs/orders/log?from=1", None, 400, "from"),
    ("GET", "/v1/jobs/orders/events?wait=61", None, 400, "wait"),
    ("GET", "/v1/jobs/orders/records/x", None, 400, "id"),
    ("GET", "/v1/jobs/orders/records/12", None, 404, None),
    ("GET", "/v1/jobs/orders/files/18446744073709551616", None, 400, "file"),
    ("GET", "/v1/jobs/none", None, 404, None),
    ("GET", "/v1/jobs/..%2F..%2Fetc", None, 400, "job"),
    ("GET", "/../../etc/passwd", None, 404, None),
    ("DELETE", "/v1/jobs/orders", None, 409, None),
    ("DELETE", "/v1/jobs/none", None, 404, None),
    ("DELETE", "/v1/jobs/orders?abandon=2", None, 400, "abandon"),
    ("DELETE", "/v1/jobs/orders/log", None, 405, None),
    ("GET", "/v1/jobs/orders/calls", None, 405, None),
]


def test_bad_requests_name_the_field_and_change_nothing():
    with served() as server:
        assert [server.request("POST", "/v1/jobs", JOB)[0] for _ in range(2)] == [201, 200]
        before = server.get("/v1/jobs")[2]["jobs"]
        for method, path, body, status, field in BAD:
            told = server.request(method, path, body)
            assert (told[0], told[2].get("field")) == (status, field), f"{method} {path} {body}: {told}"
            assert told[2]["error"], path
        assert server.request("POST", "/v1/jobs", JOB, headers=[("Content-Type", "text/plain")])[0] == 415
        assert server.request("GET", "/v1/jobs", headers=[("Host", "evil.example")])[0] == 403
        assert server.request("POST", "/v1/jobs/orders/calls", b"x" * (8 << 20) + b"x")[0] == 413
        assert [it["line"] for it in server.get("/v1/jobs/orders/log")[2]["calls"]] == ["fence 1"]
        assert [{**job, "now": 0} for job in before] == [{**job, "now": 0} for job in server.get("/v1/jobs")[2]["jobs"]]


def raw(server, request):
    """The answer's first bytes; none if the service waits for more of the request."""
    with socket.create_connection(("127.0.0.1", server.port), timeout=COMMAND) as it:
        it.sendall(request)
        it.settimeout(0.05)
        try:
            return it.recv(4096)
        except (socket.timeout, ConnectionResetError):
            return b""


def made_wrong(good, chance):
    """The request with some bytes changed, removed or added."""
    wrong = bytearray(good)
    for _ in range(chance.randint(1, 8)):
        at = chance.randrange(len(wrong))
        kind = chance.random()
        if kind < 0.5:
            wrong[at] = chance.randrange(256)
        elif kind < 0.75:
            del wrong[at : at + chance.randint(1, 40)]
        else:
            wrong[at:at] = bytes(chance.randrange(256) for _ in range(chance.randint(1, 40)))
    return wrong


def test_malformed_requests_by_the_thousand():
    chance = random.Random(7)
    body = b'{"calls":[{"call":"savepoint"}]}'
    good = b"POST /v1/jobs/orders/calls HTTP/1.1\r\nHost: localhost\r\nContent-Type: application/json\r\nIdempotency-Key: 7f3a\r\nContent-Length: %d\r\n\r\n%s" % (len(body), body)
    seen = {}
    with served() as server:
        server.request("POST", "/v1/jobs", JOB)

        def tell(request):
            answer = raw(server, request)
            assert answer == b"" or answer.startswith(b"HTTP/1.1 "), answer
            assert not answer.startswith(b"HTTP/1.1 5"), (request, answer)
            status = answer[9:12].decode() or "none"
            seen[status] = seen.get(status, 0) + 1
            return status

        until(lambda: tell(good) == "200")  # the request that is made wrong is a good one, and makes a call
        made = 0
        # a busy machine may answer few in time
        while made < 1000 or seen.get("400", 0) <= 100 and made < 20_000:
            tell(made_wrong(good, chance))
            made += 1
        assert server.get("/healthz")[0] == 200
        # Only this call was made, at most once for each request that was answered so or had no answer in time.
        log = server.get("/v1/jobs/orders/log?limit=1000")[2]["calls"]
        assert [entry["line"].split()[0] for entry in log] == ["fence"] + ["savepoint"] * (len(log) - 1), log
        assert 1 < len(log) <= 1 + seen["200"] + seen.get("none", 0), (len(log), seen)
        assert seen.get("400", 0) > 100, seen
        return f"{made} requests: {', '.join(f'{count} were answered {status}' for status, count in sorted(seen.items()))}"


def test_a_key_makes_calls_once():
    with served() as server:
        server.request("POST", "/v1/jobs", {**JOB, "settings": {"interval": 1000000}})
        path, key = "/v1/jobs/orders/calls", [("Idempotency-Key", "7f3a")]
        body = {"calls": [{"call": "savepoint"}]}
        first = server.request("POST", path, body, headers=key)
        assert first[2]["answers"] == [{"seq": 2, "savepoint": "triggered", "id": 1}], first
        assert server.request("POST", path, body, headers=key)[2] == first[2]
        server.again()
        assert server.request("POST", path, body, headers=key)[2] == first[2]
        other = server.request("POST", path, {"calls": [{"call": "savepoint"}, {"call": "tick"}]}, headers=key)
        assert (other[0], other[2]["field"]) == (422, "Idempotency-Key"), other
        again = server.request("POST", path, body, headers=[("Idempotency-Key", "7f3b")])
        assert again[2]["answers"][0]["id"] == 2
        for bad in ("", "x" * 256):
            told = server.request("POST", path, body, headers=[("Idempotency-Key", bad)])
            assert (told[0], told[2]["field"]) == (400, "Idempotency-Key"), told


def test_a_job_is_found_as_it_is():
    """After creation its settings and its shape are the operator's. An engine that gives others is told those of now."""
    with served_job("orders", {"interval": 60_000}, [2]) as (server, job):
        assert job.opened == ({**DEFAULTS, "interval": 60_000}, [2], False), job.opened
        job.set(interval=1000, timeout=8000)
        job.begin(shape=[4])
        for _ in range(2):
            for settings, shape, differ in (({"interval": 60_000}, [2], True), ({"interval": 1000, "timeout": 8000}, [4], False), ({"interval": 1000, "timeout": 8000}, [2], True)):
                found = Service(server.url).open("orders", settings, shape)
                assert found.opened == ({**DEFAULTS, "interval": 1000, "timeout": 8000}, [4], differ), found.opened
            server.again()


def test_a_job_that_a_recovery_makes_is_found_by_none():
    """Its settings are such that only the recovery has them."""
    with served() as server:
        service = Service(server.url)
        service.open("orders", MAKING, [2])
        status, _, told = server.request("POST", "/v1/jobs", {**JOB, "shape": [2]})
        assert status == 409 and told["field"] == "name" and "not whole" in told["error"], told
        assert service.open("orders", MAKING, [2]).opened.settings == MAKING
        service.job("orders").set(**{**DEFAULTS, "interval": 60_000})
        assert service.open("orders", {"interval": 60_000}, [2]).opened.settings_differ is False


FOLDER = {"folder": "/srv/orders", "prefix": "state-", "suffix": ".bin"}
BUCKET = {"bucket": "states", "prefix": "orders/s-", "suffix": "", "endpoint": "http://127.0.0.1:9", "region": "eu", "keeps_versions": True}


def told_where(service):
    """Opens jobs that say where their files are, and some that do not. Returns what is known then."""
    said = service.open("said", {"interval": 60_000}, [1], storage=FOLDER)
    assert said.storage == FOLDER
    later = service.open("later", {"interval": 60_000}, [1])
    assert later.storage is None and later.state()["storage"] is None
    assert later.open({"interval": 60_000}, [1], storage=BUCKET).storage == BUCKET
    moved = service.open("moved", {"interval": 60_000}, [1], storage=FOLDER)
    assert moved.set_storage(BUCKET)["storage"] == BUCKET
    # what an operator has said stays
    assert moved.open({"interval": 60_000}, [1], storage=FOLDER).storage == BUCKET
    service.open("none", {"interval": 60_000}, [1])
    short = service.open("short", {"interval": 60_000}, [1], storage={"folder": "/srv"})
    assert short.state()["storage"] == {"folder": "/srv", "prefix": "", "suffix": ""}
    return {job["name"]: job["storage"] for job in service.jobs()}


def test_a_job_says_where_its_files_are():
    with served() as server:
        service = Service(server.url)
        known = told_where(service)
        assert (known["said"], known["later"], known["moved"], known["none"]) == (FOLDER, BUCKET, BUCKET, None), known
        server.again()
        assert {job["name"]: job["storage"] for job in service.jobs()} == known
        service.job("said").call(cancel())
        assert service.job("said").set_storage(BUCKET)["storage"] == BUCKET  # for who deletes what is left
        assert service.delete("said") and service.open("said", {"interval": 60_000}, [1]).storage is None
        server.stop()
        sqlite(server.database, "update storage set text = '{' where job = 2")  # a row that can't be read takes no job along
        server.start()
        assert service.job("later").state()["storage"] is None and "a row of storage has" in server.log()


def over_a_take_over(service, _):
    """Where the generator waits another process takes over."""
    known = told_where(service)
    yield
    found = {job["name"]: job["storage"] for job in service.jobs()}
    assert {name: found[name] for name in known} == known, found


def test_refusals_and_large_files():
    first, second, largest = (str(2**62 - place) for place in (3, 2, 1))
    with served() as server:
        server.request("POST", "/v1/jobs", {**JOB, "shape": [2]})
        server.request("POST", "/v1/jobs/orders/advance", {"term": 1, "first_name": first})
        path, key = "/v1/jobs/orders/calls", [("Idempotency-Key", "a")]
        calls = [
            {"call": "reserve", "count": 3},
            {"call": "reserve", "count": 1},
            {"call": "savepoint"},
            {"call": "ack", "id": 1, "subtask": "0.0", "fresh": [largest]},
            {"call": "ack", "id": 1, "subtask": "0.0", "fresh": [first]},
            {"call": "ack", "id": 1, "subtask": "0.1", "fresh": [second, largest]},
            {"call": "ack", "id": 1, "subtask": "0.1", "fresh": [str(2**62)]},
            {"call": "ack", "term": 1, "id": 1, "subtask": "0.1"},
            {"call": "ack", "id": 1, "subtask": "0.1", "reused": ["9"]},
            {"call": "ack", "id": 2, "subtask": "0.1"},
            {"call": "ack", "id": 1, "subtask": "1.0"},
            {"call": "ack", "id": 1, "subtask": "0.1", "reused": [largest]},
            {"call": "deleted", "file": largest},
            {"call": "dispose", "id": 1},
            {"call": "take", "most": 8},
            {"call": "take", "most": 8},
            {"call": "deleted", "file": largest},
        ]
        told = server.request("POST", path, {"term": 2, "calls": calls}, headers=key)[2]["answers"]
        assert told == [
            {"seq": 3, "reserve": "reserved", "first": first, "count": 3},
            {"fenced": "NamesUsedUp"},
            {"seq": 4, "savepoint": "triggered", "id": 1},
            {"seq": 5, "ack": "pending", "missing": 1},
            {"refused": "AlreadyAcknowledged"},
            {"fenced": "Spent", "file": largest},
            {"fenced": "NeverReserved", "file": str(2**62)},
            {"fenced": "OldTerm"},
            {"refused": "FileGone", "file": "9"},
            {"refused": "UnknownCheckpoint"},
            {"refused": "UnknownSubtask"},
            {"seq": 6, "ack": "completed", "dropped": 0, "released": 0},
            {"refused": "NotTaken"},
            {"seq": 7, "dispose": "disposed", "released": 1},
            {"seq": 8, "files": [largest]},
            {"files": []},
            {"seq": 9, "deleted": largest},
        ], told
        log = server.get("/v1/jobs/orders/log?terms=1")[2]["calls"]
        check_log(server.get("/v1/jobs/orders")[2], [2], log)


def test_the_timer_triggers_and_expires():
    with served() as server:
        # the first is acknowledged within the timeout, also on a busy machine, which may be late by some seconds
        timeout, late = 1000 * lease_of(2), 10_000 * slowed()
        settings = {"interval": 100, "timeout": timeout, "tolerable": 1}
        server.request("POST", "/v1/jobs", {"name": "t", "settings": settings, "shape": [1]})
        first = until(lambda: server.get("/v1/jobs/t/events?after=0&wait=5")[2]["events"], 5)
        assert first[0]["event"] == "triggered" and first[0]["id"] == 1
        server.request("POST", "/v1/jobs/t/calls", {"term": 1, "calls": [{"call": "ack", "id": 1, "subtask": "0.0"}]})
        # nobody acknowledges 2 and 3: each expires, and the second failure is one too many
        state = until(lambda: (it := server.get("/v1/jobs/t")[2])["mode"] == "failed" and it)
        _, *log = server.get("/v1/jobs/t/log")[2]["calls"]
        texts = [entry["answer"] for entry in log]
        assert texts == [
            "tick expired 0 triggered 1", "ack completed 0 0", "tick expired 0 triggered 2", "tick expired 1 triggered 3", "tick expired 1 failed",
        ], texts
        times = [entry["at"] for entry in log]
        assert 100 <= times[0] - state["opened"] < late, (times, state)
        assert all(timeout <= after - before < timeout + late for before, after in zip(times[2:], times[3:])), times
        time.sleep(0.5)
        assert server.get("/v1/jobs/t")[2]["seq"] == 6, "a failed job is ticked"
        server.request("POST", "/v1/jobs/t/calls", {"calls": [{"call": "restore", "from": "latest"}]})
        until(lambda: server.get("/v1/jobs/t")[2]["seq"] >= 8, 5)


def test_a_slow_client():
    idle_seconds = lease_of(1)
    with served(f"[limits]\nidle_seconds = {idle_seconds}\nbody_seconds = 2\n") as server:
        until(lambda: server.request("POST", "/v1/jobs", JOB)[0] in (200, 201))
        head = b"POST /v1/jobs/orders/calls HTTP/1.1\r\nHost: localhost\r\nContent-Type: application/json\r\nContent-Length: 100\r\n\r\n"
        started = time.monotonic()
        with socket.create_connection(("127.0.0.1", server.port), timeout=COMMAND) as it:
            it.sendall(head)
            answer = b""
            while not answer and time.monotonic() < started + BUSY * 8:
                with contextlib.suppress(OSError):  # the answer is here, and the connection ends
                    it.sendall(b"{")
                it.settimeout(0.25)
                with contextlib.suppress(socket.timeout):
                    answer = it.recv(100)
            assert answer.startswith(b"HTTP/1.1 408"), answer
        with socket.create_connection(("127.0.0.1", server.port), timeout=COMMAND) as it:
            started = time.monotonic()
            it.sendall(b"GET /healthz HT")
            assert it.recv(100) == b""
            assert 0.5 < time.monotonic() - started < BUSY * 3 * idle_seconds
