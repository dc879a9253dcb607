"""What the service refuses when too much comes at once, and what it does not: bodies, answers, requests that wait, connections, one key twice. Memory is bounded
by bytes: bodies, parts of the log, and a start over calls that name thousands of files."""
import http.client
import json
import os
import socket

from harness import COMMAND, SETTINGS, Server, Service, at_once, beside, configured, folder, locked, lose_history, memory, served, served_job, until
from relkvanu_service import ack, savepoint
from test_limits import has_bodies, takes_all_room

PATH = "/v1/jobs/a/calls"
CALL = {"calls": [{"call": "savepoint"}]}
MEGABYTE = 1 << 20


def limited(**limits):
    """A service with these limits, and a job."""
    return served_job("a", SETTINGS, [1], config="[limits]\n" + "".join(f"{name} = {value}\n" for name, value in limits.items()))


def sent(server, *parts):
    """Sends a body in chunks. Returns the status, and what the answer says."""
    connection = http.client.HTTPConnection("127.0.0.1", server.port, timeout=COMMAND)
    connection.request("POST", PATH, iter(parts), {"Content-Type": "application/json"}, encode_chunked=True)
    told = connection.getresponse()
    text = told.read().decode()
    connection.close()
    assert told.status != 503 or told.getheader("retry-after") == "1", told.getheaders()
    return told.status, text


def test_bodies_in_chunks_take_room():
    """Bodies that do not tell their length take room as they come, and give it back. The limit is that of all chunks."""
    with limited(body_bytes=MEGABYTE, all_bodies_bytes=MEGABYTE) as (server, _):
        part = b" " * 700_000
        first = takes_all_room(server)
        status, said = sent(server, part)
        first.close()
        until(lambda: sent(server, part)[0] != 503)
        assert status == 503 and "the bodies of other requests take all room" in said, said
        assert sent(server, part, part)[0] == 413


def test_an_answer_larger_than_all_room():
    """It gets all of it."""
    with limited(all_answers_bytes=MEGABYTE) as (server, _):
        filled(server, 1)
        status, head, _ = server.get("/v1/jobs/large/records/2")
        assert status == 200 and int(head["content-length"]) > MEGABYTE, (status, head)
        return f"{int(head['content-length']) >> 10} KiB in a room of 1 MiB"


def unread(server, path):
    """A reader that has asked, has its answer begun, and reads nothing."""
    reader = socket.socket()
    reader.setsockopt(socket.SOL_SOCKET, socket.SO_RCVBUF, 1 << 12)
    reader.settimeout(COMMAND)
    reader.connect(("127.0.0.1", server.port))
    reader.sendall(f"GET {path} HTTP/1.1\r\nHost: localhost\r\n\r\n".encode())
    assert reader.recv(1, socket.MSG_PEEK)
    return reader


def test_other_large_answers_take_all_room():
    """While nobody reads a large answer, it keeps its room: another one is refused, a small one is given. When the reader has gone, it comes."""
    with limited(all_answers_bytes=MEGABYTE) as (server, _):
        filled(server, 1)
        path = "/v1/jobs/large/records/2"
        reader = unread(server, path)
        status, head, told = server.get(path)
        small = server.get("/v1/jobs/a")[0]
        reader.close()
        until(lambda: server.get(path)[0] == 200)
        assert (status, told) == (503, {"error": "other large answers take all room"}) and head["retry-after"] == "1", (status, head, told)
        assert small == 200, small


def test_more_requests_than_may_wait():
    """While the database takes no commit one request is with the writer, as many wait as the queue takes, and the next is refused. Those that waited are
    answered."""
    with limited(queue=3) as (server, _):
        statuses = []

        def ask(key):
            told = server.request("POST", PATH, CALL, headers=[("Idempotency-Key", str(key))])
            statuses.append(told[0])
            return told[2]

        with locked(server.database):
            threads = [beside(ask, 0)]
            # the writer has it. The look that finds that is in the queue from then on, and a question of the history may be, which asks every two seconds
            until(lambda: server.metric("relkvanu_commit_under_way_seconds"))
            threads += [beside(ask, key) for key in range(1, 8)]
            until(lambda: 503 in statuses)
            said = ask("last")
        for it in threads:
            it.join()
        refused = statuses.count(503)
        assert sorted(statuses) == [200] * (9 - refused) + [503] * refused and 5 <= refused <= 7, statuses
        assert said == {"error": "too many requests wait"}, said
        return f"{refused} of 9 requests were refused beside a queue of 3"


def test_connections_leave_room_for_files():
    """Of 600 open files 472 are for connections: half of them of clients, a quarter new ones."""
    with folder() as at:
        limits = configured(at, "[limits]\nconnections = 2000\nnew_connections = 2000\n")
        server = Server(at, prefix=["prlimit", "--nofile=600:600"], args=limits).start()
        server.stop()
        assert "allows 236 connections, 118 that wait for events and 118 new ones" in server.log(), server.log()[-400:]


def test_one_key_twice_at_once():
    """The calls of two requests with one key that come in one round are made once, and both get the answer."""
    with served_job("a", SETTINGS, [1], 0) as (server, job):
        told = []

        def ask(key):
            told.append((key, server.request("POST", PATH, CALL, headers=[("Idempotency-Key", key)])))

        with locked(server.database):
            threads = [beside(ask, "first")]
            # the writer has it
            until(lambda: server.metric("relkvanu_commit_under_way_seconds"))
            threads += [beside(ask, "same") for _ in range(2)]
            # and the others are there
            until(lambda: has_bodies(server, len(threads) * len(json.dumps(CALL))))
        for it in threads:
            it.join()
        same = [it for key, it in told if key == "same"]
        assert [it[0] for it in same] == [200, 200] and same[0][2] == same[1][2], told
        assert server.process.poll() is None and job.state()["seq"] == 3, job.state()


FILES, SUBTASKS, ROUNDS = 4096, 32, 4
BODY = 2 << 20
LARGE = {"name": "large", "settings": {"interval": 1 << 40}, "shape": [SUBTASKS]}
OF_LARGE = "/v1/jobs/large/calls"


def kept_peak(server, work):
    """How much the highest memory of the process rose by some work, in MiB."""
    with open(f"/proc/{server.process.pid}/clear_refs", "w", encoding="utf-8") as it:
        it.write("5")  # the highest is the present from now on
    before = memory(server)
    work()
    return (memory(server, "VmHWM") - before) / 1024


def body_of(item):
    count = (BODY - 100) // (len(item) + 1)
    return '{"calls":[' + ",".join([item] * count) + "]}"


def test_a_body_takes_little_more_than_its_bytes():
    depth = 120
    bodies = {
        "nested": body_of('{"":' * depth + "0" + "}" * depth),
        "flat": body_of('{"":0}'),
        "numbers": body_of("0"),
        "fields": '{"calls":[{' + ",".join(f'"{place}":0' for place in range(BODY // 11)) + "}]}",
        "files": '{"calls":[{"call":"ack","id":1,"subtask":"0.0","fresh":[' + ",".join(['"1"'] * (BODY // 5)) + "]}]}",
    }
    told = []
    with served() as server:
        server.request("POST", "/v1/jobs", LARGE)
        for name, body in bodies.items():
            statuses = []
            rose = kept_peak(server, lambda body=body, statuses=statuses: statuses.append(server.request("POST", OF_LARGE, body)))
            status, _, answer = statuses[0]
            # the list of files is one: the coordinator refuses it
            assert status == 400 or name == "files", (name, status, str(answer)[:200])
            assert len(json.dumps(answer)) < 1000, str(answer)[:300]
            assert rose < 16, f"{name}: {len(body) >> 20} MiB take {rose:.0f} MiB"
            told.append(f"{name} {rose:.0f}")
        return f"MiB for a body of 2 MiB: {', '.join(told)}"


def filled(server, rounds=ROUNDS):
    """A log of calls that name thousands of files each."""
    job = Service(server.url).open("large", LARGE["settings"], LARGE["shape"], 0)
    job.advance(1, (1 << 62) - FILES)
    files = list(job.reserve(FILES))
    job.calls([savepoint(), ack(1, "0.0", files), *(ack(1, f"0.{place}") for place in range(1, SUBTASKS))])
    for number in range(2, rounds + 2):
        calls = [savepoint(), *(ack(number, f"0.{place}", reused=files) for place in range(SUBTASKS))]
        for part in calls[: SUBTASKS // 2], calls[SUBTASKS // 2 :]:
            told = job.calls(part)
            assert all("seq" in answer for answer in told), str(told)[:300]
    return job.state()["seq"]


def test_a_start_over_large_calls():
    with served(args=["--image-calls", "0"]) as server:
        seq = filled(server)
        until(lambda: server.get("/v1/jobs/large/records")[2]["upto"] == seq, 60)
        live = memory(server) / 1024
        size = sum(os.path.getsize(server.database + end) for end in ("", "-wal") if os.path.exists(server.database + end)) / (1 << 20)
        lose_history(server)
        peak = memory(server, "VmHWM") / 1024
        until(lambda: server.get("/v1/jobs/large/records")[2]["upto"] == seq, 60)
        later = memory(server, "VmHWM") / 1024
        got, after, pages, largest = [], 0, 0, 0
        while calls := server.get(f"/v1/jobs/large/log?after={after}&limit=1000")[2]["calls"]:
            got += [(call["seq"], len(call["line"])) for call in calls]
            largest = max(largest, len(json.dumps(calls)))
            after, pages = calls[-1]["seq"], pages + 1
        assert [place for place, _ in got] == list(range(1, seq + 1)) and pages > 5, (len(got), pages)
        assert largest < 3 << 20, largest
        rose = kept_peak(server, lambda: at_once(server.get, ["/v1/jobs/large/log?after=69&limit=1000"] * 16))
        assert peak < 45 and later < 45 and rose < 40, (size, live, peak, later, rose)
        return f"a log of {size:.0f} MiB: the start took {peak:.0f} MiB, with the history {later:.0f}, 16 readers {rose:.0f} more; {pages} parts of {largest >> 10} KiB at most"
