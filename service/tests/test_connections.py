"""Connections of one kind keep out none of another: many long polls, connections without a token, and slow readers."""
import http.client
import json
import os
import resource
import socket
import time

from harness import COMMAND, lease_of, memory, served, served_job, until
from relkvanu_service import ack, savepoint
from test_api import JOB

POLLS, WOKEN = 1500, 400
SOON = 40  # seconds: much less than a poll waits


def opened(server, text):
    it = socket.create_connection(("127.0.0.1", server.port), timeout=COMMAND)
    it.sendall(text.encode())
    return it


def poll(after, wait=60, token=""):
    header = f"Authorization: Bearer {token}\r\n" if token else ""
    return f"GET /v1/jobs/orders/events?after={after}&wait={wait} HTTP/1.1\r\nHost: localhost\r\n{header}\r\n"


def answer(connection):
    """The status and the body of the next answer on a connection."""
    it = http.client.HTTPResponse(connection)
    it.begin()
    text = it.read()
    return it.status, json.loads(text) if text.startswith(b"{") else text


def within(seconds, ask):
    started = time.monotonic()
    told = ask()
    took = time.monotonic() - started
    assert took < seconds, f"{told} after {took:.1f} s"
    return told


def many_files():
    """This process may have the connections of all polls."""
    soft, hard = resource.getrlimit(resource.RLIMIT_NOFILE)
    resource.setrlimit(resource.RLIMIT_NOFILE, (min(hard, 65536) if soft < 65536 else soft, hard))


def test_polls_keep_nobody_out_and_cost_little(polls=int(os.environ.get("RELKVANU_POLLS", POLLS))):
    many_files()
    with served("[limits]\nconnections = 16\n") as server:
        server.request("POST", "/v1/jobs", JOB)
        calls = {"calls": [{"call": "tick"}]}
        before, threads = memory(server), memory(server, "Threads")
        held = [opened(server, poll(1000)) for _ in range(polls - WOKEN)]
        woken = [opened(server, poll(0)) for _ in range(WOKEN)]
        until(lambda: f"relkvanu_http_connections {polls + 1}" in server.get("/metrics")[2], 30)
        each = (memory(server) - before) / polls
        assert each < 24, f"a poll takes {each:.0f} KiB"
        assert memory(server, "Threads") <= threads + 4, memory(server, "Threads")
        for path in "/healthz", "/readyz":
            assert within(SOON, lambda path=path: server.get(path)[0]) == 200, path
        assert within(SOON, lambda: server.request("POST", "/v1/jobs/orders/calls", calls)[0]) == 200
        key = [("Idempotency-Key", "a")]
        assert within(SOON, lambda: server.request("POST", "/v1/jobs/orders/calls", {"calls": [{"call": "savepoint"}]}, headers=key)[0]) == 200
        # the event wakes those that wait for the next one
        most = 0
        for place, it in enumerate(woken):
            status, told = within(SOON, lambda it=it: answer(it))
            assert status == 200 and told["events"][0]["event"] == "triggered", told
            most = max(most, memory(server, "Threads")) if place % 20 == 0 else most
        assert most <= threads + 4, f"{most} threads"
        # a connection that polled keeps its place for the next poll
        woken[0].sendall(poll(0).encode())
        assert answer(woken[0])[0] == 200
        for it in held + woken:
            it.close()
        return f"{polls} polls beside 16 places of calls: {each:.1f} KiB each, {memory(server, 'Threads')} threads"


def test_connections_without_a_token_keep_nobody_out():
    token = "0123456789abcdef0123"
    with served("[limits]\nconnections = 30\nnew_connections = 20\n", tokens=[f"write {token}"]) as server:
        assert server.request("POST", "/v1/jobs", JOB, token)[0] == 201
        head = "GET {} HTTP/1.1\r\nHost: localhost\r\n\r\n"
        silent = [opened(server, "") for _ in range(100)]
        checks = [opened(server, head.format("/healthz")) for _ in range(100)]
        refused = [opened(server, head.format("/v1/jobs")) for _ in range(100)]
        slow = [opened(server, "GET /healthz HT") for _ in range(100)]
        waiting = [opened(server, poll(0, token=token)) for _ in range(5)]
        for _ in range(3):
            assert within(SOON, lambda: server.get("/healthz")[0]) == 200
            assert within(SOON, lambda: server.get("/v1/jobs", token)[0]) == 200
            assert within(SOON, lambda: server.request("POST", "/v1/jobs/orders/calls", {"calls": [{"call": "tick"}]}, token)[0]) == 200
        # none of them took the place of one with a token
        key = [("Idempotency-Key", "a")]
        assert server.request("POST", "/v1/jobs/orders/calls", {"calls": [{"call": "savepoint"}]}, token, key)[0] == 200
        assert [answer(it)[0] for it in waiting] == [200] * 5
        for it in [*silent, *checks, *refused, *slow, *waiting]:
            it.close()
        assert server.stop() == 0


def test_a_slow_reader_gets_its_whole_answer():
    idle = lease_of(2)
    slowly = idle + 3
    with served_job("orders", JOB["settings"], [64], 0, config=f"[limits]\nidle_seconds = {idle}\n") as (server, job):
        job.advance(1, (1 << 62) - 3000)
        files = list(job.reserve(3000))
        job.calls([savepoint(), ack(1, "0.0", files), *(ack(1, f"0.{place}") for place in range(1, 64)), savepoint()])
        job.calls([ack(2, f"0.{place}", reused=files) for place in range(63)])
        it = socket.socket()
        it.setsockopt(socket.SOL_SOCKET, socket.SO_RCVBUF, 1 << 14)
        it.connect(("127.0.0.1", server.port))
        it.sendall(b"GET /v1/jobs/orders/log?after=69&limit=1000 HTTP/1.1\r\nHost: localhost\r\nConnection: close\r\n\r\n")
        got, started = b"", time.monotonic()
        while part := it.recv(1 << 16):
            got += part
            # slowly at first: the answer takes longer than a connection may be idle
            time.sleep(0.025 * idle if time.monotonic() - started < slowly else 0)
        took = time.monotonic() - started
        head, body = got.split(b"\r\n\r\n", 1)
        length = int(head.lower().split(b"content-length: ")[1].split(b"\r\n")[0])
        assert len(body) == length > 1_000_000 and json.loads(body)["calls"][0]["seq"] == 70, (len(body), length)
        assert took > idle, took
        return f"{length} bytes in {took:.1f} s, with idle_seconds = {idle}"
