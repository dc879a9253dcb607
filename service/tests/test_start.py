"""How the service starts: with what it may not, and over logs that were changed. How it stops: every call that is committed has its answer, and what waits
ends at once."""
import http.client
import json
import pathlib
import socket
import subprocess
import threading
import time

from harness import ACK_COMPLETED, COMMAND, PROGRAM, SETTINGS, Server, folder, raised, save, served, served_job, slowed, sqlite, until
from relkvanu_service import ack, savepoint
from test_api import JOB
from test_connections import answer, opened, poll


def refused(args, status, text, **given):
    """Returns what a start says that ends so."""
    told = subprocess.run([PROGRAM, "serve", *args], stderr=subprocess.PIPE, stdout=subprocess.PIPE, text=True, timeout=COMMAND, check=False, **given)
    assert told.returncode == status and text in told.stderr, (args, told)
    return told.stderr


def test_bad_configurations_are_named():
    with folder() as at:
        def file(name, text):
            save(f"{at}/{name}", text)
            return f"{at}/{name}"

        database = ["--database", f"{at}/x.db"]
        refused([*database, "--listen", "0.0.0.0:0"], 78, "token_file")
        refused([*database, "--listen", "here"], 78, "listen")
        refused(["--image-calls", "1000000001"], 78, "image_calls: ")
        refused(["--keep-calls", "1000000000001"], 78, "keep_calls: ")
        refused(["--config", file("a", "listn = 'x'")], 78, "listn")
        refused(["--config", file("b", "[limits]\ncalls = 0")], 78, "limits.calls")
        refused(["--config", f"{at}/none"], 78, "none")
        refused([*database, "--listen", "127.0.0.1:0", "--token-file", file("c", "read short")], 78, "line 1")
        refused(["--database", f"{at}/no/x.db", "--listen", "127.0.0.1:0"], 75, "no/x.db")
        told = subprocess.run([PROGRAM, "--version"], stdout=subprocess.PIPE, text=True, check=True)
        assert told.stdout.startswith("relkvanu "), told


# What is done to the rows of a log, and what a start over it says. `seq` is the first call that has completed a record, and answered `a` and `b`.
DAMAGES = [
    ("update call set a = 7, b = 7 where seq = {seq}", 'job orders, call {seq} '),
    ("update call set a = 7, b = 7 where seq = {seq}", 'the log says "ack completed 7 7", and this program answers "ack completed {a} {b}"'),
    ("update call set what = 200, a = 7, b = 7 where seq = {seq}", 'the log says "unknown 200 7 7"'),
    ("update job set config = 'config 1 2'", 'a row of job has Text("config 1 2") in column 3'),
    ("update job set shape = '1 x'", 'a row of job has Text("1 x") in column 4'),
    ("update call set line = cast(x'ff' as text) where seq = 1", "the log can't be read: "),
]


def test_a_log_that_is_damaged_stops_the_start():
    """If the service has no other job: test_damaged.py has those with others. Each is another damage of the same file."""
    with served_job("orders", SETTINGS, [1], 0) as (server, job):
        job.calls([savepoint(), ack(1, "0.0")])
        server.stop()
        args = ["--database", server.database, "--listen", "127.0.0.1:0"]
        seq, a, b = sqlite(server.database, "select seq, a, b from call where what = ? order by seq limit 1", ACK_COMPLETED)[0]
        whole = pathlib.Path(server.database).read_bytes()
        for damage, said in DAMAGES:
            sqlite(server.database, damage.format(seq=seq))
            refused(args, 78, said.format(seq=seq, a=a, b=b))
            for end in ("-wal", "-shm"):
                pathlib.Path(server.database + end).unlink(missing_ok=True)
            pathlib.Path(server.database).write_bytes(whole)
        server.start()
        server.stop()
        with open(server.database, "r+b") as it:
            it.write(b"no database " * 100)
        refused(args, 78, "file is not a database")


def test_an_end_runs_no_finalizers():
    """Those of C libraries: another thread may be connecting to PostgreSQL, and Kerberos aborts if it is finalized meanwhile."""
    with folder() as at:
        save(f"{at}/finalizer.c", "#include <stdlib.h>\n__attribute__((destructor)) static void finalize(void) { abort(); }\n")
        subprocess.run(["cc", "-shared", "-fPIC", "-o", f"{at}/finalizer.so", f"{at}/finalizer.c"], check=True)
        loaded = ["env", f"LD_PRELOAD={at}/finalizer.so"]
        told = subprocess.run([*loaded, PROGRAM, "--version"], stdout=subprocess.DEVNULL, check=False)
        assert told.returncode == -6, told
        for status, words in (75, ["--database", f"{at}/no/x.db"]), (78, ["--database", f"{at}/x.db", "--token-file", f"{at}/none"]):
            words = [*loaded, PROGRAM, "serve", "--listen", "127.0.0.1:0", *words]
            told = subprocess.run(words, stderr=subprocess.DEVNULL, timeout=COMMAND, check=False)
            assert told.returncode == status, told
        server = Server(at, prefix=loaded).start()
        assert server.stop() == 0


CONNECTIONS = 48


class Caller(threading.Thread):
    """Ticks a job of its own, without a key, until the service stops."""

    def __init__(self, server, name):
        super().__init__(daemon=True)
        self.server, self.name, self.answered, self.refused = server, name, 0, None

    def run(self):
        it = http.client.HTTPConnection("127.0.0.1", self.server.port, timeout=COMMAND)
        try:
            while self.refused is None:
                it.request("POST", f"/v1/jobs/{self.name}/calls", '{"calls":[{"call":"tick"}]}', {"Content-Type": "application/json"})
                told = it.getresponse()
                body = json.loads(told.read())
                if told.status == 200:
                    self.answered = body["answers"][0]["seq"]
                else:
                    self.refused = told.status
        except (OSError, http.client.HTTPException):
            pass


def test_each_committed_call_has_its_answer():
    made = 0
    with folder() as at:
        server = Server(at)
        for _ in range(3):
            server.start()
            callers = [Caller(server, f"j{number}") for number in range(CONNECTIONS)]
            for it in callers:
                server.request("POST", "/v1/jobs", {"name": it.name, "settings": {"interval": 1 << 40}, "shape": [1]})
            was = {it.name: server.get(f"/v1/jobs/{it.name}")[2]["seq"] for it in callers}
            for it in callers:
                it.start()
            time.sleep(0.5)
            # each of them is at work
            until(lambda: all(it.answered > was[it.name] + 1 or not it.is_alive() for it in callers))
            assert server.stop() == 0
            for it in callers:
                it.join()
            server.start()
            for it in callers:
                seq = server.get(f"/v1/jobs/{it.name}")[2]["seq"]
                assert seq == max(it.answered, was[it.name]), f"{it.name}: {seq} calls are committed, and {it.answered} were answered"
                made += seq - was[it.name]
            assert not any(it.refused not in (None, 503) for it in callers)
            server.stop()
    assert made > 3 * CONNECTIONS, made
    return f"3 stops among {CONNECTIONS} connections: each of {made} calls was answered"


def is_read(server, connection):
    """Whether the service has read all that was sent to it on a connection: nothing is left in the queues of the system, at either end."""
    here, there = (f":{port:04X}" for port in (connection.getsockname()[1], server.port))
    with open("/proc/net/tcp", encoding="utf-8") as it:
        rows = [line.split() for line in it][1:]
    # what is not sent yet, and what is not read
    queues = {(row[1][-5:], row[2][-5:]): row[4].split(":") for row in rows}
    return (here, there) in queues and (there, here) in queues and queues[here, there][0] == queues[there, here][1] == "00000000"


def test_a_stop_ends_polls_and_slow_bodies():
    with served() as server:
        server.request("POST", "/v1/jobs", JOB)
        head = "POST /v1/jobs/orders/calls HTTP/1.1\r\nHost: localhost\r\nContent-Type: application/json\r\nContent-Length: 100\r\n\r\n{"
        waits, slow, idle, silent = (opened(server, text) for text in (poll(0), head, "GET /healthz HTTP/1.1\r\nHost: localhost\r\n\r\n", ""))
        assert answer(idle)[0] == 200
        # a connection without a request ends at a stop, so these are to be read before it
        until(lambda: is_read(server, waits) and is_read(server, slow))
        started = time.monotonic()
        server.process.terminate()
        status, told = answer(waits)
        polled = time.monotonic() - started
        # at once: it waits for answers for 12 s
        assert status == 200 and told["events"] == [] and polled < 10 * slowed(), (status, told, polled)
        assert idle.recv(10) == b"" and silent.recv(10) == b""
        raised(ConnectionRefusedError, lambda: socket.create_connection(("127.0.0.1", server.port), timeout=COMMAND).close())
        assert answer(slow)[0] == 503
        assert server.ended() == 0
        took = time.monotonic() - started
        assert took < 18 * slowed(), took  # 12 s for answers, and 6 s for the last commit
        return f"a poll was answered after {polled:.2f} s, a body that did not come was refused, and the end came after {took:.1f} s"
