"""No token, no slow sender, no refused body and no deletion holds up others; and what metrics say of commits, jobs and files. test_bounds.py has the limits."""
import contextlib
import glob
import http.client
import re
import select
import socket
import time

from harness import COMMAND, SETTINGS, beside, caught_up, content, lease_of, locked, processor_times, served, served_job, slowed, sqlite, until
from relkvanu_service import Service, ack, cancel, deleted, dispose, restore, savepoint, undeleted
from test_api import JOB

TICK = {"calls": [{"call": "tick"}]}
TOKENS = {"a": "a" * 20, "b": "b" * 20}
READER = "r" * 20
MIB = 1 << 20


@contextlib.contextmanager
def two_teams(limits):
    """A service with a token for each of two jobs."""
    tokens = [f"write {token} jobs={job} name=team-{job}" for job, token in TOKENS.items()]
    with served(f"[limits]\n{limits}", tokens=[*tokens, f"read {READER}"]) as server:
        for job, token in TOKENS.items():
            assert server.request("POST", "/v1/jobs", {**JOB, "name": job}, token)[0] == 201
        yield server


def begun(server, job, length, sent):
    """A request of a team whose body has this length, and of which so much was sent."""
    it = socket.create_connection(("127.0.0.1", server.port), timeout=COMMAND)
    head = f"POST /v1/jobs/{job}/calls HTTP/1.1\r\nHost: localhost\r\nAuthorization: Bearer {TOKENS[job]}\r\n"
    it.sendall(f"{head}Content-Type: application/json\r\nContent-Length: {length}\r\n\r\n".encode() + b" " * sent)
    return it


def status_of(connection):
    answer = http.client.HTTPResponse(connection)
    answer.begin()
    return answer.status, answer.read()


def has_bodies(server, taken, token=None):
    """Whether bodies take so many bytes of their room."""
    return f"relkvanu_http_body_bytes {taken}\n" in server.get("/metrics", token)[2]


def test_announced_bodies_take_no_room():
    """Connections that announce large bodies and send a byte: others make their calls."""
    with two_teams(f"body_bytes = {MIB}\nall_bodies_bytes = {4 * MIB}") as server:
        slow = [begun(server, "a", MIB, 1) for _ in range(20)]
        until(lambda: "relkvanu_http_connections 21" in server.get("/metrics", READER)[2])
        told = [server.request("POST", f"/v1/jobs/{job}/calls", TICK, token)[0] for job, token in TOKENS.items() for _ in range(20)]
        for it in slow:
            it.close()
        assert told == [200] * 40, told


def test_a_token_takes_a_part_of_the_room():
    """One team fills its part by bodies that never end. Another one goes on, with a body of the greatest length too."""
    with two_teams(f"body_bytes = {MIB}\nall_bodies_bytes = {8 * MIB}\nbody_seconds = 3600") as server:
        slow = []
        # four find room, one after another, and wait for their last byte
        for bodies in range(1, 5):
            slow.append(begun(server, "a", MIB, MIB - 1))
            until(lambda: has_bodies(server, bodies * (MIB - 1), READER))
        late = [begun(server, "a", MIB, MIB - 1) for _ in range(6)]
        refused = [status_of(it)[0] for it in late]
        large = begun(server, "b", MIB, MIB - len(b'{"calls":[]}'))
        large.sendall(b'{"calls":[]}')
        whole, small = status_of(large)[0], server.request("POST", "/v1/jobs/b/calls", TICK, TOKENS["b"])[0]
        for it in slow + late:
            it.close()
        # the room is free again
        until(lambda: server.request("POST", "/v1/jobs/a/calls", TICK, TOKENS["a"])[0] == 200)
        assert refused == [503] * 6, refused
        assert whole in (200, 400) and small == 200, (whole, small)


def chunked(part):
    return b"%x\r\n%s\r\n" % (len(part), part)


def begun_without_a_length(server, part, path="/v1/jobs/a/calls", kind="application/json"):
    """A request of which the first part of the body was sent."""
    it = socket.create_connection(("127.0.0.1", server.port), timeout=COMMAND)
    head = f"POST {path} HTTP/1.1\r\nHost: localhost\r\nContent-Type: {kind}\r\nTransfer-Encoding: chunked\r\n\r\n"
    it.sendall(head.encode() + chunked(part))
    return it


def ends_after(connection):
    """Waits until the service has said all on a connection, and has told that it sends nothing more."""
    wait = select.poll()
    wait.register(connection, select.POLLRDHUP)
    assert wait.poll(COMMAND * 1000), "the service does not end the connection"


def takes_all_room(server):
    """A request whose body has come to the last bytes of a room of 1 MiB, and was read."""
    connection = begun_without_a_length(server, b" " * (MIB - 10))
    until(lambda: has_bodies(server, MIB - 10))
    return connection


def test_a_refusal_reaches_a_client_that_still_sends():
    """Its body is read on after the answer, so its system does not drop that: whoever sends the whole body first reads then why it was refused."""
    with served(f"[limits]\nbody_bytes = {MIB}\nall_bodies_bytes = {MIB}\nidle_seconds = 600\n") as server:
        Service(server.url).open("a", SETTINGS, [1])
        part, slowly = b" " * 300_000, b" " * 3000
        first = takes_all_room(server)
        late = {503: begun_without_a_length(server, part)}
        ends_after(late[503])
        first.close()
        until(lambda: server.request("POST", "/v1/jobs/a/calls", TICK)[0] == 200)
        late |= {
            413: begun_without_a_length(server, b" " * (MIB + 1)), 404: begun_without_a_length(server, part, "/v1/jobs/b/calls"),
            415: begun_without_a_length(server, part, kind="text/plain"),
        }
        for it in late.values():
            ends_after(it)
        # each part comes when the service has long ended an answer that nobody waits for
        for _ in range(5):
            for it in late.values():
                it.sendall(chunked(part) + chunked(slowly))
            server.get("/healthz")
        told = {}
        for status, it in late.items():
            it.sendall(b"0\r\n\r\n")
            told[status] = status_of(it)[0]
            assert it.recv(1) == b""
        assert told == {status: status for status in late}, told
        for it in late.values():
            it.close()
        until(lambda: "relkvanu_http_connections 1\n" in server.get("/metrics")[2])
        assert server.stop() == 0


def test_a_client_that_sends_on_is_left():
    """After its last answer, once it has sent four of the greatest bodies or nothing was said for so long; and at once when the service stops."""
    idle = lease_of(2)  # in which a client sends four bodies, on a busy machine too
    with served(f"[limits]\nbody_bytes = {MIB}\nall_bodies_bytes = {MIB}\nidle_seconds = {idle}\n") as server:
        silent, loud = (begun_without_a_length(server, b" ", kind="text/plain") for _ in range(2))
        ends_after(silent)
        ends_after(loud)
        sent = 0
        try:
            while sent < 64 * MIB:
                loud.sendall(chunked(b" " * 65536))
                sent += 65536
        except OSError:
            pass
        assert 3 * MIB < sent < 64 * MIB, sent
        until(lambda: "relkvanu_http_connections 1\n" in server.get("/metrics")[2])
        waits = [begun_without_a_length(server, b" ", kind="text/plain") for _ in range(3)]
        for it in waits:
            ends_after(it)
        assert server.stop() == 0, server.log()[-600:]
        for it in [silent, loud, *waits]:
            it.close()
        return f"after {sent / MIB:.0f} MiB, after {idle} s, and at a stop"


def writer_seconds(server):
    """The processor's time of the writer's thread."""
    threads = glob.glob(f"/proc/{server.process.pid}/task/*")
    return sum(processor_times(next(it for it in threads if content(f"{it}/comm") == "writer\n")))


def test_a_deletion_looks_at_no_other_job():
    """The writer's time for deletions beside many jobs: it would be many seconds if each looked at the metrics of all jobs."""
    jobs, gone = 400, 40
    with served() as server:
        service = Service(server.url)
        for number in range(jobs + gone):
            service.open(f"j{number}", SETTINGS, [1]).call(savepoint())
        for number in range(gone):
            service.job(f"j{number}").call(cancel())
        assert f'relkvanu_calls_total{{call="cancel",job_name="j{gone - 1}",outcome="made"}} 1' in server.get("/metrics")[2]
        before = writer_seconds(server)
        for number in range(gone):
            service.delete(f"j{number}")
        took = writer_seconds(server) - before
        left = re.findall(rf'job_name="j{gone - 1}"', server.get("/metrics")[2])
        assert took < 0.02 * gone and not left, (took, left)
        return f"{took / gone * 1000:.1f} ms of the processor for a deletion beside {jobs} jobs"


def test_lists_of_many_jobs_come_in_pieces():
    """The writer reads a part of the jobs at a time. The list has each once, in the order of their numbers."""
    jobs = 1100
    with served() as server:
        for number in range(jobs):
            assert server.request("POST", "/v1/jobs", {"name": f"j{number}", "settings": SETTINGS, "shape": [1]})[0] == 201
        told = [job["name"] for job in Service(server.url).jobs()]
        assert told == [f"j{number}" for number in range(jobs)], told[:5]
        # the metrics wait a second for the writer, and a busy machine may take longer for all jobs
        until(lambda: len(re.findall(r"^relkvanu_mode\{", server.get("/metrics")[2], re.M)) == jobs)
        assert len(server.get("/v1/view")[2]["jobs"]) == jobs


def test_a_commit_is_measured():
    """How many commits there were and of how many calls, and that the time of a slow one shows."""
    with served_job("a", SETTINGS, [1]) as (server, job):
        before = {name: server.metric(name) for name in MEASURED}
        for _ in range(3):
            job.call(savepoint())
        job.calls([savepoint()] * 2)
        with locked(server.database):
            thread = beside(lambda: job.call(savepoint()))
            until(lambda: server.metric("relkvanu_commit_under_way_seconds") > 0.5)
        thread.join()
        more = {name: server.metric(name) - before[name] for name in MEASURED}
        assert more["relkvanu_commit_seconds_count"] == more["relkvanu_commit_calls_count"] == 5, more
        assert more["relkvanu_commit_calls_sum"] == 6, more
        assert 0.5 < more["relkvanu_commit_seconds_sum"] < 60 * slowed(), more
        assert server.metric("relkvanu_commit_under_way_seconds") == 0
        return f"5 commits of 6 calls in {more['relkvanu_commit_seconds_sum']:.2f} s"


MEASURED = [f"relkvanu_commit_{of}_{what}" for of in ("seconds", "calls") for what in ("count", "sum")]


def test_moments_are_those_of_what_happened():
    """When a job was opened, and when its last image was made."""
    with served(args=["--image-calls", "5"]) as server:
        began = time.time()
        job = Service(server.url).open("a", SETTINGS, [1])
        opened = job.state()["opened"] / 1000
        assert server.metric('relkvanu_job_opened_timestamp_seconds{job_name="a"}') == opened and abs(opened - began) < 30 * slowed()
        assert server.metric('relkvanu_image_timestamp_seconds{job_name="a"}') == opened
        for _ in range(6):
            time.sleep(0.01)
            job.call({"call": "tick"})
        until(lambda: server.metric('relkvanu_image_bytes{job_name="a"}') > 0)
        at_image = sqlite(server.database, "select max(at) from image")[0][0] / 1000
        told = server.metric('relkvanu_image_timestamp_seconds{job_name="a"}')
        assert told == at_image > opened, (told, at_image, opened)


def test_the_age_of_the_oldest_file():
    """Of files that wait, and of those that were taken: since the call that released or took the oldest one."""
    ages = {state: f'relkvanu_oldest_file_age_seconds{{job_name="a",state="{state}"}}' for state in ("waiting", "taken")}
    with served_job("a", SETTINGS, [1]) as (server, job):
        until(lambda: ages["taken"] in server.get("/metrics")[2])
        assert server.metric(ages["waiting"]) == server.metric(ages["taken"]) == 0
        released = time.time()
        job.calls([savepoint(), ack(1, "0.0", [1, 2, 3]), dispose(1)])
        until(lambda: server.metric(ages["waiting"]) >= 2)
        assert server.metric(ages["waiting"]) <= time.time() - released + 2 and server.metric(ages["taken"]) == 0
        files = job.take(1)
        until(lambda: 0 < server.metric(ages["taken"]) < server.metric(ages["waiting"]))
        # one that could not be deleted waits again, since it was released
        job.calls([undeleted(files[0])])
        until(lambda: server.metric(ages["taken"]) == 0)
        assert server.metric(ages["waiting"]) >= 2
        job.calls([deleted(file) for file in job.take(9)])
        until(lambda: server.metric(ages["waiting"]) == 0)


def test_since_when_a_job_is_served_and_was_restored():
    with served_job("a", SETTINGS, [1]) as (server, job):
        opened = job.state()["opened"] / 1000
        names = [f'{name}{{job_name="a"}}' for name in ("relkvanu_last_restored_timestamp_seconds", "relkvanu_served_since_timestamp_seconds")]
        assert server.metric(names[0]) == opened and abs(server.metric(names[1]) - opened) < 30
        job.call(restore())
        restored = job.state()["now"] / 1000
        assert opened < server.metric(names[0]) <= restored, (opened, restored)
        server.stop()
        server.start()
        assert server.metric(names[1]) > restored and server.metric(names[1]) >= server.metric("process_start_time_seconds")


def test_records_that_ended_are_bounded():
    """The database and the history keep the last ones. They go in pieces once newer ones are kept."""
    keep, records = 20, 150
    with served_job("a", SETTINGS, [1], args=["--image-calls", "10", "--keep-calls", "20", "--keep-records", str(keep)]) as (server, job):
        for record in range(1, records + 1):
            job.calls([savepoint(), ack(record, "0.0", []), dispose(record)])

        def count(path, table, where=""):
            return sqlite(path, f"select count(*), coalesce(max(id), 0) from {table}{where}")[0]

        caught_up(job)
        history = f"{server.folder}/history-{server.port}"
        until(lambda: count(server.database, "past")[1] > records - 20)
        # those of the last summary may not be saved yet
        until(lambda: count(history, "record")[0] <= keep + 15, told=lambda: count(history, "record"))
        kept = count(server.database, "past")[0]
        assert keep // 2 <= kept <= keep + 15, kept
        newest = server.get("/v1/jobs/a/records?limit=5")[2]["records"]
        assert [record["id"] for record in newest] == list(range(records, records - 5, -1)), newest
        return f"{kept} of {records} records are kept in the database"
