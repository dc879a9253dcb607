"""While the database takes no commits, or does not answer: what health checks, metrics and reads say then, and what they do not."""
import os
import re
import time

from harness import BUSY, SERVICE, Server, beside, content, folder, free_port, locked, lose_history, served, slowed, sqlite, until
from postgres import postgres
from slow import Forgetful
from test_api import JOB
from test_connections import within
from test_start import refused

CALLS = {"calls": [{"call": "tick"}]}
UNDER_WAY = "relkvanu_commit_under_way_seconds"


def looked(server):
    """What the health checks, the metrics and the call say while no commit is possible, and how long that lasted."""
    told = []
    with locked(server.database):
        started, calling = time.monotonic(), beside(lambda: told.append(server.request("POST", "/v1/jobs/orders/calls", CALLS)[0]))
        refused = until(lambda: (it := within(9 * slowed(), lambda: server.get("/readyz")))[0] in (0, 503) and it, 8)
        after = time.monotonic() - started
        health, text, under_way = server.get("/healthz")[0], server.get("/metrics"), server.metric(UNDER_WAY)
    lasted = time.monotonic() - started
    calling.join()
    return lasted, (refused, after, health, text, under_way, told)


def test_health_and_metrics_answer_while_a_commit_is_stuck():
    with served() as server:
        server.request("POST", "/v1/jobs", JOB)
        assert server.metric(UNDER_WAY) == 0
        # a commit is given up after 10 s: then the process ends, and the call is not answered. A busy machine may look too late
        for _ in range(BUSY):
            lasted, found = looked(server)
            if lasted < 9:
                break
            server.again()
        refused, after, health, text, under_way, told = found
        assert "no commit is possible" in refused[2]["error"] and refused[1]["retry-after"] == "1", refused
        assert 2 < after and health == 200, (after, health)
        assert text[0] == 200 and 'relkvanu_files{job_name="orders"' in text[2], text
        assert under_way > 2 and told == [200], (text[2], told)
        until(lambda: server.get("/readyz")[0] == 200, 5)
        assert server.metric(UNDER_WAY) == 0
        return f"/readyz was 503 after {after:.1f} s, and 200 again after the commit"


def test_errors_of_the_database_are_not_for_clients():
    with served() as server:
        server.request("POST", "/v1/jobs", JOB)
        sqlite(server.database, "alter table call rename to elsewhere")
        for path in "/v1/jobs/orders/log", "/v1/jobs/orders/events?after=0":
            status, headers, told = server.get(path)
            assert status == 503 and headers["retry-after"] == "1", (path, status, told)
            assert told == {"error": "the database can't be read now"}, told
        assert "no such table" in server.log()
        sqlite(server.database, "alter table elsewhere rename to call")
        until(lambda: server.get("/v1/jobs/orders/log")[0] == 200)


def test_long_names_are_not_repeated_whole():
    long, tick = "x" * 100_000, {"call": "tick"}
    calls = [{"call": long}, {**tick, long: 1}, {"call": "ack", "id": 1, "subtask": long}, {"call": "restore", "from": long}, {"call": "deleted", "file": long}]
    jobs = [{**JOB, long: 1}, {**JOB, "settings": {"interval": 100, long: 1}}, {**JOB, "name": long}]
    with served() as server:
        server.request("POST", "/v1/jobs", JOB)
        bodies = [("/orders/calls", {"calls": [it]}) for it in calls] + [("/orders/calls", {long: 1, "calls": [tick]})] + [("", it) for it in jobs]
        for path, body in bodies:
            status, _, told = server.request("POST", f"/v1/jobs{path}", body)
            assert status == 400 and len(str(told)) < 500, (status, str(told)[:600])
        assert len(str(server.get(f"/v1/jobs?{long[:20000]}=1"))) < 1000


def test_a_connection_to_postgresql_that_was_forgotten():
    with folder() as at, postgres() as database:
        proxy = Forgetful(database.port)
        server = Server(at, database=database.url.replace(str(database.port), str(proxy.port))).start()
        server.request("POST", "/v1/jobs", {"name": "orders", "settings": {"interval": 500, "timeout": 1 << 40, "at_once": 64}, "shape": [1]})
        until(lambda: server.get("/v1/jobs/orders/log")[2]["calls"])
        until(lambda: server.get("/v1/jobs/orders/events?after=0")[2]["events"])
        count = until(lambda: (it := proxy.forget(5.2)) >= 2 and it)
        times = []
        for path in "/v1/jobs/orders/events?after=0", "/v1/jobs/orders/log", "/v1/jobs/orders":
            started = time.monotonic()
            status, _, told = within(30 * slowed(), lambda path=path: server.get(path))
            assert status == 200, (path, status, told)
            times.append(time.monotonic() - started)
        # it tries a connection for 3 s; a statement may take a minute
        assert server.process.poll() is None and max(times) < 30 * slowed(), times
        until(lambda: kept_alive(proxy.port) >= 2)
        return f"{count} connections: the reads took {', '.join(f'{it:.1f} s' for it in times)}"


def kept_alive(port):
    """How many connections to a port of this machine have a timer for keeping them alive."""
    with open("/proc/net/tcp", encoding="utf-8") as it:
        rows = [line.split() for line in it][1:]
    return sum(row[2].endswith(f":{port:04X}") and row[3] == "01" and row[5].startswith("02:") for row in rows)


def test_events_are_read_by_an_index():
    is_event = re.search('IS_EVENT: &str = "(.*)"', content(f"{SERVICE}/src/store/rows.rs"))[1]
    with served() as server:
        plan = sqlite(server.database, f"explain query plan select * from call indexed by call_event where job = ? and seq > ? and {is_event} order by seq limit ?", 1, 0, 10)
        assert len(plan) == 1 and "USING INDEX call_event (job=? AND seq>?)" in plan[0][3], plan
    with postgres() as database, served(database=database.url):
        told = database.sql(
            "set enable_seqscan = off; set enable_bitmapscan = off;"
            f"explain select * from call where job = 1 and seq > 0 and {is_event} order by seq limit 10"
        )
        assert "Index Scan using call_event" in told and "Sort" not in told, told


def test_files_of_long_lists():
    """The oldest of the taken files come first, whether the history knows them or not."""
    with served() as server:
        server.request("POST", "/v1/jobs", JOB)
        path = "/v1/jobs/orders/calls"
        files = [str(9000 - place) for place in range(3000)]
        calls = [{"call": "reserve", "count": 9000}, {"call": "savepoint"}, {"call": "ack", "id": 1, "subtask": "0.0", "fresh": files}, {"call": "ack", "id": 1, "subtask": "0.1"},
                 {"call": "ack", "id": 1, "subtask": "1.0"}, {"call": "dispose", "id": 1}]
        server.request("POST", path, {"term": 1, "calls": calls}, headers=[("Idempotency-Key", "a")])
        taken = []
        for key in "bcd":
            taken += server.request("POST", path, {"calls": [{"call": "take", "most": 20}]}, headers=[("Idempotency-Key", key)])[2]["answers"][0]["files"]
        server.request("POST", path, {"calls": [{"call": "deleted", "file": taken[0]}]})
        wanted = sorted(taken[1:20], key=int) + sorted(taken[20:40], key=int)

        def listed(limit=39):
            told = server.get(f"/v1/jobs/orders/files?limit={limit}")[2]
            return [row["file"] for row in sorted(told["taken"], key=lambda row: (row["taken"] or 0, int(row["file"])))], told

        until(lambda: listed()[1]["upto"] == 11)
        assert listed()[0] == wanted, (listed()[0], wanted)
        assert [row["file"] for row in listed()[1]["deleted"]] == [taken[0]]
        assert len(listed(1000)[0]) == 59 and len(listed(5)[0]) == 5
        lose_history(server)
        assert sorted(listed(1000)[0], key=int) == sorted(taken[1:], key=int)


def test_what_is_no_database_is_refused():
    with folder() as at:
        for text in "host=db dbname=x password=secret", "dbname = x", "mysql://u:secret@db/x", "":
            assert "secret" not in refused(["--listen", "127.0.0.1:0", "--database", text], 78, "database: ", cwd=at), text
        refused(["--listen", "127.0.0.1:0", "--database", f"Postgres://u@127.0.0.1:{free_port()}/x"], 75, "onnection", cwd=at)
        assert os.listdir(at) == [], os.listdir(at)


def test_files_are_private_and_a_link_is_no_other_database():
    with folder() as at:
        old = os.umask(0o022)
        try:
            server = Server(at).start()
        finally:
            os.umask(old)
        server.request("POST", "/v1/jobs", JOB)
        until(lambda: server.get("/v1/jobs/orders/records")[0] == 200)
        made = [name for name in os.listdir(at) if not name.startswith("log-")]
        modes = {name: os.stat(f"{at}/{name}").st_mode & 0o777 for name in made}
        assert len(modes) >= 6 and set(modes.values()) == {0o600}, {name: oct(mode) for name, mode in modes.items()}
        os.symlink(server.database, f"{at}/link.db")
        refused(["--listen", "127.0.0.1:0", "--database", f"{at}/link.db", "--history", f"{at}/h"], 75, "another process serves this database")
