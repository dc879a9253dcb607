"""Old keys and old samples go as fast as they come, and the history does not wait for that."""
import sqlite3
import threading
import time

from harness import BUSY, LOCKED, SETTINGS, beside, served, slowed, until
from postgres import postgres
from relkvanu_service import Service, savepoint
from test_metrics import scraped

DAY = 24 * 3_600_000


def now():
    return int(time.time() * 1000)


def keyed_call(server, key):
    return server.request("POST", "/v1/jobs/orders/calls", {"calls": [{"call": "savepoint"}]}, headers=[("Idempotency-Key", key)])


def test_old_keys_go_in_pieces():
    with served() as server:
        Service(server.url).open("orders", SETTINGS, [1])
        server.stop()
        with sqlite3.connect(server.database) as base:
            base.executemany("insert into request values(1, ?, ?, 'd', '{}')", ((f"old{i}", now() - DAY - 60_000) for i in range(20_000)))
            base.executemany("insert into request values(1, ?, ?, 'd', '{}')", ((f"young{i}", now() - DAY + 3_600_000) for i in range(100)))

        def count(which):
            return base.execute("select count(*) from request where key like ?", (which,)).fetchone()[0]

        server.start()
        early = keyed_call(server, "new")
        started, longest = time.monotonic(), 0
        while count("old%"):
            asked = time.monotonic()
            assert keyed_call(server, f"new{asked}")[0] == 200
            longest = max(longest, time.monotonic() - asked)
            assert time.monotonic() - started < BUSY * 20, f"{count('old%')} old keys are left"
        took = time.monotonic() - started
        assert count("young%") == 100 and keyed_call(server, "new")[2] == early[2]
        until(lambda: scraped(server)[1]["relkvanu_keys_behind_seconds"] == 0)
        base.close()
        return f"20,000 in {took:.1f} s; a call waited {longest * 1000:.0f} ms at most"


def test_old_keys_in_postgresql():
    with postgres() as database, served(database=database.url) as server:
        Service(server.url).open("orders", SETTINGS, [1])
        database.sql(f"insert into request select 1, 'old' || i, {now() - DAY - 60_000}, 'd', '{{}}' from generate_series(1, 20000) i")
        database.sql(f"insert into request values(1, 'young', {now() - DAY + 3_600_000}, 'd', '{{}}')")
        started = time.monotonic()
        until(lambda: database.sql("select count(*) from request") == "1", 20)
        return f"20,000 in {time.monotonic() - started:.1f} s, without a call"


def longest_lag(job, seconds):
    """The longest time until the history has read a call, of those that are made for so many seconds."""
    longest, end = 0, time.monotonic() + seconds
    while time.monotonic() < end:
        seq, asked = job.call(savepoint())["seq"], time.monotonic()
        until(lambda: job.files()["upto"] >= seq)
        longest = max(longest, time.monotonic() - asked)
    return longest


def test_samples_do_not_stop_the_history():
    jobs, each = 60, 4000
    with served() as server:
        service = Service(server.url)
        for number in range(jobs):
            service.open(f"job{number}", SETTINGS, [1])
        server.stop()
        history = f"{server.folder}/history-{server.port}"
        week = 7 * DAY
        with sqlite3.connect(history) as base:
            young = ((job, now() - k * (week // each) + 600_000, 1, 2, 3, 0) for job in range(1, jobs + 1) for k in range(1, each))
            base.executemany("insert or ignore into sample values(?, ?, ?, ?, ?, ?)", young)
            base.executemany("insert or ignore into sample values(1, ?, 1, 2, 3, 0)", ((now() - week - 60_000 - k,) for k in range(20_000)))
        base.close()
        server.start()
        over = threading.Event()

        def change():  # so that each round samples each job
            while not over.is_set():
                for number in range(1, jobs):
                    service.job(f"job{number}").call(savepoint())

        changing = beside(change)
        job = Service(server.url).job("job0")
        base = sqlite3.connect(history, timeout=LOCKED)

        def old():
            return base.execute("select count(*) from sample where at < ?", (now() - week,)).fetchone()[0]

        try:
            longest = longest_lag(job, 6)
            until(lambda: old() == 0)
            usual = longest_lag(job, 3)
        finally:
            over.set()
            changing.join()
        left = base.execute("select count(*) from sample").fetchone()[0]
        base.close()
        # on a busy machine the history is behind without old samples too
        most = 2 * slowed() + 4 * usual
        assert left >= jobs * (each - 20) and longest < most, (left, longest, usual)
        until(lambda: scraped(server)[1]["relkvanu_samples_behind_seconds"] == 0)
        until(lambda: scraped(server)[1]['relkvanu_history_lag_seconds{job_name="job0"}'] < 2)
        return f"{left} samples: the history was {longest:.2f} s behind at most"


def test_a_token_ends_with_its_day():
    day = time.strftime("%Y-%m-%d", time.gmtime(time.time() + 10 * 86_400))
    with served(tokens=[f"read {'r' * 20} until={day}", f"write {'w' * 20}", f"write {'o' * 20} until=2020-01-01"]) as server:
        told = [server.get("/v1/jobs", token * 20)[0] for token in "rwo"]
        text = server.get("/metrics", "r" * 20)[2]
        ends = sorted(float(line.rsplit(" ", 1)[1]) for line in text.splitlines() if line.startswith("relkvanu_token_until_timestamp_seconds"))
        assert told == [200, 200, 401] and len(ends) == 2, (told, ends)
        assert time.strftime("%Y-%m-%d %H:%M", time.gmtime(ends[0])) == f"{day} 00:00" and ends[1] == float("inf"), ends
