"""PostgreSQL over a year: a table of keys in its steady state, a read that lasts for hours beside the commits, commits that last, and a
start beside a vacuum."""
import subprocess
import time

from harness import BUSY, SETTINGS, Server, beside, content, folder, leader_and_standby, lease_of, served, slowed, until
from postgres import postgres
from relkvanu_service import Service
from test_long_images import tick

DAY = 24 * 3_600_000
KEYS = 300_000
TICK = {"call": "tick"}


def in_the_steady_state(database, keys):
    """Fills the table of keys as some days of work leave it: each key lives for a day, and those that come fill the room of those that
    went. A part has come and gone since the table was analyzed last. Autovacuum would have done so at a tenth of the table."""
    each = DAY / keys
    last = int(time.time() * 1000) + 60_000
    total = keys + 15 * (keys // 10) + keys * 6 // 100
    first = last - int(total * each)

    def add(begin, end):
        database.sql(f"""set synchronous_commit = off; insert into request select 1, md5(g::text), {first} + (g::float8 * {each})::bigint,
            md5(g::text) || md5(g::text), repeat('x', 120) from generate_series({begin}, {end} - 1) g""")

    def drop(upto):
        database.sql(f"delete from request where at < {first} + ({upto}::float8 * {each})::bigint")

    database.sql("alter table request set (autovacuum_enabled = false)")
    add(0, keys)
    at, step = keys, keys // 10
    for turn in range(15):
        drop(at + step - keys)
        if turn % 2:
            database.sql("vacuum request")
        add(at, at + step)
        at += step
        if turn % 5 == 4:
            database.sql("analyze request")
    rest = keys * 6 // 100
    drop(at + rest - keys)
    add(at, at + rest)
    database.sql("vacuum (analyze false) request")


def plans(database, of):
    """The plans of the statements that the service made, of those that have this text: PostgreSQL writes them to its log."""
    found = content(f"{database.data}/log").split("LOG:  ")
    return [it for it in found if it.startswith("duration") and of in it]


def test_old_keys_are_found_by_their_index():
    """The planner expects old rows early in the table, and there is none: without an order it would read all of it each second."""
    with postgres() as database, served(database=database.url) as server:
        Service(server.url).open("a", SETTINGS, [1])
        server.stop()
        in_the_steady_state(database, KEYS)
        with open(f"{database.data}/postgresql.conf", "a", encoding="utf-8") as it:
            it.write("session_preload_libraries = 'auto_explain'\nauto_explain.log_min_duration = 0\nauto_explain.log_nested_statements = on\n")
            it.write("log_min_messages = log\n")
        database.stop("fast")
        database.start()
        server.start()
        until(lambda: len(plans(database, "delete from request")) >= 3)
        server.stop()
        found = plans(database, "delete from request")
        assert all("request_at on request" in plan for plan in found), found[0]
        assert not any("Seq Scan on request" in plan for plan in found), found[0]
        return f"{len(found)} deletions beside {KEYS} keys, each by the index"


def test_a_commit_writes_no_version_of_the_leader():
    """Versions of its one row stay beside a read that lasts, as a dump: so commits make one for each third of a lease alone."""
    with postgres() as database, served("lease_seconds = 60\n", database=database.url) as server:
        job, beat = Service(server.url).open("a", SETTINGS, [1]), "select beat from leader"
        began, before = time.monotonic(), int(database.sql(beat))
        for _ in range(300):
            job.call(TICK)
        beats = int(database.sql(beat)) - before
        calls, took = int(database.sql("select count(*) from call")), time.monotonic() - began
        # two each 20 s at most: a commit of calls, and an empty one
        assert calls >= 300 and beats <= 10 + took / 10, (calls, beats, took)
        return f"{calls} calls in as many commits, and {beats} versions of the row"


def test_a_commit_that_lasts_keeps_its_leader():
    """A commit that takes longer than the lease: the leader's row is locked meanwhile, so a standby does not take over."""
    with postgres() as database, folder() as at:
        lease = min(lease_of(2), 5)
        lasts = lease + 3  # a statement may take 10 s
        leader, standby = leader_and_standby(at, database.url, f"lease_seconds = {lease}\n")
        job = Service(leader.url).open("a", SETTINGS, [1])
        job.call(TICK)
        epoch = "select epoch from leader"
        before = database.sql(epoch)
        database.sql(f"""create function slow() returns trigger language plpgsql as 'begin perform pg_sleep({lasts}); return null; end';
            create trigger slow after insert on call for each statement execute function slow()""")
        began, told = time.monotonic(), []
        thread = beside(lambda: told.append(job.call(TICK)))
        thread.join()
        took = time.monotonic() - began
        database.sql("drop trigger slow on call")
        job.call(TICK)
        after = database.sql(epoch), leader.process.poll(), standby.process.poll()
        # (PostgreSQL sleeps by the time of day)
        assert told and took > lease and after == (before, None, None), (told, took, before, after)
        return f"a commit of {took:.1f} s with a lease of {lease} s"


def longest_gap(server, seconds, is_there):
    """The longest time between two acknowledgements, until something is there and for some seconds more."""
    began = time.monotonic()
    end, gaps, last = began + seconds, [0.0], began
    while time.monotonic() < end:
        if tick(server):
            now = time.monotonic()
            gaps.append(now - last)
            last = now
        if not is_there() and time.monotonic() < began + BUSY * 20:
            end = time.monotonic() + seconds
        time.sleep(0.005)
    return max([*gaps, time.monotonic() - last])


def test_a_standby_that_starts_beside_a_vacuum():
    """The lock that VACUUM holds keeps a start from locking a table: so no start does, and no call of the leader waits behind one."""
    with postgres() as database, folder() as at:
        leader, standby = Server(at, database.url).start(), Server(at, database.url)
        Service(leader.url).open("orders", SETTINGS, [1])
        held = "begin; lock table call, request, image in share update exclusive mode; select pg_sleep(3600); commit"
        vacuum = subprocess.Popen([*database.user, f"{database.bin}/psql", "-XAtq", database.url, "-c", held], stdout=subprocess.DEVNULL, cwd="/")
        until(lambda: database.sql("select count(*) from pg_locks where mode = 'ShareUpdateExclusiveLock' and relation = 'call'::regclass") == "1")
        standby.start(ready=False)
        gap = longest_gap(leader, 2, lambda: "another process leads" in standby.log())
        assert "another process leads" in standby.log(), standby.log()[-300:]
        assert gap < 4 * slowed(), gap  # a start that locks a table waits for 5 s
        # a service that is alone starts beside it too
        standby.kill()
        leader.stop()
        leader.start()
        assert vacuum.poll() is None, "the lock was not held"
        database.stop()
        vacuum.wait()
        return f"the longest gap of the leader's answers was {gap:.2f} s"
