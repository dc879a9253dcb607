"""The lease of a leader over PostgreSQL: a process that takes over through a slow line, and standbys beside many jobs. What a lease
counts from, whose lease a standby waits for, and that a commit of an epoch that is over writes nothing."""
import contextlib
import json
import signal
import time

from harness import SETTINGS, Server, at_once, beside, configured, folder, leader_and_standby, lease_of, served, until
from postgres import postgres
from relkvanu_service import Service, savepoint
from slow import Slow

# the delays are in proportion to the lease, which is as long as processes of a busy machine need to keep it
SECONDS = lease_of(4)
DELAY = 0.01 * SECONDS
LEASE = f"lease_seconds = {SECONDS}\n"


def opened(at, url, jobs):
    """A database with these jobs, without a leader."""
    server = Server(at, url).start()

    def some(part):
        service = Service(server.url)
        for number in range(part, jobs, 8):
            service.open(f"j{number}", SETTINGS, [1])

    at_once(some, range(8))
    assert server.stop() == 0


def far(at, database, delay, url=None):
    """A service that reaches the database through a slow line, and the line."""
    line = Slow(database.port, delay)
    return Server(at, (url or database.url).replace(str(database.port), str(line.port)), configured(at, LEASE)), line


def near(at, url):
    return Server(at, url, configured(at, LEASE))


def epoch(database):
    return int(database.sql("select epoch from leader"))


def is_ready(server):
    return server.get("/readyz")[0] == 200


def looked(slow, fast, seconds):
    """Looks at a slow leader and a fast standby. Returns how often both were ready, and how often the slow one answered what was over."""
    both = stale = 0
    end = time.monotonic() + seconds
    while time.monotonic() < end:
        # in this order: the slow one may be ready, and the fast one take over before it is asked
        if is_ready(fast) and is_ready(slow):
            both += 1
            seq = fast.request("POST", "/v1/jobs/j0/calls", {"calls": [{"call": "tick"}]})[2]["answers"][0]["seq"]
            told = slow.get("/v1/jobs/j0")
            stale += told[0] == 200 and told[2]["seq"] < seq
        time.sleep(0.02)
    return both, stale


def test_a_take_over_through_a_slow_line():
    """It takes over in fewer statements than there are jobs, so a standby beside it finds no lease that has run out."""
    with postgres() as database, folder() as at:
        opened(at, database.url, 40)
        slow, _ = far(at, database, DELAY)
        slow.start(ready=False)
        until(lambda: epoch(database) == 2)
        fast = near(at, database.url).start(ready=False)
        both, stale = looked(slow, fast, 2.5 * SECONDS)
        assert (both, stale) == (0, 0), f"both ready in {both} looks, {stale} stale answers"
        slow.wait_ready()
        assert epoch(database) == 2 and slow.process.poll() is None, slow.log()[-300:]
        return f"40 jobs over a line of {DELAY * 1000:.0f} ms with a lease of {SECONDS} s"


def test_a_take_over_keeps_its_lease():
    """Its statements take longer than the lease, so it renews the lease between them, and a standby finds none that has run out."""
    with postgres() as database, folder() as at:
        opened(at, database.url, 5)
        first = near(at, database.url).start()
        slow, line = far(at, database, 0)
        slow.stand_by()
        before = epoch(database)
        line.delay = 0.175 * SECONDS
        first.stop()
        until(lambda: epoch(database) > before)
        fast = near(at, database.url).stand_by()
        slow.wait_ready()
        took = int(slow.log().rsplit("take_over_ms=", 1)[1].split()[0]) / 1000
        assert epoch(database) == before + 1 and took > SECONDS, (before, epoch(database), took)
        assert not is_ready(fast)
        return f"it took {took:.1f} s with a lease of {SECONDS} s"


# The statement of each look of a standby for a leader, and one of each time that it reads the log.
LOOK, FOLLOW = b"beat, lease from leader", b"from gone_job"


def standby_asks(at, database, url, jobs):
    """How many statements a standby beside these jobs asks for each time that it reads the log, while one of them is called. It leads then, and knows
    its calls."""
    opened(at, url, jobs)
    leader = near(at, url).start()
    standby, line = far(at, database, 0, url)
    line.sent = {LOOK: 0, FOLLOW: 0}
    standby.stand_by()
    job = Service(leader.url).job("j1")
    asked, looks, follows = line.asked, *line.sent.values()
    # it reads the log once the leader has renewed its lease. How often it looks meanwhile depends on the machine
    until(lambda: job.call(savepoint()) and line.sent[FOLLOW] > follows + 2, 10 * SECONDS)
    asks = (line.asked - asked - (line.sent[LOOK] - looks)) / (line.sent[FOLLOW] - follows)
    state = job.state()
    leader.kill()
    standby.wait_ready()
    after = Service(standby.url).job("j1").state()
    assert after["seq"] == state["seq"] and after["live"] == state["live"], (after, state)
    return asks


def test_a_standby_beside_many_jobs():
    """What it asks does not grow with their number."""
    with postgres() as database, folder() as at:
        asked = []
        for jobs in (2, 200):
            database.sql(f"create database jobs{jobs}")
            asked.append(standby_asks(at, database, f"{database.url.rsplit('/', 1)[0]}/jobs{jobs}", jobs))
        few, many = asked
        # the first time and the last one may be counted in part
        assert many < few + 20, asked
        return f"{few:.1f} statements each time beside 2 jobs, and {many:.1f} beside 200"


# What the row of the leader says once another process leads.
ANOTHER = "name = 'another', epoch = epoch + 1, beat = beat + 1"


def test_a_lease_counts_from_before_it_was_asked_for():
    """Answers of the database take three quarters of the lease: a leader that counted from their arrival would serve beside the next one. One commit
    that renews it has a call, and the others have none."""
    with postgres() as database, folder() as at:
        opened(at, database.url, 1)
        slow, line = far(at, database, 0)
        slow.start()
        fast = near(at, database.url).stand_by()
        line.delay = 0.75 * SECONDS
        call = beside(slow.request, "POST", "/v1/jobs/j0/calls", {"calls": [{"call": "tick"}]})
        both, stale = looked(slow, fast, 4 * SECONDS)
        slow.kill()
        call.join()
        assert (both, stale) == (0, 0), f"both ready in {both} looks, {stale} stale answers"
        return f"answers after {0.75 * SECONDS:.1f} s of a lease of {SECONDS} s"


def test_a_standby_waits_for_the_lease_of_the_leader():
    """It has a shorter one itself, and the leader stops for longer than that."""
    with postgres() as database, folder() as at:
        first = Server(at, database.url, configured(at, "lease_seconds = 60\n")).start()
        Server(at, database.url, configured(at, "lease_seconds = 2\n")).stand_by()
        before = epoch(database)
        first.process.send_signal(signal.SIGSTOP)
        end = time.monotonic() + 8
        while time.monotonic() < end and epoch(database) == before:
            time.sleep(0.1)
        first.process.send_signal(signal.SIGCONT)
        first.wait_ready()
        told = epoch(database), first.process.poll()
        assert told == (before, None), (before, told)


def test_a_commit_of_an_earlier_epoch_writes_nothing():
    """Another process leads while a commit, which does not renew the lease, is on its way."""
    with postgres() as database, served("lease_seconds = 60\n", database=database.url) as server:
        Service(server.url).open("a", SETTINGS, [1])
        database.sql(f"update leader set {ANOTHER}")
        before = database.sql("select count(*) from call").strip()
        told = server.request("POST", "/v1/jobs/a/calls", {"calls": [{"call": "savepoint"}]}, headers=[("Idempotency-Key", "k")])
        calls = database.sql("select count(*) from call").strip()
        assert told[0] == 0 and calls == before and server.ended() == 75, (told, calls)


def test_a_commit_that_waits_for_the_lead_of_another_writes_nothing():
    """It waits for the leader's row, and another process leads once it gets it."""
    with postgres() as database, folder() as at:
        server, told = Server(at, database.url, configured(at, "lease_seconds = 60\n")).start(), []
        Service(server.url).open("a", SETTINGS, [1])
        before = database.sql("select count(*) from call").strip()

        def ask():
            told.append(server.request("POST", "/v1/jobs/a/calls", {"calls": [{"call": "savepoint"}]}, headers=[("Idempotency-Key", "k")])[0])

        holds = f"begin; select 1 from leader for update; select pg_sleep(3); update leader set {ANOTHER}; commit"
        holder = beside(database.sql, holds)
        until(lambda: database.sql("select count(*) from pg_stat_activity where wait_event = 'PgSleep'") == "1")
        ask()
        holder.join()
        calls = database.sql("select count(*) from call").strip()
        assert told == [0] and calls == before and server.ended() == 75, (told, calls)


def test_a_commit_that_renews_the_lease_of_an_earlier_epoch_fails():
    """Without a call: the leader renews its lease, and another process leads."""
    with postgres() as database, served("lease_seconds = 3\n", database=database.url) as server:
        database.sql(f"update leader set {ANOTHER}")
        assert server.ended() == 75 and database.sql("select name from leader").strip() == "another"


def test_an_answer_waits_for_a_lease_that_is_sure():
    """The database's answer to a commit takes longer than the process is sure of its lease, and meanwhile another process takes over. So it asks
    the database before it answers."""
    with postgres() as database, folder() as at:
        opened(at, database.url, 1)
        server, line = far(at, database, 0)
        server.start()
        statuses, line.delay = [], 0.75 * SECONDS
        asks = [("Idempotency-Key", "k")]
        call = beside(lambda: statuses.append(server.request("POST", "/v1/jobs/j0/calls", {"calls": [{"call": "savepoint"}]}, headers=asks)[0]))
        until(lambda: database.sql("select count(*) from call") == "2", 10 * SECONDS)
        database.sql(f"update leader set {ANOTHER}")  # as the next leader does
        call.join()
        assert statuses == [0] and server.ended() == 75, statuses
        return f"after {0.75 * SECONDS:.1f} s of a lease of {SECONDS} s"


def test_a_refused_deletion_waits_for_the_commit():
    """It is refused by a job's state, which calls of the same round have changed: nobody hears of them before they are committed."""
    with postgres() as database, folder() as at:
        server, statuses = Server(at, database.url, configured(at, "lease_seconds = 60\n")).start(), {}
        Service(server.url).open("a", SETTINGS, [1])
        # each of the next two calls, those behind the fence, is written once its lock is free
        database.sql("""create function held() returns trigger language plpgsql as $$ begin
            perform pg_advisory_xact_lock(new.seq); return new; end $$;
            create trigger held before insert on call for each row execute function held()""")

        def holding(number):
            words = f"select pg_advisory_lock({number}); select pg_sleep(60) /* {number} */"
            holder = beside(swallow, database.sql, words)
            until(lambda: database.sql(f"select count(*) from pg_stat_activity where wait_event = 'PgSleep' and query like '%/* {number} */'") == "1")
            return holder

        def let_go(number):
            database.sql(f"select pg_terminate_backend(pid) from pg_stat_activity where wait_event = 'PgSleep' and query like '%/* {number} */'")

        def waiting():
            return database.sql("select count(*) from pg_locks where locktype = 'advisory' and not granted")

        def ask(what, *words):
            statuses[what] = server.request(*words, headers=[("Idempotency-Key", what)])[0]

        savepoint = ("POST", "/v1/jobs/a/calls", {"calls": [{"call": "savepoint"}]})
        threads = [holding(2), holding(3), beside(ask, "first", *savepoint)]
        until(lambda: waiting() == "1")
        threads.append(beside(ask, "second", *savepoint))
        until(lambda: server.metric("relkvanu_http_body_bytes") >= 2 * len(json.dumps(savepoint[2])))
        # it comes in the round of the second call, or on a busy machine after it
        threads.append(beside(ask, "deletion", "DELETE", "/v1/jobs/a"))
        time.sleep(1)
        let_go(2)
        until(lambda: "first" in statuses and waiting() == "1")
        time.sleep(0.5)
        assert set(statuses) == {"first"}, statuses
        let_go(3)
        for it in threads:
            it.join()
        assert statuses == {"first": 200, "second": 200, "deletion": 409}, statuses


def swallow(call, *words):
    """A connection that is ended fails."""
    with contextlib.suppress(AssertionError):
        call(*words)


def test_a_standby_says_when_it_had_read_all():
    """The moment goes on, and so does its lead when it takes over. Alerts use both."""
    with postgres() as database, folder() as at:
        first, second = leader_and_standby(at, database.url, f"lease_seconds = {SECONDS}\n")
        seen = until(lambda: second.metric("relkvanu_followed_timestamp_seconds"))
        assert abs(seen - time.time()) < 3600, (seen, time.time())
        until(lambda: second.metric("relkvanu_followed_timestamp_seconds") > seen)
        assert second.metric("relkvanu_leader") == 0
        first.kill()
        second.wait_ready()
        until(lambda: second.metric("relkvanu_leader") == 1)
