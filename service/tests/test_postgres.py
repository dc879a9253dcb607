"""Over PostgreSQL: kills, a database that stops, and a standby that takes over from a leader that was killed, stopped, or cut off."""
import os
import random
import signal
import time

import kills
import test_api
import test_payloads
import test_stop_begin
from harness import BUSY, PgArchive, Server, Service, configured, folder, kept, leader_and_standby, lease_of, served, slowed, until
from postgres import postgres

# a standby is beside its leader: as long as a busy machine needs to keep it
LEASE = lease_of(4)


def test_kills():
    with postgres() as database:
        told = kills.run(int(os.environ.get("RELKVANU_KILLS_PG", "4")), database, "lease_seconds = 1\n" + kills.KEEPING)
        assert database.sql("select count(*) > 0 from call") == "t"
        return told


def test_a_database_that_stops():
    with postgres() as database, served("lease_seconds = 1\n", database=database.url) as server:
        told = []
        with kept(server) as ended, kills.writers_at([server.url], told):
            for mode in ("immediate", "fast", "immediate"):
                time.sleep(0.7)
                before = len(ended)
                database.stop(mode)
                until(lambda: len(ended) > before)
                time.sleep(0.5)
                database.start()
                server.wait_ready(kept=True)
            # the connection of the writer alone
            before = len(ended)
            cut_writer(database)
            until(lambda: len(ended) > before)
            server.wait_ready(kept=True)
        assert len(ended) >= 4 and set(ended) == {75}, ended
        return f"3 stops of the database and 1 cut connection, {told[0]}"


def cut_writer(database):
    """Ends the connection of the leader's writer. It is known by its last statement, which may be another one than a commit just then. A commit renews the
    lease seldom: then it is another statement, which begins alike."""
    ended = "select pg_terminate_backend(pid) from pg_stat_activity where application_name = 'relkvanu' and query like 'with l as (%'"
    until(lambda: database.sql(ended))


def leads(server):
    return server.process.poll() is None and server.get("/readyz")[0] == 200


def leader_of(servers):
    return until(lambda: next((server for server in servers if leads(server)), None), told=lambda: [server.log()[-400:] for server in servers])


def test_take_over():
    config = f"lease_seconds = {LEASE}\n" + kills.KEEPING
    with postgres() as database, folder() as at:
        servers = [Server(at, database.url, configured(at, config)) for _ in range(2)]
        servers[0].start()
        servers[1].stand_by()
        assert servers[1].get("/healthz")[0] == 200
        # (it looks for the leader for a second at most)
        told = until(lambda: (it := servers[1].request("GET", "/v1/jobs"))[1].get("relkvanu-leader") and it)
        assert told[0] == 503 and told[1]["retry-after"] == "1" and told[1]["relkvanu-leader"] == servers[0].url, told
        assert "relkvanu_leader 0" in servers[1].get("/metrics")[2] and "relkvanu_leader 1" in servers[0].get("/metrics")[2]
        found, times, epochs = [], [], []
        # (most of its time it waits for leases)
        with kills.writers_at([server.url for server in servers], found, PgArchive(database), pause=0.3):
            for way in ("stop", "kill", "stop", "cut"):
                leader = leader_of(servers)
                standby = next(server for server in servers if server is not leader)
                time.sleep(0.6)
                epochs.append(int(database.sql("select epoch from leader")))
                started = time.monotonic()
                if way == "cut":
                    cut_writer(database)
                else:
                    leader.process.send_signal(signal.SIGSTOP if way == "stop" else signal.SIGKILL)
                until(lambda: leads(standby), 20, 0.01, lambda: (way, leader.log()[-400:], standby.log()[-400:]))
                times.append(time.monotonic() - started)
                time.sleep(random.uniform(0, 0.5))
                leader.process.send_signal(signal.SIGCONT) if leader.process.poll() is None else None
                # one that was stopped finds out with its first group, or its first read, and answers nothing of it
                status = leader.ended()
                assert status == (-9 if way == "kill" else 75), (way, status, leader.log()[-400:])
                # one that starts has just prepared its statements, and a cut would take it for the writer
                leader.stand_by()
        assert epochs == sorted(set(epochs)), epochs
        assert max(times[:3]) < LEASE + 3 * max(BUSY, slowed()), times
        return f"leads again after {', '.join(f'{it:.2f}' for it in times)} s with a lease of {LEASE} s; {found[0]}"


def test_what_outlives_a_take_over():
    """Sizes, payloads, phases of stops, and where the files of jobs are: each beside the others, in jobs of its own."""
    with postgres() as database, folder() as at:
        leader, standby = leader_and_standby(at, database.url, f"lease_seconds = {LEASE}\n")
        service = Service(leader.url, standby.url)
        found = [of(service, database) for of in (test_payloads.sizes_over_a_take_over, *(it.over_a_take_over for it in (test_payloads, test_stop_begin, test_api)))]
        for it in found:
            next(it)
        leader.kill()
        standby.wait_ready(60)
        assert [next(it, "to the end") for it in found] == ["to the end"] * len(found)


def test_a_stop_in_good_order():
    """It lets the other lead at once, and not when the lease is over."""
    lease = 600
    with postgres() as database, folder() as at:
        leader, standby = leader_and_standby(at, database.url, f"lease_seconds = {lease}\n" + kills.KEEPING)
        for job in kills.JOBS:
            Service(leader.url).open(job, kills.SETTINGS, kills.SHAPE)
        started = time.monotonic()
        assert leader.stop() == 0
        standby.wait_ready()
        handed = time.monotonic() - started
        assert handed < lease / 2, handed
        assert {job["name"] for job in Service(standby.url).jobs()} == set(kills.JOBS)
        # and one that stands by ends at once: the end of a commit may take 6 s
        leader.stand_by()
        started = time.monotonic()
        assert leader.stop() == 0 and time.monotonic() - started < 5 * slowed(), time.monotonic() - started
        return f"{handed:.2f} s after it, with a lease of {lease} s"


def test_a_database_that_does_not_sync_is_refused():
    with postgres() as database, folder() as at:
        database.stop("fast")
        database.start("-o", "-c fsync=off")
        Server(at, database.url).refuses("fsync is off", 75)
