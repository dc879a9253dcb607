"""A replica of PostgreSQL that is promoted, with services and writers at work. With synchronous replication it has each call that was answered. Partitions between
two services and their database, and clients that keep a history: partition.py. RELKVANU_PARTITION makes them longer."""
import os
import signal
import time

import kills
from harness import COMMAND, PgArchive, Server, beside, configured, folder, kept, until
from partition import Client, Floor, family, run, send_signal
from postgres import Replica, postgres
from relkvanu_service import Service
from writers import made_by


def test_a_replica_that_is_promoted():
    with postgres() as database, folder() as at:
        replica = Replica(database)
        try:
            hosts = f"127.0.0.1:{database.port},127.0.0.1:{replica.port}"
            url = f"postgres://postgres@{hosts}/postgres?target_session_attrs=read-write"
            servers = [Server(at, url, configured(at, "lease_seconds = 2\n" + kills.KEEPING)) for _ in range(2)]
            servers[0].start()
            servers[1].stand_by()
            archive, found = PgArchive(database), []
            with kept(*servers) as ended, kills.writers_at([server.url for server in servers], found, archive) as writers:
                time.sleep(1.5)
                until(lambda: made_by(writers) > 50, told=lambda: [server.log()[-600:] for server in servers])
                send_signal(family(database), signal.SIGKILL)
                os.remove(f"{database.data}/postmaster.pid")
                before = made_by(writers)
                replica.promote()
                archive.database = replica
                until(lambda: made_by(writers) >= before + 200, 60, told=lambda: [server.log()[-600:] for server in servers])
            wrong = [status for status in ended if status != 75]
            assert not wrong and before > 50, (wrong, before, [server.log()[-600:] for server in servers])
            return f"{before} calls answered before; {found[0]}"
        finally:
            replica.stop()


WAITING = "from pg_stat_activity where application_name = 'relkvanu' and wait_event = 'SyncRep'"


def test_a_cancelled_wait_for_the_replica():
    """PostgreSQL keeps a commit whose wait is cancelled, and warns: the service does not answer it, ends, and serves once the replica has it."""
    with postgres() as database, folder() as at:
        replica = Replica(database)
        server = Server(at, database.url, configured(at, "lease_seconds = 600\n"))
        try:
            server.start()
            Service(server.url).open("orders", {"interval": 1 << 40}, [1])
            replica.stop()
            answers, said = [], {"calls": [{"call": "savepoint"}]}
            asked = beside(lambda: answers.append(server.request("POST", "/v1/jobs/orders/calls", said, headers=[("Idempotency-Key", "k")])))
            until(lambda: database.sql(f"select count(*) {WAITING}") == "1", told=server.log)
            database.sql(f"select pg_cancel_backend(pid) {WAITING}")
            assert server.ended() == 75 and "wait for a synchronous replica" in server.log(), server.log()[-600:]
            asked.join(COMMAND)
            assert [status for status, _, _ in answers] == [0], answers
            # it was committed here, and is answered to nobody before the replica is back
            assert database.sql("select count(*) from call") == "2"
            database.sql("set synchronous_commit = off; update leader set name = ''")  # its lease is long, so that calls alone are committed
            server.start(ready=False)
            with kept(server):
                until(lambda: database.sql(f"select count(*) {WAITING}") != "0", told=server.log)
                assert server.get("/v1/jobs/orders")[0] != 200
                replica.start()
                server.wait_ready(kept=True)
            assert Service(server.url).job("orders").state()["seq"] == 2
            assert replica.sql("select count(*) from call") == "2"
        finally:
            replica.stop()


def test_partitions():
    return run(int(os.environ.get("RELKVANU_PARTITION", "30")))


def test_an_old_read_is_seen():
    """By what looks at the reads of the clients."""
    floor = Floor()
    client = Client(["http://127.0.0.1:1"], "orders", 0, floor)
    client.read = lambda: {"seq": 4}
    floor.raised("orders", 4)
    floor.raised("users", 9)
    client.state()
    assert not client.errors, client.errors
    floor.raised("orders", 5)
    client.state()
    assert client.errors == ["a read of orders has 4 calls, and call 5 was answered before it"], client.errors
