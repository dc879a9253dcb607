"""The write-ahead log of SQLite: syncs that fail, losses of power after them, and files that another program takes away; and a process that is killed at random moments, with
writers at work."""
import os
import random

import kills
from harness import Server, check_log, folder, over_copy, served, sqlite
from power import Journal, Loss, write_tree
from preloaded import SHIM, built, shim
from relkvanu_service import Service

JOB = {"name": "orders", "settings": {"interval": 1 << 40}, "shape": [1]}
TICK = {"calls": [{"call": "tick"}]}


def journaled(library, server, **given):
    """Words before those of the service: what it does to its database is in a journal."""
    return shim(library, server.database, journal=f"{server.folder}/journal", **given)


def after_power_loss(server, at):
    """A service over what a loss of power leaves: the bytes that were synced."""
    place = f"{at}/after-{random.randrange(1 << 30)}"
    journal = Journal.read(f"{server.folder}/journal", os.path.realpath(server.folder))
    (lost,) = journal.losses([(len(journal.records), Loss.SYNCED)], random.Random(1))
    return Server(write_tree(lost.tree, place))


def tick(server):
    """Makes a call, and returns its place, or None if it was not answered."""
    told = server.request("POST", "/v1/jobs/orders/calls", TICK)
    return told[2]["answers"][0]["seq"] if told[0] == 200 else None


def check_acknowledged(acknowledged, server, at):
    """Each call that was acknowledged is there after a loss of power, and the log is whole."""
    with over_copy(after_power_loss(server, at)) as (state, log):
        lost = sorted(seq for seq in acknowledged if seq > state["seq"])
        assert not lost, f"{len(lost)} of {len(acknowledged)} acknowledged calls are lost, from call {lost[0]} on"
        check_log(state, [1], log)


def test_a_loss_of_power_after_a_failed_sync():
    """The process ends when the sync fails. It starts again, acknowledges calls, and then the power is lost."""
    with folder() as at:
        library, server = built(at, SHIM), Server(at)
        server.prefix = journaled(library, server)
        server.start()
        server.request("POST", "/v1/jobs", JOB)
        acknowledged = [tick(server) for _ in range(5)]
        server.stop()
        server.prefix = journaled(library, server, fault="sync", on="-wal$", at=20)
        server.start()
        while (seq := tick(server)) is not None:
            acknowledged.append(seq)
            assert len(acknowledged) < 50, "no sync failed"
        assert server.ended() == 75, server.log()[-400:]
        assert "disk I/O error" in server.log(), server.log()[-400:]
        # a start that is killed before it has served has settled nothing that was answered
        server.prefix = journaled(library, server)
        server.start()
        acknowledged += [tick(server) for _ in range(20)]
        server.kill()
        assert None not in acknowledged and len(acknowledged) == len(set(acknowledged)), acknowledged
        check_acknowledged(acknowledged, server, at)
        return f"{len(acknowledged)} acknowledged calls, 20 of them after the failed sync"


def test_a_log_that_another_program_deletes():
    """As the sqlite3 shell does at its end, if this process lost its lock on the database: no call is acknowledged after it."""
    with served() as server:
        server.request("POST", "/v1/jobs", JOB)
        acknowledged = [tick(server) for _ in range(5)]
        sqlite(server.database, "pragma wal_checkpoint(full)")
        os.unlink(f"{server.database}-wal")
        acknowledged += [seq for seq in (tick(server) for _ in range(3)) if seq]
        if server.process.poll() is None:
            server.kill()
        assert server.ended() == 75, server.log()[-300:]
        # its own readers may have made a new one
        assert any(text in server.log() for text in ("-wal: No such file", "-wal: another program has replaced")), server.log()[-300:]
        server.start()
        assert Service(server.url).job("orders").state()["seq"] >= max(acknowledged), acknowledged
        return f"{len(acknowledged)} calls were acknowledged before it"


def test_a_journal_that_is_no_write_ahead_log():
    """If a sync fails while a new database is switched to its write-ahead log, SQLite may say that it was."""
    with folder() as at:
        library = built(at, SHIM)
        modes, ends = set(), 0
        for number in range(1, 7):
            place = f"{at}/{number}"
            os.mkdir(place)
            server = Server(place)
            server.prefix = shim(library, server.database, fault="sync", on=".db$", at=number)
            server.start(ready=False)
            try:
                server.wait_ready(10)
            except AssertionError:
                assert server.ended() == 75, server.log()[-300:]
                ends += 1
                server.prefix = []
                server.start()
            server.request("POST", "/v1/jobs", JOB)
            assert tick(server) is not None
            modes.add(os.path.exists(f"{server.database}-wal"))
            server.kill()
        assert modes == {True}, "a service runs without a write-ahead log"
        return f"{ends} of 6 starts ended with 75, and each next one served"


def test_kills():
    return kills.run(int(os.environ.get("RELKVANU_KILLS", "6")))
