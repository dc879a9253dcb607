"""`relkvanu backup --keep`: a copy of each night, and a savepoint of each job as long as its copy is kept. Killed at any moment, it leaves no savepoint that nobody
knows."""
import json
import os
import pathlib
import random
import sqlite3
import subprocess

from harness import COMMAND, LOCKED, PROGRAM, Engine, Service, save, served, served_job, until
from postgres import postgres
from preloaded import SHIM, Clocks, built, shim
from relkvanu_service import cancel, dispose, savepoint
from test_commands import SETTINGS

DAY = 86400
# a kill is at each so many writes of a night, which are some hundred; the first one depends on the seed
EACH = min(12, int(os.environ.get("RELKVANU_EACH", "12")))
FIRST = 1 + random.Random(os.environ.get("SEED", "1")).randrange(EACH)


class Nights:
    """The folder of the copies of a service, on days that are set."""

    def __init__(self, server, *more):
        self.server, self.at, self.more, self.now = server, f"{server.folder}/backups", more, 0
        self.clocks = Clocks(server.folder, "nights")

    def run(self, day=None, dies=(), after=DAY):
        """So many seconds after the last one. `dies` are words before those of a process that ends at a write."""
        self.now += after
        self.clocks.set(day=self.now if day is None else DAY * day)
        words = [PROGRAM, "backup", "--to", self.at, "--keep", "3", "--savepoints", "--url", self.server.url, *self.more]
        before = [*dies, f"CLOCKS={self.clocks.environment['CLOCKS']}"] if dies else self.clocks.prefix
        told = subprocess.run([*before, *words], stdout=subprocess.PIPE, stderr=subprocess.STDOUT, text=True, timeout=COMMAND, check=False)
        return told.returncode, told.stdout

    def night(self, after=DAY):
        status, told = self.run(after=after)
        assert status == 0 and "bytes=" in told, told

    def copies(self):
        return sorted(name for name in os.listdir(self.at) if name.endswith(("Z.db", "Z.dump")))

    def noted(self, job="orders"):
        """The savepoints that stand in the notes, with their copies."""
        with open(f"{self.at}/savepoints.json", encoding="utf-8") as it:
            return {note["made"][0]: note["copy"] for note in json.load(it) if note["job"] == job}


def savepoints(job):
    return {it["id"] for it in job.state()["live"] if it["kind"] == "savepoint"}


def test_a_savepoint_goes_with_its_copy():
    with served() as server:
        nights, service = Nights(server, "--database", server.database), Service(server.url)
        orders, bills = (service.open(name, SETTINGS, [1]) for name in ("orders", "bills"))
        own = orders.call(savepoint())["id"]  # of a user, which stays
        engine = Engine(orders, bills)
        for night in range(1, 6):
            nights.night()
            assert len(nights.copies()) == min(night, 3) and sorted(nights.noted().values()) == nights.copies(), nights.noted()
            assert savepoints(orders) == {own, *nights.noted()} and savepoints(bills) == set(nights.noted("bills")), savepoints(orders)
        assert os.stat(nights.at).st_mode & 0o777 == 0o700 and sorted(os.listdir(nights.at)) == [*nights.copies(), "savepoints.json"]
        # a copy that somebody has deleted, a savepoint that somebody has disposed of, and one from which a restart begins
        first, second, third = sorted(nights.noted())
        os.remove(f"{nights.at}/{nights.noted()[second]}")
        orders.call(dispose(third))
        orders.begin(first)
        for _ in range(3):
            nights.night()
        assert first in savepoints(orders) and nights.noted()[first] not in nights.copies() and len(nights.noted()) == 4, nights.noted()
        assert savepoints(orders) == {own, *nights.noted()}
        # one job has stopped, and one is cancelled: neither gets a savepoint
        stopped = orders.stop_job()["id"]
        until(lambda: orders.state()["phase"] == "stopped")
        bills.call(cancel())
        nights.night()
        assert savepoints(orders) - set(nights.noted()) == {own, stopped}, (savepoints(orders), nights.noted())
        engine.stop()


def test_nights_of_a_wrong_clock():
    """A copy that was just made is kept if the clock is behind, and no other is deleted then. One from the future is told of each night."""
    with served_job("orders", SETTINGS, [1]) as (server, job):
        nights, engine = Nights(server, "--database", server.database), Engine(job)
        for _ in range(3):
            nights.night()
        for day in (-9000, -9001):
            status, told = nights.run(day=day)
            assert status == 1 and "the clock is or was wrong" in told and len(nights.copies()) == abs(day) - 8996, told
            assert savepoints(job) == set(nights.noted()) and len(nights.noted()) == len(nights.copies())
        nights.night()
        assert len(nights.copies()) == 3 and savepoints(job) == set(nights.noted()), nights.copies()
        engine.stop()


def test_what_a_night_can_not_do():
    """The copy is made without the service, and without a savepoint that does not get complete. A copy that can't be made leaves no savepoint."""
    with served_job("orders", {**SETTINGS, "timeout": 500}, [1]) as (server, job):
        nights = Nights(server, "--database", server.database)
        status, told = nights.run()
        assert status == 1 and "orders: savepoint 1 ended before it was complete" in told and len(nights.copies()) == 1, told
        broken = Nights(server, "--database", f"{server.folder}/none.db")
        engine = Engine(job)
        status, told = broken.run(day=40)
        assert status == 1 and "there is no backup" in told and savepoints(job) == set() and set(nights.noted()) == {1}, (told, savepoints(job))
        engine.stop()
        server.stop()
        status, told = nights.run()
        assert status == 1 and "is made, and not all that goes with it" in told and len(nights.copies()) == 2, told
        save(f"{server.folder}/service.toml", f'database = "{server.database}"\n')
        nights.more = ("--config", f"{server.folder}/service.toml")
        assert nights.run()[0] == 1 and len(nights.copies()) == 3


def test_ends_at_each_write_of_a_night():
    """The next one knows the savepoint that this one has asked for, also if it was not told its number."""
    with served_job("orders", SETTINGS, [1]) as (server, job):
        nights, engine, ended, nth = Nights(server, "--database", server.database), Engine(job), 0, FIRST - EACH
        library = f"{built(server.folder, SHIM)}:{nights.clocks.environment['LD_PRELOAD']}"
        os.mkdir(nights.at, 0o700)
        status = None
        while status != 0:
            nth += EACH
            for after in (0, 1):
                for name in os.listdir(nights.at):
                    if name.endswith("Z.db"):
                        os.remove(f"{nights.at}/{name}")
                status, told = nights.run(dies=shim(library, nights.at, die=nth, die_after=after, raw=1))
                if status != 0:
                    assert status == -9, (nth, after, told)
                    ended += 1
                    nights.night(after=60)  # as the unit gives it again
                assert savepoints(job) == set(nights.noted()) and sorted(nights.noted().values()) == nights.copies(), (nth, after, savepoints(job), nights.noted())
                assert not [name for name in os.listdir(nights.at) if ".part" in name], os.listdir(nights.at)
        engine.stop()
        assert ended > 6, ended
        return f"{ended} ends"


def test_a_savepoint_whose_number_nobody_was_told():
    """After a loss of power the next night comes when the service has forgotten the key: it asks for no second one, and tells of the first."""
    with served_job("orders", SETTINGS, [1]) as (server, job):
        nights, engine = Nights(server, "--database", server.database), Engine(job)
        nights.night()
        [(left, copy)] = nights.noted().items()
        notes = pathlib.Path(f"{nights.at}/savepoints.json")
        notes.write_text(json.dumps([{**json.loads(notes.read_text())[0], "made": None}]))
        os.remove(f"{nights.at}/{copy}")
        with sqlite3.connect(server.database, timeout=LOCKED) as base:
            base.execute("delete from request")
        status, told = nights.run()
        assert status == 1 and f"may be left of the run of {copy}, which was not told its number" in told and len(nights.copies()) == 1, told
        nights.night()
        assert savepoints(job) == {left, *nights.noted()} and len(nights.noted()) == len(nights.copies()) == 2, (savepoints(job), nights.noted())
        engine.stop()
        return f"savepoint {left}"


def test_nights_of_postgresql():
    with postgres() as database, served_job("orders", SETTINGS, [1], database=database.url) as (server, job):
        nights, engine, path = Nights(server, "--database", database.url), Engine(job), os.environ["PATH"]
        os.environ["PATH"] = f"{database.bin}:{path}"
        try:
            for _ in range(4):
                nights.night()
            assert len(nights.copies()) == 3 and all(it.endswith("Z.dump") for it in nights.copies()) and savepoints(job) == set(nights.noted())
            nights.more = ("--database", database.url + "_none")
            status, told = nights.run()
            assert status == 1 and "pg_dump" in told and len(nights.copies()) == 3 and savepoints(job) == set(nights.noted()), told
            assert not [it for it in os.listdir(nights.at) if ".part" in it], os.listdir(nights.at)
        finally:
            os.environ["PATH"] = path
            engine.stop()
