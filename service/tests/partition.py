"""Partitions: two services over PostgreSQL, whose lines to it are cut, which are stopped, whose clocks jump, and a database that is stopped,
with clients at work at both. partition.py [SECONDS] does it for 10 minutes."""
import asyncio
import os
import random
import signal
import sys
import threading
import time

from harness import PgArchive, Server, configured, content, folder, kept
from postgres import postgres
from preloaded import Clocks
from slow import Proxy
from writers import SETTINGS, Writer, check, end

JOBS = ["orders", "users"]
SETTINGS = {**SETTINGS, "interval": 25, "timeout": 3000}
SHAPE = [2, 4]
CONFIG = "lease_seconds = 2\nimage_calls = 200\nkeep_calls = 400\n"
HOUR = 3600
LEAST, BUSY = 100, 900  # calls of each client; seconds more, on a busy machine
PAUSE = float(os.environ.get("RELKVANU_PAUSE", "0.25"))  # of a client, in seconds: a fault lasts longer, so each meets it. Without they take two processors


class Line(Proxy):
    """The line of a service to the database. While it is cut, nothing goes through in either direction, and no end is told."""

    def __init__(self, to):
        self.is_cut = False
        super().__init__(to)

    async def whole(self):
        while self.is_cut:
            await asyncio.sleep(0.01)

    async def connected(self, reader, writer):
        await self.whole()
        await super().connected(reader, writer)

    async def passed(self, data, link, answers):
        await self.whole()
        return data

    async def ended(self):
        await self.whole()


class Floor:
    """The last place of each job that was answered to anybody."""

    def __init__(self):
        self.lock, self.places = threading.Lock(), {}

    def of(self, job):
        with self.lock:
            return self.places.get(job, 0)

    def raised(self, job, seq):
        with self.lock:
            self.places[job] = max(self.places.get(job, 0), seq)


class Client(Writer):
    """A writer that also looks whether what it reads is as new as all that was answered before it asked."""

    LEAST, PAUSE = LEAST, PAUSE

    def __init__(self, urls, job, number, floor):
        super().__init__(urls, job, number)
        self.floor, self.reads = floor, 0
        self.read, self.job.state = self.job.state, self.state

    def state(self):
        floor = self.floor.of(self.name_of_job)
        told = self.read()
        self.reads += 1
        if told["seq"] < floor:
            self.errors.append(f"a read of {self.name_of_job} has {told['seq']} calls, and call {floor} was answered before it")
        return told

    def send(self, calls):
        before = len(self.made)
        super().send(calls)
        for _, answer in self.made[before:]:
            self.floor.raised(self.name_of_job, answer["seq"])


def family(database):
    """The processes of the database."""
    with open(f"{database.data}/postmaster.pid", encoding="utf-8") as it:
        parent = int(it.readline())
    return [parent, *map(int, content(f"/proc/{parent}/task/{parent}/children").split())]


def send_signal(processes, what):
    for process in processes:
        try:
            os.kill(process, what)
        except ProcessLookupError:
            pass  # one that served a connection has ended


class Faults:
    """One fault at a time, for a while: each of the kinds once before one comes again."""

    KINDS, LONGEST = [], 5

    def __init__(self, chance, database, servers, lines, clocks):
        self.chance, self.database, self.servers, self.lines, self.clocks = chance, database, servers, lines, clocks
        self.deck, self.made = [], dict.fromkeys(self.KINDS, 0)

    def next(self):
        if not self.deck:
            self.deck = self.chance.sample(self.KINDS, len(self.KINDS))
        fault = self.deck.pop()
        self.made[fault] += 1
        getattr(self, fault.replace(" ", "_"))(self.place(), self.chance.uniform(0.5, self.LONGEST))

    def place(self):
        return self.chance.randrange(len(self.servers))

    def go_on(self, clients, seconds, least_epoch=0):
        """Starts these clients, and makes faults for so many seconds, and until each kind was made, each client has made some calls, and so many
        leaders have led. They end once all is whole again."""
        for client in clients:
            client.start()
        deadline = time.monotonic() + seconds
        while time.monotonic() < deadline or self.is_too_little(clients) or self.epoch() < least_epoch:
            assert time.monotonic() < deadline + BUSY, ([len(client.made) for client in clients], self.made, self.epoch(), least_epoch)
            self.next()
            time.sleep(self.chance.uniform(0.3, 3))
            errors = [client.errors for client in clients if client.errors]
            assert not errors, errors
        time.sleep(5)
        end(clients)

    def is_too_little(self, clients):
        return 0 in self.made.values() or any(len(client.made) < client.LEAST for client in clients)

    def epoch(self):
        return int(self.database.sql("select epoch from leader"))

    def said(self):
        return ", ".join(f"{count} {fault}" for fault, count in self.made.items())

    def suspend(self, processes, seconds):
        send_signal(processes, signal.SIGSTOP)
        time.sleep(seconds)
        # in any order
        self.chance.shuffle(processes)
        send_signal(processes, signal.SIGCONT)

    def cut(self, place, seconds):
        self.lines[place].is_cut = True
        time.sleep(seconds)
        self.lines[place].is_cut = False

    def suspended(self, place, seconds):
        self.suspend([self.servers[place].process.pid], seconds)

    def killed(self, place, _):
        send_signal([self.servers[place].process.pid], signal.SIGKILL)

    def clock(self, place, seconds):
        """Jobs that move meanwhile go on from the moments that they have."""
        self.clocks[place].set(day=self.chance.choice([-HOUR, -5, 5, HOUR, 20 * HOUR]))
        time.sleep(seconds)
        self.clocks[place].set()

    def database_suspended(self, _, seconds):
        """Neither a line nor a process tells that it is."""
        self.suspend(family(self.database), min(seconds, 3))


class FaultsOfTwo(Faults):
    """Those of a leader and of the process beside it."""

    KINDS = ["cut", "suspended", "killed", "clock", "database suspended", "both cut", "all suspended"]

    def place(self):
        """More often the leader than the other."""
        place = next((place for place, server in enumerate(self.servers) if server.get("/readyz")[0] == 200), 0)
        return place if self.chance.random() < 0.7 else 1 - place

    def both_cut(self, place, seconds):
        self.lines[place].is_cut = True
        self.cut(1 - place, min(seconds, 2))
        self.lines[place].is_cut = False

    def all_suspended(self, _, seconds):
        """As a machine with all of them is that its host suspends."""
        self.suspend([*(server.process.pid for server in self.servers), *family(self.database)], seconds)


def worked(servers, clients, faults, archive, seconds, least_epoch=0):
    """The clients at work, and the faults. Returns how many calls were answered, and a sentence on them."""
    service = clients[0].service
    with kept(*servers) as ended:
        for job in JOBS:
            service.open(job, SETTINGS, SHAPE)
        faults.go_on(clients, seconds, least_epoch)
        found = [check(clients, service, job, SHAPE, archive) for job in JOBS]
    for server in servers:
        server.stop()
    wrong = [status for status in ended if status not in (75, -9)]
    assert not wrong, (wrong, [server.log()[-600:] for server in servers])
    made, logged, oracle = (sum(one[part] or 0 for one in found) for part in range(3))
    calls = f"{made} calls answered, {logged} in the log, {oracle} as the proved programs answer them"
    return made, f"{seconds} s with faults ({faults.said()}): {calls}; {sum(client.reads for client in clients)} reads, none old"


def run(seconds, seed=1):
    with postgres() as database, folder() as at:
        lines = [Line(database.port) for _ in range(2)]
        clocks = [Clocks(at, f"clocks-{place}") for place in range(2)]
        urls = [database.url.replace(str(database.port), str(line.port)) for line in lines]
        servers = [Server(at, urls[place], configured(at, CONFIG), clocks[place].prefix) for place in range(2)]
        servers[0].start()
        archive = PgArchive(database)
        servers[1].stand_by()
        addresses, floor = [server.url for server in servers], Floor()
        clients = [Client(addresses, JOBS[number % 2], number, floor) for number in range(10)]
        faults = FaultsOfTwo(random.Random(seed), database, servers, lines, clocks)
        made, said = worked(servers, clients, faults, archive, seconds, seconds // 30 + 1)
        epochs = faults.epoch()
        assert made > 10 * seconds and epochs > seconds // 30, (made, epochs, faults.made)
        return f"{epochs} leaders, {said}"


if __name__ == "__main__":
    print(run(int((sys.argv[1:] or ["600"])[0])))
