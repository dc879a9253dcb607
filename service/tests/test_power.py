"""Losses of power: the service over SQLite, `relkvanu clean` and an engine run under faults/shim.c, over
one machine. Whatever a loss leaves (faults/power.py), the service starts again, each answered call has its place and its answer, and no
file in use is missing. RELKVANU_LOSSES has so many times as many; 0 is each loss at each call that writes."""
import json
import os
import queue
import random
import subprocess
import sys
import time
from contextlib import contextmanager

from harness import COMMAND, HERE, LOG_ORACLE, PROGRAM, Archive, Server, check_log, content, folder, until
from power import Journal, Loss, Trials, read_tree, write_tree
from power_engine import SHAPE, SUBTASKS, Engine
from preloaded import SHIM, built, shim
from relkvanu_service import Service, cancel, dispose
from writers import check_made

ROUNDS = int(os.environ.get("RELKVANU_LOSSES", "1"))
KEEPING = ["--image-calls", "20", "--keep-calls", "30"]
MOST, AGAIN = 24, 6  # losses: of a job at work, and while a start recovers
WORKERS = 2
EACH_GOES_ON = 8


def server_in(root, at, prefix=()):
    """A service with all of its files in a folder, and its output elsewhere."""
    server = Server(root, args=[*KEEPING, "--history", f"{root}/history"], prefix=prefix)
    server.log_path = f"{at}/log-{server.port}"
    return server


@contextmanager
def beside(server, prefix, told):
    """The engine and the cleaner at work. They are killed at the end."""
    files = f"{server.folder}/files"
    known = ["--folder", files, "--url", server.url, "--prefix", "s-"]
    # the crate rustix makes system calls itself
    cleans = ["STORE_RAW=1", PROGRAM, "clean", "--job", "orders", *known, "--every", "1s"]
    words = [[sys.executable, f"{HERE}/power_engine.py", server.url, files, told], cleans]
    with open(f"{server.log_path}-beside", "ab") as log:
        processes = [subprocess.Popen([*prefix, *it], stdout=log, stderr=log) for it in words]
    try:
        yield processes
    finally:
        for process in processes:
            process.kill()
            process.wait()


class Recorded:
    """A service at work in the folder `root` below `at`, and its journal."""

    def __init__(self, at, start=None, name="root"):
        self.at, self.root = os.path.realpath(at), os.path.realpath(f"{at}/{name}")
        self.path, self.told = f"{self.at}/{name}-journal", f"{self.at}/{name}-told"
        os.makedirs(f"{self.root}/files", exist_ok=True)
        self.start = read_tree(self.root) if start is None else start
        library = f"{self.at}/shim.so" if os.path.exists(f"{self.at}/shim.so") else built(self.at, SHIM)
        self.prefix = shim(library, self.root, journal=self.path, told=self.told)
        self.server = server_in(self.root, self.at, self.prefix)

    def run(self, calls, kills=0):
        """Until so many calls were made after each start."""
        self.server.start()
        with beside(self.server, self.prefix, self.told) as processes:
            for life in range(kills + 1):
                least = (self.place() or 0) + calls
                until(lambda: (self.place() or 0) >= least, 60, told=self.told_beside)
                self.server.kill()
                if life < kills:
                    self.server.start()
            assert all(it.poll() is None for it in processes[:2]), self.told_beside()
        return self.journal()

    def journal(self):
        return Journal.read(self.path, self.root, self.start)

    def place(self):
        status, _, told = self.server.get("/v1/jobs/orders")
        return told["seq"] if status == 200 else None

    def told_beside(self):
        return content(f"{self.server.log_path}-beside")[-800:]


class Checks:
    """Starts services over what losses leave."""

    def __init__(self, at, has_archive):
        self.at, self.has_archive = at, has_archive
        self.servers, self.number, self.goes_on = queue.Queue(), 0, 0
        for number in range(WORKERS):
            place = f"{at}/server-{number}"
            os.mkdir(place)
            self.servers.put(server_in(place, at))

    @contextmanager
    def served(self, left):
        server = self.servers.get()
        server.folder, server.database = str(left), f"{left}/relkvanu.db"
        server.args[server.args.index("--history") + 1] = f"{left}/history"
        try:
            yield server.start()
        finally:
            server.kill()
            self.servers.put(server)

    def check(self, lost, left):
        made = [pair for told in lost.told for line in told.splitlines() for pair in zip(*json.loads(line)) if "seq" in pair[1]]
        with self.served(left) as server:
            status, _, state = server.get("/v1/jobs/orders")
            if status == 404:
                assert not made, f"{len(made)} calls were answered, and the job is lost"
                return
            last = max((answer["seq"] for _, answer in made), default=0)
            assert state["seq"] >= last, f"call {last} was answered, and the log ends with {state['seq']}"
            log = self.log(server)
            if self.has_archive or state["first"] == 1:
                check_made(made, log, set())
            check_files(lost, server, state, log)
            self.number += 1
            if self.number % EACH_GOES_ON == 0:
                self.go_on(server, state, log)

    def log(self, server):
        if not self.has_archive:
            return list(Service(server.url).job("orders").log(terms=True))
        archive = Archive.__new__(Archive)
        archive.path = server.database
        return archive.log("orders")

    def go_on(self, server, state, log):
        """The engine goes on. When its job has ended, no file is left."""
        if os.path.exists(LOG_ORACLE) and len(log) == state["seq"]:
            check_log(state, SHAPE, log)
        files = f"{server.folder}/files"
        engine = Engine(Service(server.url), files)
        assert next(engine.checkpoints(Serial())) > 0
        for record in engine.job.state()["live"]:
            if record["kind"] == "savepoint" and record["done"]:
                engine.job.call(dispose(record["id"]))
        engine.job.call(cancel())
        words = [PROGRAM, "clean", "--job", "orders", "--once", "--allow-absent", "--folder", files, "--url", server.url, "--prefix", "s-"]
        told = subprocess.run(words, capture_output=True, text=True, timeout=COMMAND, check=False)
        assert told.returncode == 0, told.stderr
        left = [name for name in os.listdir(files) if name.startswith("s-")]
        assert not left, f"{left} are left"
        self.goes_on += 1


class Serial:
    map = staticmethod(map)


def check_files(lost, server, state, log):
    """Each file in use is as it was written, and none that was reported as deleted came back."""
    for record in state["live"]:
        for ack in server.get(f"/v1/jobs/orders/records/{record['id']}")[2]["live"]["acks"]:
            for file in ack["files"]:
                found, was = lost.tree.get(f"files/s-{file}"), lost.whole.get(f"files/s-{file}")
                assert found and found == was, f"file {file} of record {record['id']} is in use: it had {was!r}, and has {found!r}"
    gone = {entry["line"].split(" ")[1] for entry in log if entry["line"].startswith("deleted ")}
    back = [file for file in gone if f"files/s-{file}" in lost.tree and f"files/s-{file}" not in lost.whole]
    assert not back, f"files {back} were reported as deleted, and came back"


def points(journal, most, chance):
    return journal.points() if ROUNDS == 0 else journal.some(ROUNDS * most, chance)


def test_a_job_at_work():
    """It is killed and started again meanwhile. Power is lost once more while a start recovers. Each kind of sync is left out in turn, as it
    were: then a loss has to do harm."""
    chance = random.Random(int(os.environ.get("SEED", "1")))
    with folder() as at:
        first = server_in(f"{at}/root", at) if os.mkdir(f"{at}/root") is None else None
        first.start()
        first.stop()
        Archive(first.database)
        recorded = Recorded(at)
        journal = recorded.run(250, kills=1)
        checks = Checks(at, has_archive=True)
        trials = Trials(f"{at}/losses", checks.check, WORKERS)
        trials.all(journal, points(journal, MOST, chance), chance)
        lose_again(at, trials, journal, chance)
        syncs = {
            "its log": lambda path: path == "relkvanu.db-wal", "its database": lambda path: path == "relkvanu.db",
            "the engine's files": lambda path: path.startswith("files/s-"), "the folder of files": lambda path: path == "files",
        }
        for name, ignored in syncs.items():
            trials.control(name, journal, journal.some(4 * MOST, chance), chance, ignored)
        assert checks.goes_on > 0
        return f"{trials.told(MOST // 2)}; after {checks.goes_on} the job went to its end; each of {len(syncs)} syncs is missed"


def lose_again(at, trials, journal, chance):
    some = list(journal.losses(journal.some(len(Loss), chance), chance))
    lost = max(some, key=lambda it: len(it.told))
    write_tree(lost.tree, f"{at}/again")
    recorded = Recorded(at, lost.tree, "again")
    with open(recorded.told, "wb"):
        pass
    recorded.server.start()
    time.sleep(0.1)
    recorded.server.kill()
    again = recorded.journal()
    assert again.records, "the start has written nothing"
    losses = again.losses(points(again, AGAIN, chance), chance)
    trials.each(it._replace(told=lost.told, whole={**lost.whole, **it.whole}) for it in losses)


def test_a_new_database():
    """At calls of its first moments that write, and of those of its first job."""
    chance = random.Random(int(os.environ.get("SEED", "1")))
    with folder() as at:
        recorded = Recorded(at)
        journal = recorded.run(len(SUBTASKS) + 1)
        checks = Checks(at, has_archive=False)
        trials = Trials(f"{at}/losses", checks.check, WORKERS)
        trials.all(journal, points(journal, 66, chance), chance)
        trials.control("its folder", journal, journal.points(), chance, lambda path: path == "")
        return f"{trials.told(33)}; the sync of its folder is missed"
