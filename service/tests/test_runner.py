"""The runner over each coordinator and each storage, killed at random moments: what its sink has put out is each line once. RELKVANU_RUNNER_KILLS is how often in
each combination."""
import collections
import contextlib
import functools
import glob
import importlib
import json
import os
import random
import signal
import sqlite3
import subprocess
import sys
import time

from harness import BUSY, HERE, TOP, Server, content, folder, folders, served, until
from places import s3_server
from postgres import postgres
from relkvanu_service import Service
from test_events import Copy

KILLS = int(os.environ.get("RELKVANU_RUNNER_KILLS", "3"))
ENGINE = f"{HERE}/runner_engine.py"
LONGEST = 2.0  # seconds until a kill, at most


class Lines:
    """What the sink has put out: a folder of files, or a table of SQLite or PostgreSQL."""

    def __init__(self, to):
        self.to, self.counts, self.read = to, collections.Counter(), set()
        if not os.path.isdir(to):
            self.asked("CREATE TABLE lines (word VARCHAR(20), number BIGINT)")

    def asked(self, *statements):
        """What the last one finds. With psycopg2 a database is a URL."""
        connect = importlib.import_module("psycopg2").connect if self.to.startswith("postgres:") else sqlite3.connect
        with contextlib.closing(connect(self.to)) as database:
            at = database.cursor()
            for it in statements:
                at.execute(it)
            found = at.fetchall() if at.description else []
            database.commit()
        return found

    def count(self):
        """How many files or rows there are."""
        if os.path.isdir(self.to):
            return len(glob.glob(f"{self.to}/*.jsonl"))
        return self.asked("SELECT count(*) FROM lines")[0][0]

    def check(self, whole=False):
        """Each word has each number from 1 on, once and in order (a table has none). Returns how many lines there are. What is published stays as it is, so
        files are read once, and all of them again if the `whole` is looked at: after some hundred kills there are millions of lines."""
        if not os.path.isdir(self.to):
            rows = self.asked("SELECT word, count(*), count(DISTINCT number), min(number), max(number) FROM lines GROUP BY word")
            assert all(told == [count, 1, count] for _, count, *told in rows), rows
            return sum(it[1] for it in rows)
        if whole:
            self.counts, self.read = collections.Counter(), set()
        last = max(glob.glob(f"{self.to}/*.jsonl"), default="")  # a listing may lack a file that was published meanwhile, before another that it has
        for path in sorted(it for it in glob.glob(f"{self.to}/*.jsonl") if it <= last and it not in self.read):
            with open(path, encoding="utf-8") as it:
                for word, number in map(json.loads, it):
                    self.counts[word] += 1
                    assert number == self.counts[word], (path, word, number, self.counts[word])
            self.read.add(path)
        return sum(self.counts.values())


class Run:
    """An engine that is killed and started again."""

    def __init__(self, at, coordinator, files, to, **around):
        self.at, self.words, self.lines, self.around = at, [sys.executable, ENGINE, coordinator, files, to], Lines(to), around
        self.process = None

    def start(self):
        with open(f"{self.at}/told", "ab") as told:
            around = {**os.environ, **self.around, "PYTHONPATH": ":".join(f"{TOP}/{it}" for it in ("bindings/python", "service/client/python", "examples/python"))}
            self.process = subprocess.Popen(self.words, cwd=self.at, stdout=told, stderr=told, env=around)

    def kill(self, dice):
        """Kills it at a random moment, each fourth time once it has published something: a busy machine takes long to start it. It must not have ended by itself."""
        if dice.random() < 0.25:
            before = self.lines.count()
            until(lambda: self.lines.count() > before or self.process.poll() is not None, 60, told=self.told)
        time.sleep(dice.uniform(0, LONGEST))
        assert self.process.poll() is None, self.told()
        self.process.send_signal(signal.SIGKILL)
        self.process.wait()

    def told(self):
        return content(f"{self.at}/told")[-2000:]

    def stop(self):
        """Lets it get on, and then stops the job with a savepoint."""
        before = self.lines.check()
        until(lambda: self.lines.check() > before, told=self.told)
        self.process.terminate()
        assert self.process.wait(BUSY * 60) == 0 and self.told().endswith("STOPPED\n"), self.told()
        return self.lines.check(whole=True)


def killed(run, kills, seed, between=lambda dice: None):
    """Returns how many lines there are at the end, and of how many kills the engine had published something since the one before."""
    dice, last, moved = random.Random(seed), 0, 0
    try:
        for _ in range(kills):
            run.start()
            between(dice)
            run.kill(dice)
            lines = run.lines.check()
            moved, last = moved + (lines > last), lines
        run.start()
        return run.stop(), moved
    finally:
        if run.process.poll() is None:
            run.process.kill()
        run.process.wait()


def bucket(name):
    """A bucket of the S3 server that the process shares."""
    import boto3

    env = s3_server()
    os.environ.update(env)
    boto3.client("s3", endpoint_url=env["S3_ENDPOINT"], region_name=env["S3_REGION"]).create_bucket(Bucket=name)
    return f"s3://{name}/count"


@contextlib.contextmanager
def durable(at):
    yield f"{at}/job.db", lambda dice: None, None


@contextlib.contextmanager
def over_sqlite(at):
    """The service is killed too, and started again."""
    server = Server(at).start()

    def kill_service(dice):
        if dice.random() < 0.3:
            time.sleep(dice.uniform(0, 0.5))
            server.again()

    yield server.url, kill_service, None
    server.stop()


@contextlib.contextmanager
def over_postgres(at):
    """The leader is killed too: the standby takes over, and what was killed stands by."""
    with postgres() as database:
        servers = [Server(f"{at}/{it}", database=database.url) for it in ("one", "two")]
        for it in servers:
            os.mkdir(it.folder)
        leads = [servers[0].start(), servers[1]]
        servers[1].stand_by()

        def kill_leader(dice):
            if dice.random() < 0.2:
                leads[0].kill()
                until(lambda: leads[1].get("/readyz")[0] == 200, told=leads[1].log)
                leads.reverse()
                leads[1].start(ready=False)

        yield ",".join(it.url for it in servers), kill_leader, database.url
        for it in servers:
            it.stop()


def test_a_second_process_takes_the_job():
    """The first one ends, and says why; an operator's restore ends nobody."""
    with folder() as at:
        folders(at, "files", "out", "one", "two")
        with over_sqlite(at) as (address, _, _):
            first, second = (Run(f"{at}/{it}", address, f"{at}/files", f"{at}/out") for it in ("one", "two"))
            first.start()
            until(first.lines.check, told=first.told)
            Service(address).job("count").begin()
            before = first.lines.check()
            until(lambda: first.lines.check() > before, told=first.told)
            second.start()
            assert first.process.wait(BUSY * 60) == 1 and "Superseded: another process has begun the job" in first.told(), first.told()
            lines = second.stop()
        return f"{lines} lines, each once"


def sample(at, address):
    """A run of examples/service/counts.py."""
    folders(at, "state", "out")
    run = Run(at, address, "state", f"{at}/out")
    run.words = [sys.executable, f"{TOP}/examples/service/counts.py", address]
    return run


def test_the_sample():
    """It goes on from where a signal has stopped it too."""
    with folder() as at:
        with over_sqlite(at) as (address, between, _):
            run = sample(at, address)
            stopped, _ = killed(run, KILLS, 1, between)
            lines, _ = killed(run, 0, 1)
        assert lines > stopped
        return f"{KILLS} kills; {lines} lines, each once"


def test_the_sample_ends_if_a_backup_was_restored():
    with folder() as at, served() as server:
        copy, run = Copy(server, None), sample(at, server.url)
        run.start()
        until(run.lines.check, told=run.told)
        copy.make()
        before = run.lines.check()
        until(lambda: run.lines.check() > before, told=run.told)
        copy.restore()
        assert run.process.wait(BUSY * 60) == 78 and "a backup of the service was restored" in run.told(), run.told()
        return f"{run.lines.check()} lines, each once"


def combination(coordinator, files, to):
    """Kills one, and compares the files at the end with those in use."""
    with folder() as at:
        folders(at, "files", "out")
        place = {"bucket": lambda: bucket(f"runner-{coordinator.__name__}".replace("_", "-")), "foreign": lambda: f"foreign:{at}/files"}.get(
            files, lambda: f"{at}/files")()
        with coordinator(at) as (address, between, database):
            run = Run(at, address, place, f"{at}/out" if to == "files" else database or f"{at}/out.db")
            lines, moved = killed(run, KILLS, 1, between)
            if address.startswith("http"):
                counts = Service(*address.split(",")).job("count").state()["files"]
                assert counts["waiting"] == counts["taken"] == 0, counts
        left = [it for it in os.listdir(f"{at}/out") if it.startswith(".")]
        assert not left, left
        return f"{KILLS} kills, {moved} of them after progress; {lines} lines, each once"


COMBINATIONS = [
    (durable, "folder", "files"), (durable, "foreign", "table"), (durable, "bucket", "files"), (over_sqlite, "folder", "table"), (over_sqlite, "bucket", "files"),
    (over_postgres, "folder", "files"), (over_postgres, "bucket", "table"),
]
globals().update({f"test_{it[0].__name__}_{it[1]}": functools.partial(combination, *it) for it in COMBINATIONS})
