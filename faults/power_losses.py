"""power_losses.py: the samples in examples lose power (power.py), at any call that writes and in each way.
`faults/run` builds them and calls this. ROUNDS in the environment has so many times as many losses; 0 is each.

Those with a log, and those over the durable coordinator, go on after a loss, from what they told last or from something later; the folder has what the
job knows then, and no other file.

In each one sync after the other is left out, as it were: then a loss has to do harm."""
import contextlib
import functools
import itertools
import os
import pathlib
import random
import re
import shutil
import signal
import sqlite3
import subprocess
import sys
import threading
import time
from typing import AbstractSet, NamedTuple, Optional, Set

from power import Journal, Loss, Lost, Trials, read_tree, settle, tell, write_tree
from relkvanu import Settings
from relkvanu.store import Store, StoreError

HERE = pathlib.Path(__file__).resolve().parent
PYTHON = HERE.parent / "examples/python"
SECONDS = 600  # of a process, on a busy machine
ROUNDS = int(os.environ.get("ROUNDS", "1"))
CONTROLLED = 600  # losses from which one that does harm is looked for
EACH_GOES_ON = 4  # one in so many losses of a job over the durable coordinator: the others are opened alone
COMPLETE = re.compile(rb"^record (\d+) is complete$|^complete: (\d+)$", re.M)


class Job(NamedTuple):
    """What a job has, once it was opened again."""

    choice: int  # the record that a restore begins from; 0: none
    used: Set[int]
    waiting: Set[int]
    taken: Set[int]
    deleted: Set[int]  # as its log says


def told_record(lost: Lost) -> int:
    """The last record that somebody was told of."""
    return max((int(one or other) for told in lost.told for one, other in COMPLETE.findall(told)), default=0)


def opened(path: pathlib.Path, storage: Optional[pathlib.Path]) -> Optional[Job]:
    """Opens the job as its next process does; None: there is none yet."""
    try:
        with Store(path, Settings(interval=10), [1], storage=storage) as job:
            with job.read() as reads:
                used, next = set(), 0
                while (live := reads.live_from(next)) is not None:
                    used.update(reads.pins_of(live.id), *reads.show(live.id).files.values())
                    next = live.id + 1
                choice = reads.choice()
                waiting = {reads.waiting_file(it) for it in range(reads.file_counts().waiting)}
                taken = set(reads.taken_files())
    except StoreError as error:
        assert error.name == "Absent", error
        return None
    with contextlib.closing(sqlite3.connect(path)) as database:
        lines = [line for (line,) in database.execute("SELECT line FROM log")]
    deleted = {int(line.split(" ")[1]) for line in lines if line.startswith("deleted ")}
    return Job(choice.id if choice else 0, used, waiting, taken, deleted)


def numbers(folder: pathlib.Path) -> Set[int]:
    """Of the files that are there. A part of a file counts as the file."""
    return {int(it.name.partition(".part")[0]) for it in folder.iterdir() if it.name.partition(".part")[0].isdecimal()}


def checked(lost: Lost, folder: pathlib.Path, is_marked: bool, untold: AbstractSet[int] = frozenset()) -> Optional[Job]:
    """All that somebody was told is there. Each file in use is as it was written, and none that was reported as deleted came back, beside those
    that were there when the journal began. The folder is that of a loss, in which nobody was, with job.db and state."""
    storage = folder / "state"
    job = opened(folder / "job.db", storage if is_marked else None) if storage.exists() else None
    if job is None:
        assert not told_record(lost), f"there is no job, and record {told_record(lost)} was told"
        return None
    assert job.choice >= told_record(lost), f"record {told_record(lost)} was complete, and the choice is {job.choice}"
    for file in job.used:
        found, was = lost.tree.get(f"state/{file}"), lost.whole.get(f"state/{file}")
        assert found and found == was, f"file {file} is in use: it had {was!r}, and has {found!r}"
    back = {file for file in job.deleted - untold if f"state/{file}" in lost.tree and f"state/{file}" not in lost.whole}
    assert not back, f"files {sorted(back)} were reported as deleted, and came back"
    return job


def some_of(journal, most, chance):
    """So many losses for each round."""
    return journal.points() if ROUNDS == 0 else journal.some(ROUNDS * most, chance)


def shimmed(samples, root, journal, **more):
    return {**os.environ, "RELKVANU_LIB": str(samples.library), "PYTHONPATH": str(HERE.parent / "bindings/python"), "PYTHONDONTWRITEBYTECODE": "1",
            "LD_PRELOAD": str(samples.work / "shim.so"), "STORE_IN": f"{root}", "STORE_JOURNAL": str(journal), **more}


def is_state(path):
    return path.rpartition("/")[2].partition(".")[0].isdecimal()


def life(command, known, journal, most):
    """Runs a process of a job, and notes in the journal what it prints, when it does. After so many lines the process is killed; None: it
    comes to its end."""
    with subprocess.Popen([*map(str, command)], env=known, stdout=subprocess.PIPE, stderr=subprocess.STDOUT) as process:
        watch, printed = threading.Timer(SECONDS, process.kill), []
        watch.start()
        for line in process.stdout:
            tell(journal, line)
            printed.append(line)
            if len(printed) == most:
                process.kill()
        process.wait()
        watch.cancel()
    wanted, told = 0 if most is None else -signal.SIGKILL, b"".join(printed).decode()
    assert process.returncode == wanted, f"status {process.returncode}, not {wanted}: {told}"
    assert len(printed) >= (most or 0), f"it was killed after {SECONDS} s, and had told this alone: {told}"


def last_of(log):
    """The last record that a log has, and its file."""
    found = re.findall(r"^in [0-9]+ ack [0-9]+ ([0-9]+) 0.0 [+]([0-9]+)\n", log.decode(), re.M)
    return (int(found[-1][0]), found[-1][1]) if found else (0, "")


class LogJob:
    """The job of log.c: its log is its only file beside the state files."""

    syncs = (("the log", lambda path: path == "log"), ("the new log", lambda path: path == "log.new"), ("its state files", is_state),
             ("its folder", lambda path: path == ""))
    lives = ((["new"], None), ([], None))  # words of a process, and after how many lines it is killed

    def __init__(self, samples, name, command, most):
        self.samples, self.name, self.command, self.most = samples, name, command, most
        self.env = shimmed(samples, "/nowhere", "/nowhere")
        self.root, self.journal = samples.work / f"power-{name}", samples.work / f"journal-{name}"
        del self.env["LD_PRELOAD"]

    def prepare(self):
        self.root.mkdir()

    def run(self, folder, *words):
        words = [*map(str, self.command), str(folder), *words]
        return subprocess.run(words, env=self.env, stdout=subprocess.PIPE, stderr=subprocess.STDOUT, timeout=SECONDS)

    def look(self, lost, _):
        """What has to hold of the files that are left. Returns the last record of the log."""
        told, log = told_record(lost), lost.tree.get("log")
        last, file = last_of(log or b"")
        assert last >= told, f"record {told} was complete, and the last one of the log is {last}"
        assert last == 0 or lost.tree.get(file) == lost.whole[file], f"file {file} is in use: it has {lost.tree.get(file)!r}"
        back = [file for file in re.findall(r"^deleted (\d+)\n", (log or b"").decode(), re.M) if file in lost.tree]
        assert not back, f"files {back} were reported as deleted, and are there"
        return last

    def check(self, lost, folder):
        last = self.look(lost, folder)
        ran = self.run(folder, *(["new"] if "log" not in lost.tree else []))
        complete = [int(one or other) for one, other in COMPLETE.findall(ran.stdout)]
        is_told_again = complete[:1] == [last] or last == 0  # a start tells of the last record of its log once more
        assert ran.returncode == 0 and complete and is_told_again and complete[-1] > last, ran.stdout.decode()
        assert {it.name for it in folder.iterdir()} == {"log", last_of((folder / "log").read_bytes())[1]}, list(folder.iterdir())

    def lost(self):
        chance = random.Random(self.name)
        self.prepare()
        start = read_tree(self.root)
        for words, most in self.lives:
            life([*self.command, self.root, *words], shimmed(self.samples, self.root, self.journal), self.journal, most)
            if most is not None:
                settle(self.journal, self.root, start)
        journal = Journal.read(self.journal, self.root, start)
        trials = Trials(self.samples.work / f"losses of {self.name}", self.check)
        trials.all(journal, some_of(journal, self.most, chance), chance)
        self.lose_again(trials, journal, chance)
        trials.check = self.look  # harm shows without a process that goes on
        for name, ignored in self.syncs:
            trials.control(name, journal, journal.some(CONTROLLED, chance), chance, ignored)
        return f"{trials.told(trials.tried // 4)}; each of {len(self.syncs)} syncs is missed"

    def lose_again(self, trials, journal, chance):
        """Power is lost once more while the job recovers."""
        for number, lost in enumerate(list(journal.losses(journal.some(len(Loss), chance)[::2], chance))):
            if "log" in lost.tree or "job.db" in lost.tree:
                self.untold = self.deletions_untold(lost)
                again = self.again(lost, number)
                trials.all(again, some_of(again, len(Loss), chance), chance)
        self.untold = set()

    def deletions_untold(self, lost):
        """Files that are there although their deletion was reported: the process was killed after it had deleted one, and before the shim had told
        so. What goes on from this loss has them again, and sweeps them."""
        return set()

    def again(self, lost, number):
        root, path = self.root.with_name(f"{self.root.name}-{number}"), self.journal.with_name(f"{self.journal.name}-{number}")
        write_tree(lost.tree, root)
        for told in lost.told:
            tell(path, told)
        words, _ = self.lives[1]
        life([*self.command, root, *words], shimmed(self.samples, root, path), path, None)
        return Journal.read(path, root, lost.tree)


class StoreJob(LogJob):
    """The job of durable.c in a language, or that of files.py: FOLDER/job.db and FOLDER/state."""

    syncs = (("the store's log", lambda path: path == "job.db-wal"), ("the store", lambda path: path == "job.db"),
             ("its state files", is_state), ("its storage", lambda path: path == "state"), ("its folder", lambda path: path == ""))
    # The first process has a last record that it never comes to, however late the kill. Mostly it has completed some 8.
    lives = ((["1000000", "new"], 8), (["20", "new"], None))  # a loss while the job is made may leave none
    # whether the process waits for its discarder before it ends
    joins_discarder = True

    def __init__(self, samples, name, command, most, is_marked=True):
        super().__init__(samples, name, command, most)
        self.is_marked, self.numbers, self.untold = is_marked, itertools.count(), set()

    def prepare(self):
        (self.root / "state").mkdir(parents=True)

    def look(self, lost, folder):
        """What has to hold of the job, which is opened."""
        return checked(lost, folder, self.is_marked, untold=self.untold)

    def check(self, lost, folder):
        job = self.look(lost, folder)
        if job is not None and next(self.numbers) % EACH_GOES_ON != 0:
            return
        last = self.goes_on(0 if job is None else job.choice, folder)
        after = opened(folder / "job.db", folder / "state" if self.is_marked else None)
        there = numbers(folder / "state")
        untold = set() if self.joins_discarder else after.taken - there
        assert after.choice >= last and there | untold == after.used | after.waiting | after.taken, (last, there, after)

    def deletions_untold(self, lost):
        folder = write_tree(lost.tree, self.samples.work / f"before another loss of {self.name}")
        job = checked(lost, folder, self.is_marked)
        shutil.rmtree(folder, ignore_errors=True)
        return set() if job is None else {file for file in job.deleted if f"state/{file}" in lost.tree}

    def goes_on(self, choice, folder):
        """Runs the job from this record on. Returns the number that its last record has at least."""
        ran = self.run(folder, str(choice + 4), "new")
        assert ran.returncode == 0, ran.stdout.decode()
        return choice + 3


class FirstJob(StoreJob):
    """The job of first.py: each process begins with the record that the last one completed, and makes three more. A loss while the job
    is made may leave none, so each process may make it. Its discarder is a thread that ends with the process, so the last deletion may be
    one that was not reported: the next process deletes that file once more."""

    lives = ((["new"], None), (["new"], None))
    joins_discarder = False

    def goes_on(self, choice, folder):
        ran = self.run(folder, "new")
        begins = [int(it) for it in re.findall(rb"^begins from checkpoint (\d+) with \d+$", ran.stdout, re.M)]
        assert ran.returncode == 0 and begins == [choice] * (choice != 0) and len(COMPLETE.findall(ran.stdout)) == 3, ran.stdout.decode()
        return choice + 3


class PutBack:
    """`relkvanu put-back`, over the job of stored.py that has run on after back_up.py. Once it has told the record an engine goes on from that.
    A loss before leaves what it can put back again."""

    name = "relkvanu put-back"
    syncs = (("the new file", lambda path: path.startswith(".job.db.relkvanu-new")), ("its folder", lambda path: path == ""))

    def __init__(self, samples):
        self.samples, self.root = samples, samples.work / "power-put_back"
        self.copy, self.journal = samples.work / "put_back.db", samples.work / "journal-put_back"
        self.env = shimmed(samples, "/nowhere", "/nowhere")
        del self.env["LD_PRELOAD"]

    def run(self, name, folder, *words):
        ran = subprocess.run([sys.executable, PYTHON / name, folder, *words], env=self.env, stdout=subprocess.PIPE, stderr=subprocess.STDOUT,
                             timeout=SECONDS)
        assert ran.returncode == 0, ran.stdout.decode()

    def command(self, folder):
        return [sys.executable, "-m", "relkvanu", "put-back", self.copy, folder / "job.db", folder / "state"]

    def check(self, lost, folder):
        if not any(b" goes on from " in it for it in lost.told):
            ran = subprocess.run(self.command(folder), env=self.env, stdout=subprocess.PIPE, stderr=subprocess.STDOUT, timeout=SECONDS)
            assert ran.returncode == 0, ran.stdout.decode()
        assert opened(folder / "job.db", folder / "state").choice == 20, "it is the job that was set aside"
        self.run("stored.py", folder, "40")
        job = opened(folder / "job.db", folder / "state")
        assert job.choice == 40 and not job.taken and numbers(folder / "state") == job.used | job.waiting, job

    def lost(self):
        chance = random.Random(self.name)
        (self.root / "state").mkdir(parents=True)
        self.run("stored.py", self.root, "20", "new")
        self.run("back_up.py", self.root, self.copy)
        self.run("stored.py", self.root, "30")
        start = read_tree(self.root)
        life(self.command(self.root), shimmed(self.samples, self.root, self.journal), self.journal, None)
        journal = Journal.read(self.journal, self.root, start)
        trials = Trials(self.samples.work / f"losses of {self.name}", self.check)
        end = journal.points()[-len(Loss):]  # it has told the record
        trials.all(journal, [*some_of(journal, 12, chance), *end], chance)
        for name, ignored in self.syncs:
            trials.control(name, journal, end, chance, ignored)
        return f"{trials.told(trials.tried // 4)}; each of {len(self.syncs)} syncs is missed"


def jobs(samples):
    python = [sys.executable]
    yield LogJob(samples, "log.c", ["stdbuf", "-oL", samples.work / "log"], 60)
    yield FirstJob(samples, "first.py", [*python, PYTHON / "first.py"], 24)
    for name, command in samples.durable.items():
        yield StoreJob(samples, name, command, 24)
    yield StoreJob(samples, "files.py", [*python, PYTHON / "files.py"], 24, is_marked=False)
    if samples.durable:
        yield PutBack(samples)


def tests(samples):
    """The words of each test, and what runs it."""
    flags = ["-std=gnu11", "-O2", "-Wall", "-Wextra", "-Werror", "-shared", "-fPIC"]
    subprocess.run(["cc", *flags, HERE / "shim.c", "-o", samples.work / "shim.so"], check=True)
    for job in jobs(samples):
        yield f"losses of power in {job.name}", functools.partial(print_result, job.name, job.lost)


def print_result(words, test):
    """The test, which says what it has found, and returns nothing that is wrong."""
    began = time.monotonic()
    print(f"faults: losses of power in {words}: {test()}, {time.monotonic() - began:.0f} s", flush=True)
    return []
