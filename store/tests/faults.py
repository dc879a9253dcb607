#!/usr/bin/env python3
"""faults.py BIN [ROUNDS]: runs scenario and crowd of the folder BIN while something fails, as shim.c makes it fail, and has verify look
at what is left.

- The process ends before and after each call that writes, of a new job and of a recovery.
- Each call that writes, syncs, makes or cuts a file fails once, and from then on; so do reads, short writes, full disks and quotas.
- The same, at fewer calls, of jobs whose tasks put files. Power is lost at a
  call, too: each file in use is there, and the next process leaves no other.
- The same while a backup is made. Each backup that has its name is whole, and has what was answered before; what fails for the backup
  alone stops no call; and the next backup of that name succeeds.
- The same while an operator's command is made: all of it was done, or nothing, and what was answered was done.
- A crowd of threads is killed at 20 random moments; loses power, so that only what was synced is left, or something of the rest (power.py);
  and goes on after syncs that fail. ROUNDS (default 1) multiplies these.

With one round each third call fails, or less. SEED chooses at which of them processes end. With more rounds each call does.

The last line has the counts."""
import concurrent.futures
import errno
import itertools
import os
import pathlib
import random
import shutil
import signal
import subprocess
import sys
import tempfile
import time

sys.path.insert(0, str(pathlib.Path(__file__).resolve().parent.parent.parent / "faults"))
from power import Journal, Loss, lose, read_tree, settle, write_tree

LISTS = 14  # of the scenario
LONGEST = 900  # seconds of a process, on a busy machine
SEED = os.environ.get("SEED", str(time.time()))
WORKERS = 3
NOT_PUT = 15
STOPS = 4  # of a crowd's job
LEAST_TOLD, BYTES = 300, 40  # calls of a crowd that is not killed as it begins; bytes that one takes in what it tells, about
KILLED = 5  # jobs of crowds that are killed: 20 random moments
APART = 3  # of so many calls one fails where else each did, if there is one round
MOST_BESIDE = 24 * 6 * 40  # calls of a long crowd that nobody was told
LEAST_LOST = 200  # losses that take something which a killed process leaves
COMMANDS = {"configure": "make", "trigger": "make", "stop": "make", "last": "begun", "begin": "stopped", "back": "make"}  # and the job that each is made in


SYNCS = (("its log", lambda path: path == "x.db-wal"), ("its file", lambda path: path == "x.db"), ("its folder", lambda path: path == ""))
FILE_SYNCS = (("state files", lambda path: path.startswith("storage/")), ("the storage", lambda path: path == "storage"))


class Run:
    """A job in a folder of its own, and what its callers were told."""

    def __init__(self, bin_folder, work, mode="calls"):
        self.bin, self.work, self.mode = bin_folder, pathlib.Path(work), mode
        self.folder, self.told, self.journal = self.work / "job", self.work / "told", self.work / "journal"
        self.later, self.backup = self.work / "told later", self.folder / "backups/b.db"
        self.on_disk = {}

    def begin(self):
        (self.folder / "storage").mkdir(parents=True)
        (self.folder / "backups").mkdir()
        return self.keep()

    def keep(self):
        """All that is there now is on the disk."""
        self.on_disk = read_tree(self.folder)
        self.journal.unlink(missing_ok=True)
        return self

    def copy(self, work):
        shutil.copytree(self.work, work)
        run = Run(self.bin, work, self.mode)
        run.on_disk = self.on_disk
        return run

    def environment(self, **what):
        more = {f"STORE_{name.upper()}": str(value) for name, value in what.items()}
        return {**os.environ, "LD_PRELOAD": str(self.bin / "shim.so"), "STORE_IN": str(self.folder), **more}

    def runs(self, program, *words, **what):
        """Returns the exit status and what it printed."""
        command, env = [self.bin / program, self.folder, *map(str, words)], self.environment(**what) if what else None
        ran = subprocess.run(command, env=env, stdout=subprocess.PIPE, stderr=subprocess.STDOUT, text=True, timeout=LONGEST)
        assert ran.returncode in (0, -signal.SIGKILL), ran.stdout
        return ran.returncode, ran.stdout

    def scenario(self, lists=LISTS, images=20, **what):
        return self.runs("scenario", self.told, lists, images, self.mode, **what)

    def saves(self, **what):
        """Makes calls, a backup, and calls again. Returns the exit status, the statuses of the backup and of the last calls, and its error."""
        status, told = self.runs("saves", self.told, self.later, self.backup, **what)
        return (status, *(map(int, told.split()[:3]) if status == 0 else (None, None, None)))

    def command(self, verb, **what):
        """Makes a command of an operator. Returns the exit status, and whether it was answered."""
        status, told = self.runs("commands", verb, **what)
        return status, told == "made\n"

    def state(self):
        return self.runs("commands", "state")[1]

    def verify_backup(self, work):
        """Looks at the backup as at a job: it has the calls that were told before it was made, and no others."""
        shutil.copytree(self.work, work)
        back = Run(self.bin, work, self.mode)
        for name in ("x.db-wal", "x.db-shm", "x.db.lock"):
            (back.folder / name).unlink(missing_ok=True)
        os.replace(back.backup, back.folder / "x.db")
        back.verify(0, "backup")
        shutil.rmtree(work)

    def crowd(self, program, seconds, images, least=0, **what):
        """It is killed so many seconds after it has told so many calls, about."""
        begun = self.told.stat().st_size if self.told.exists() else 0
        process = subprocess.Popen([self.bin / program, self.folder, self.told, str(images)], env=self.environment(**what), stdout=subprocess.PIPE, stderr=subprocess.STDOUT, text=True)
        end = time.monotonic() + LONGEST
        while process.poll() is None and time.monotonic() < end and (self.told.stat().st_size if self.told.exists() else 0) < begun + BYTES * least:
            time.sleep(0.005)
        time.sleep(seconds)
        process.kill()
        told, _ = process.communicate()
        assert process.returncode == -signal.SIGKILL, told

    def verify(self, most, what=None):
        words = self.runs("verify", self.told, most, *([what] if what else []))[1].split()
        return int(words[0]), words[-1] == "whole"

    def lose_power(self, loss, chance):
        """Returns whether that took anything."""
        lost = lose(self.journal, self.folder, self.on_disk, loss, chance)
        self.keep()
        return lost.has_effect


def files_of(mode):
    return "files" if mode == "files" else None


class Tests:
    def __init__(self, bin_folder, rounds, work):
        self.bin, self.rounds, self.work = pathlib.Path(bin_folder), rounds, pathlib.Path(work)
        self.passed = self.failed = 0
        self.numbers = itertools.count(1)  # also for several threads
        self.losses = self.lost = 0
        self.states = {}  # of a job before each command and after it
        self.chance = random.Random(SEED)

    def folder(self):
        return self.work / str(next(self.numbers))

    def note(self, name, run, *words):
        try:
            told = run(*words)
        except (AssertionError, subprocess.TimeoutExpired) as error:
            self.failed += 1
            print(f"store: {name} failed: {error}")
            return None
        self.passed += 1
        return told

    def new(self, mode="calls"):
        folder = self.folder()
        folder.mkdir()
        return Run(self.bin, folder, mode).begin()

    def killed(self, mode="calls"):
        """A job whose process was killed among its calls, with a -wal that is not in the file."""
        run = self.new(mode)
        run.scenario(lists=30, images=15, die=150 if mode == "calls" else 600)
        copy = run.copy(self.folder())
        copy.verify(5, files_of(mode))
        shutil.copy(copy.told, run.told)
        return run.keep()

    def lose_power(self, run, loss, chance):
        self.losses += 1
        self.lost += run.lose_power(loss, chance)

    def after(self, base, number, what, makes):
        """A copy of the job after one fault in what it makes, the words of the fault, and what that returned."""
        run = base.copy(self.folder())
        given = {name: value if value != "N" else number for name, value in what.items()}
        loss = given.pop("loss", None)
        found = makes(run, **given, **({"journal": run.journal} if loss else {}))
        if loss:
            self.lose_power(run, loss, random.Random(number))
        return run, given, found

    def at(self, base, number, what):
        """One fault. Returns whether it was reached."""
        run, _, (status, told) = self.after(base, number, what, Run.scenario)
        run.verify(5, files_of(run.mode))
        if self.rounds > 1 or run.mode != "calls" or number % 5 == 1:  # the job goes on
            again, words = run.scenario(lists=3)
            assert again == 0 and words.startswith("calls 0"), words
            run.verify(5, files_of(run.mode))
        shutil.rmtree(run.work)
        return status != 0 or not told.startswith("calls 0")

    def backup_at(self, base, number, what):
        """One fault while a job makes a backup. Returns whether it was reached."""
        run, given, (ended, status, calls, error) = self.after(base, number, what, Run.saves)
        check(ended != 0 or calls == 0 or "on" not in given, f"the calls after the backup: status {calls}")
        # one whose folder could not be synced, and that could not be removed either, is there, whole
        may_stay = given.get("fault") == "any" and given.get("for") == 0
        check(status is None or (status == 0) == run.backup.exists() or may_stay, f"the backup: status {status}")
        check(given.get("fault") not in ("full", "quota") or status != NOT_PUT or error in (errno.ENOSPC, errno.EDQUOT), f"the backup: error {error}")
        if run.backup.exists():
            run.verify_backup(self.folder())
            run.backup.unlink()
        with open(run.told, "a") as told, open(run.later, "a+") as later:
            later.seek(0)
            told.write(later.read())
        run.verify(5, files_of(run.mode))
        run.later.unlink()
        again = run.saves()
        check(again[:3] == (0, 0, 0), f"the next backup: {again}")
        check(sorted(it.name for it in run.backup.parent.iterdir()) == ["b.db"], f"{list(run.backup.parent.iterdir())}")
        run.verify_backup(self.folder())
        shutil.rmtree(run.work)
        return ended != 0 or status != 0 or calls != 0

    def backups(self, base):
        self.each(base, self.backup_at, die="N")
        self.each(base, self.backup_at, step=3, die="N", die_after=1)
        for loss in Loss:
            self.each(base, self.backup_at, step=3, die="N", loss=loss)
        for often in (1, 0):
            for fault in ("any", "short", "full", "quota", "sync", "read"):
                self.each(base, self.backup_at, fault=fault, at="N", on="/backups", **{"for": often})
        self.each(base, self.backup_at, step=5, fault="any", at="N", **{"for": 1})

    def command_at(self, base, number, what):
        """One fault while an operator's command is made. Returns whether it was reached."""
        run, _, (ended, is_answered) = self.after(base, number, what, lambda run, **given: run.command(run.mode, **given))
        state, (before, after) = run.state(), self.states[run.mode]
        check(state == after or (state == before and not is_answered), f"answered: {is_answered}; it is {state}, it was {before}, and would be {after}")
        shutil.rmtree(run.work)
        return ended != 0 or not is_answered

    def commands(self):
        for verb, begun in COMMANDS.items():
            base = self.new(verb)
            base.command(begun)
            base.keep()
            one, other = base.copy(self.folder()), base.copy(self.folder())
            self.note(verb, check, one.command(verb) == (0, True), "it is not answered")
            self.states[verb] = other.state(), one.state()
            self.note(f"{verb} does something", check, self.states[verb][0] != self.states[verb][1], self.states[verb][0])
            self.each(base, self.command_at, die="N")
            self.each(base, self.command_at, step=3, die="N", die_after=1)
            self.each(base, self.command_at, step=2, fault="any", at="N", **{"for": 1})
            self.each(base, self.command_at, step=3, fault="any", at="N", **{"for": 0})
            for loss in Loss:
                self.each(base, self.command_at, step=6, die="N", loss=loss)

    def each(self, base, run_at=None, step=1, **what):
        """The n-th call for each n."""
        name, run_at = f"{base.work.name} {what}", run_at or self.at
        calls = self.calls(base, run_at, what)
        numbers = range(min(calls, self.first(step, what)), calls + 1, self.step(step)) if calls else ()
        with concurrent.futures.ThreadPoolExecutor(WORKERS) as pool:
            found = list(pool.map(lambda it: self.note(f"{name} at {it}", run_at, base, it, what), numbers))
        reached = sum(it is True for it in found)  # some faults change nothing that anybody is told
        self.note(f"{name}: {reached} reached", lambda: check(reached > 0, "the fault was never reached"))

    def calls(self, base, run_at, what):
        """How many calls of a run might fail so."""
        run, count = base.copy(self.folder()), self.folder()
        given = {name: 10 ** 9 if value == "N" else value for name, value in what.items() if name != "loss"}
        if run_at == self.command_at:
            run.command(run.mode, count=count, **given)
        else:
            (run.saves if run_at == self.backup_at else run.scenario)(count=count, **given)
        shutil.rmtree(run.work)
        return int(count.read_text())

    def step(self, step):
        """With more rounds each call is tried. Of what is tried seldom no less is."""
        return 1 if self.rounds > 1 else step if step > APART else APART * step

    def first(self, step, what):
        """A process that ends is noticed wherever it does. Other faults may change nothing, so those begin where some are known to."""
        return self.chance.randint(1, self.step(step)) if what.get("die") and step == 1 else 1

    def ends(self, base):
        """The end after one call and that before the next differ in nothing but what was told."""
        self.each(base, die="N")
        self.each(base, step=7, die="N", die_after=1)

    def faults(self, base):
        for often in (1, 0):
            self.each(base, step=1 if often else 3, fault="any", at="N", **{"for": often})
            self.each(base, step=7, fault="short", at="N", **{"for": often})
            self.each(base, step=11, fault="full", at="N", **{"for": often})
        self.each(base, step=11, fault="quota", at="N")

    def reads(self, base):
        for often in (1, 0):
            self.each(base, fault="read", at="N", **{"for": often})

    def files(self):
        """Jobs whose tasks put files."""
        for base in (self.new("files"), self.killed("files")):
            self.each(base, step=13, die="N")
            self.each(base, step=17, fault="any", at="N", **{"for": 1})
            self.each(base, step=61, fault="any", at="N", **{"for": 0})
            for loss in Loss:
                self.each(base, step=23, die="N", loss=loss)

    def controls(self):
        """If a sync is left out, a loss of power does harm: otherwise the others would show nothing."""
        crowd, one = self.new(), self.new("files")
        for _ in range(2):  # the second opening brings the log into the file
            crowd.crowd("crowd-long", 0.5, 10 ** 9, LEAST_TOLD, journal=crowd.journal)
            settle(crowd.journal, crowd.folder, crowd.on_disk)
        one.scenario(die=600, journal=one.journal)
        for run, syncs, has_files in ((crowd, SYNCS, False), (one, FILE_SYNCS, True)):
            self.note("a loss of power with all syncs", check, not self.does_harm(run, has_files), "it did harm")
            for name, ignored in syncs:
                self.note(f"a loss of power without the syncs of {name}", check, self.does_harm(run, has_files, ignored), "it did no harm")

    def does_harm(self, run, has_files, ignored=lambda path: False):
        """Whether calls or files are lost, if these syncs are not called."""
        journal = Journal.read(run.journal, run.folder, run.on_disk)
        (lost,) = journal.losses([(len(journal.records), Loss.SYNCED)], random.Random(1), ignored)
        copy = Run(self.bin, self.folder(), run.mode)
        write_tree(lost.tree, copy.folder)
        shutil.copy(run.told, copy.told)
        try:
            copy.verify(MOST_BESIDE, "files" if has_files else None)
        except AssertionError:
            return True
        return False

    def crowd_run(self, run, chance, kind, images, most):
        run.keep()
        what = {} if kind == "kill" else {"journal": run.journal}
        what.update({"fault": "sync", "on": "-wal", "random": 100} if kind == "faults" else {})
        # in the second the -wal is long: what a failed sync has lost of it is soon brought into the file otherwise
        is_soon, program = chance.random() < 0.2, "crowd" if kind != "faults" else "crowd-long"
        run.crowd(program, 0.01 + chance.random() * (0.05 if is_soon else 0.5), images, 0 if is_soon else LEAST_TOLD, **what)
        if kind != "kill":
            self.lose_power(run, Loss.SYNCED if kind in ("power", "faults") else chance.choice(list(Loss)), chance)
        return run.verify(most)

    def crowd_job(self, kind, job):
        """A job that is stopped four times. Returns how many calls were answered, and after how many stops all of them could be made again."""
        chance = random.Random(f"{kind} {job} {SEED}")
        run = self.new()
        images = 10 ** 9 if job % 2 == 0 or kind == "faults" else 300
        calls = whole = 0
        for _ in range(STOPS):
            found = self.note(f"a crowd with {kind} in {run.work}", self.crowd_run, run, chance, kind, images, 24 * 6 * (40 if kind == "faults" else 1))
            if found is None:
                break
            calls += found[0]
            whole += found[1]
        shutil.rmtree(run.work)
        return calls, whole

    def crowds(self, kind):
        """Returns how many calls were answered."""
        jobs = (KILLED if kind == "kill" else 2) * self.rounds
        with concurrent.futures.ThreadPoolExecutor(WORKERS) as pool:
            found = list(pool.map(lambda job: self.crowd_job(kind, job), range(jobs)))
        calls, whole = sum(it[0] for it in found), sum(it[1] for it in found)
        least = STOPS * (jobs if kind == "faults" else (jobs + 1) // 2)  # without images no log is cut
        self.note(f"crowds with {kind}", lambda: check(calls > 1000 and whole >= least, f"{calls} calls, {whole} of {STOPS * jobs} whole, SEED={SEED}"))
        return calls, STOPS * jobs


def check(is_so, words):
    assert is_so, words


def main(bin_folder, rounds="1"):
    began = time.monotonic()
    with tempfile.TemporaryDirectory() as work:
        tests = Tests(bin_folder, int(rounds), work)
        new, killed = tests.new(), tests.killed()
        parts = [(f"{part.__name__} of a {whose}", part, base) for part in (tests.ends, tests.faults, tests.reads) for whose, base in (("new job", new), ("recovery", killed))]
        for name, part, *given in [*parts, ("faults of jobs with files", tests.files), ("faults of backups", tests.backups, killed), ("faults of commands", tests.commands)]:
            before = tests.passed
            part(*given)
            print(f"store: {name}: {tests.passed - before} passed, {time.monotonic() - began:.0f} s", flush=True)
        for kind in ("kill", "power", "loss", "faults"):
            calls, stops = tests.crowds(kind)
            print(f"store: crowds with {kind}: {stops} times, {calls} answered calls, {tests.failed} failed so far, {time.monotonic() - began:.0f} s", flush=True)
        tests.controls()
        print(f"store: {tests.losses} losses of power, {tests.lost} with an effect", flush=True)
        tests.note("losses of power", lambda: check(tests.lost >= LEAST_LOST, f"{tests.lost} of {tests.losses} losses had an effect"))
    print(f"{tests.passed} passed, {tests.failed} failed")
    return 1 if tests.failed or not tests.passed else 0


if __name__ == "__main__":
    sys.exit(main(*sys.argv[1:]))
