#!/usr/bin/env python3
"""put_backs.py SAMPLES SHIM: puts backups of the job of stored.py back, by `relkvanu put-back`, after the job has run on.

- With a savepoint the job goes on from the backup, and its folder is exact. So it is from an older savepoint, whose checkpoint is gone, and with
  files far above the names of the backup.
- Without a savepoint no record is whole, and a backup may be that of another job. Then nothing has changed, and the job goes on.
- A put-back that ends at a call that writes is made again. In between an engine goes on, or is refused and touches no file.
- What was set aside is the job again when it is put back, also after the file in its place was opened.
- While an engine runs, nothing is put back.

ROUNDS in the environment has so many times as many of the ends; 0 is each. SEED chooses others; it is printed."""
import contextlib
import os
import pathlib
import random
import shutil
import subprocess
import sys

from engines import LONGEST, SEED, await_opening, known, places_of, recovers, run_tests
from relkvanu import Settings
from relkvanu.store import Store

ROUNDS, ENDS = int(os.environ.get("ROUNDS", "1")), 12
JOB = ("job.db", "job.db-wal", "job.db-shm")
COMMAND = [sys.executable, "-m", "relkvanu"]


class PutBacks:
    def __init__(self, samples, shim, work):
        self.samples, self.shim, self.work, self.made = samples, shim, work, 0
        self.engine = [sys.executable, str(samples / "stored.py")]

    def run(self, name, *words, **env):
        return subprocess.run([sys.executable, self.samples / name, *words], env={**os.environ, **env}, stdout=subprocess.PIPE, stderr=subprocess.STDOUT,
                              text=True, timeout=LONGEST)

    def put_back(self, folder, copy, **env):
        words = [*COMMAND, "put-back", copy, folder / "job.db", folder / "state"]
        return subprocess.run(words, env={**os.environ, **env}, stdout=subprocess.PIPE, stderr=subprocess.STDOUT, text=True, timeout=LONGEST)

    def folder(self, of=None):
        self.made += 1
        folder = self.work / f"job-{self.made}"
        if of is None:
            (folder / "state").mkdir(parents=True)
        else:
            shutil.copytree(of, folder)
        return folder

    def backs_up(self, folder, copy):
        told = self.run("back_up.py", folder, copy)
        assert told.returncode == 0 and "dispose of savepoint" in told.stdout, told.stdout

    def puts_back(self, folder, copy):
        """Returns the record that the job goes on from."""
        told = self.put_back(folder, copy)
        assert told.returncode == 0 and "goes on from" in told.stdout, told.stdout
        assert not list(folder.glob("*new*"))
        return int(told.stdout.split("goes on from ")[1].split()[1].rstrip("."))

    def job_behind(self):
        """A job that has run on after a backup with a savepoint, and the backup."""
        folder, copy = self.folder(), self.work / f"backup-{self.made}.db"
        recovers(folder, self.engine, 20)
        self.backs_up(folder, copy)
        recovers(folder, self.engine, 30)
        return folder, copy


def plain_backup(folder, copy):
    with Store(folder / "job.db", Settings(interval=10), [3], storage=folder / "state") as job:
        job.backup(copy)


def contents(folder):
    return {str(it.relative_to(folder)): it.read_bytes() for it in sorted(folder.rglob("*")) if it.is_file() and it.name != "job.db.lock"}


def files(folder):
    return {name: text for name, text in contents(folder / "state").items() if name.isdecimal()}


def way_back(folder):
    """As the page says: the files that were set aside, and last of all the marker."""
    (aside,) = folder.glob("aside-*")
    for name in JOB:
        with contextlib.suppress(FileNotFoundError):
            (folder / name).unlink()
    for name in JOB:
        if (aside / name).exists():
            shutil.copyfile(aside / name, folder / name)
    shutil.copyfile(aside / ".relkvanu-job", folder / "state/.relkvanu-job")
    shutil.rmtree(aside)


def with_a_savepoint(it):
    folder, copy = it.job_behind()
    assert it.puts_back(folder, copy) == 20
    assert known(folder)[3] < 30, "the job does not go on from the backup"
    recovers(folder, it.engine, 40)


def from_an_older_savepoint(it):
    folder, _ = it.job_behind()
    copy = it.work / "older.db"
    plain_backup(folder, copy)
    recovers(folder, it.engine, 40)
    savepoint = it.puts_back(folder, copy)
    assert 20 < savepoint < 25, savepoint
    recovers(folder, it.engine, 50)


def from_a_savepoint_alone(it):
    """No checkpoint was complete. A put-back may run again, as when a machine stops before the engine runs."""
    folder, copy = it.folder(), it.work / "alone.db"
    with Store(folder / "job.db", Settings(interval=10), [3], storage=folder / "state", create=True) as job:
        record = job.savepoint().reply.id
        for index in range(3):
            (name,) = job.reserve(job.report.term, 1)
            job.put(name, b"1")
            job.ack_in(job.report.term, record, 0, index, [name])
        job.backup(copy)
    for _ in range(2):
        assert it.puts_back(folder, copy) == record
    recovers(folder, it.engine, 4)


def far_above_the_names(it):
    folder, copy = it.job_behind()
    far = folder / "state" / str((1 << 24) + (1 << 20))
    far.write_text("state")
    (folder / "state" / f"{(1 << 24) + (1 << 20) + 1}.part").write_text("sta")
    assert it.puts_back(folder, copy) == 20 and far.exists()
    recovers(folder, it.engine, 40)
    assert not far.exists()


def a_stray_file(it):
    """A file whose name is a number, but none of the job's. The names up to it would be given out for ever."""
    folder, copy = it.job_behind()
    stray = folder / "state" / "20261128093000"
    stray.write_text("a report")
    before = contents(folder)
    told = it.put_back(folder, copy)
    assert told.returncode != 0 and f"{stray.name}, which is no file of the job" in told.stdout, told.stdout
    assert contents(folder) == before, sorted(contents(folder))
    stray.rename(folder / "set-aside")
    assert it.puts_back(folder, copy) == 20
    recovers(folder, it.engine, 40)


def without_a_savepoint(it):
    folder, copy = it.folder(), it.work / "without.db"
    recovers(folder, it.engine, 20)
    plain_backup(folder, copy)
    recovers(folder, it.engine, 30)
    before = contents(folder)
    told = it.put_back(folder, copy)
    assert told.returncode != 0 and "no record of the backup has all its files" in told.stdout, told.stdout
    assert contents(folder) == before, sorted(contents(folder))
    _, other = it.job_behind()
    told = it.put_back(folder, other)
    assert told.returncode != 0 and "another job" in told.stdout, told.stdout
    assert contents(folder) == before and not (folder / "new-state").exists(), sorted(contents(folder))
    assert known(folder)[3] >= 30
    recovers(folder, it.engine, 40)


def no_backup(it):
    """There is a file of this name. Then no savepoint stays either."""
    folder, copy = it.job_behind()
    before = known(folder)[0]
    told = it.run("back_up.py", folder, copy)
    assert told.returncode != 0 and "Present" in told.stdout, told.stdout
    assert known(folder)[0] == before
    recovers(folder, it.engine, 40)


def back_again(it):
    """What was set aside is the job again, whether the file in its place was opened or not. That was not swept yet."""
    base, copy = it.job_behind()
    for is_opened in (False, True):
        folder = it.folder(base)
        before = known(folder)
        it.puts_back(folder, copy)
        if is_opened:
            assert known(folder)[3] < before[3]
        way_back(folder)
        assert known(folder) == before, (known(folder), before)
        recovers(folder, it.engine, 40)


def while_an_engine_runs(it):
    folder, copy = it.job_behind()
    with subprocess.Popen([*it.engine, folder], stderr=subprocess.DEVNULL) as process:
        await_opening(folder, process)
        told = it.put_back(folder, copy)
        is_running = process.poll() is None
        process.kill()
    assert is_running and told.returncode != 0 and "in use by process" in told.stdout, told.stdout
    assert not list(folder.glob("aside-*"))
    recovers(folder, it.engine, known(folder)[3] + 5)


def at_each_end(it):
    """A put-back that ends before or after a call that writes."""
    base, copy = it.job_behind()
    count = it.work / "count"
    folder = it.folder(base)
    told = it.put_back(folder, copy, LD_PRELOAD=it.shim, STORE_IN=str(folder), STORE_DIE=str(1 << 40), STORE_COUNT=str(count))
    assert told.returncode == 0, told.stdout
    for place, after in places_of(count, random.Random(SEED), ENDS * ROUNDS):
        folder = it.folder(base)
        told = it.put_back(folder, copy, LD_PRELOAD=it.shim, STORE_IN=str(folder), STORE_DIE=str(place), STORE_DIE_AFTER=after)
        assert told.returncode != 0, f"no end at call {place}"
        started, before = it.folder(folder), files(folder)
        ran = it.run("stored.py", started, "40")
        if ran.returncode == 0:
            recovers(started, it.engine, 45)
        else:
            assert files(started) == before and "job.db" in ran.stdout, (place, after, ran.stdout)
        it.puts_back(folder, copy)
        recovers(folder, it.engine, 40)
        shutil.rmtree(folder)
        shutil.rmtree(started)


def a_look(it):
    """It says what a put-back would begin from, and changes neither the backup nor the job, whose engine may run."""
    folder, copy = it.job_behind()
    before, there = copy.read_bytes(), contents(folder)

    def looks(*files, status=0):
        told = subprocess.run([*COMMAND, "records", "--backup", *files], env={**os.environ, "TMPDIR": str(it.work)}, stdout=subprocess.PIPE, stderr=subprocess.STDOUT,
                              text=True, timeout=LONGEST)
        assert told.returncode == status and copy.read_bytes() == before and not list(it.work.glob("relkvanu-*")), told.stdout
        return told.stdout

    rows = {int(line.split()[0]): line for line in looks(copy, folder / "state").splitlines()[1:]}
    words = [(it[1], int(it[2]), it[4]) for it in (row.split(None, 4) for row in rows.values())]
    # the savepoint has the files of the checkpoint that the job would begin from
    assert words == [("checkpoint", 3, "whole; a put-back begins from it"), ("savepoint", 3, "whole")] and min(rows) == 20, rows
    with open(folder / "engine", "w", encoding="utf-8") as told:
        with subprocess.Popen([*it.engine, folder, "60"], stdout=told, stderr=told) as process:
            await_opening(folder, process)
            assert "a put-back begins from it" in looks(copy, folder / "state")
            assert process.wait(LONGEST) == 0
    assert contents(folder).keys() != there.keys()
    for name in files(folder):
        (folder / "state" / name).unlink()
    told = looks(copy, folder / "state")
    assert told.count("3 files are missing") == 2 and "no record has all its files there" in told, told
    assert it.put_back(folder, copy).returncode != 0
    # what is no backup
    assert "backup" in looks(folder / "job.db", folder / "state", status=1)
    for backup, storage, why in ((copy, folder / "none", "No such file"), (it.work / "none", folder / "state", "No such file"), (copy, folder, "it has no marker")):
        assert why in looks(backup, storage, status=1), why


TESTS = (a_look, with_a_savepoint, from_an_older_savepoint, from_a_savepoint_alone, far_above_the_names, a_stray_file, without_a_savepoint, no_backup,
         back_again, while_an_engine_runs, at_each_end)


def main(samples, shim):
    print(f"store: the backups that are put back have SEED={SEED}")
    given = (pathlib.Path(samples).resolve(), str(pathlib.Path(shim).resolve()))
    return run_tests(TESTS, lambda work: PutBacks(*given, work))


if __name__ == "__main__":
    sys.exit(main(*sys.argv[1:]))
