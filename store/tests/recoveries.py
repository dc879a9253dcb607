#!/usr/bin/env python3
"""recoveries.py SHIM [ENGINE..]: loses the file of a job, and makes it again by `relkvanu recover`.

- An engine (publishes.py) is killed at a random moment, LOSSES times. Each time its file is gone, and a job is made again. It goes on from the last
  record that was complete, and in the end each input was published once. So are the engines of the pages, whose folders are exact then.
- A recovery ends before or after each call that writes, or power is lost there: it did nothing or all, and the same command again makes the job.
- So do an export and an import. The first job is as it was. So does a claim, after which the first job is refused.
- What a command says when there is nothing to do.

LOSSES in the environment is 10 unless it says another number. SEED chooses the moments; it is printed."""
import os
import pathlib
import random
import shutil
import signal
import subprocess
import sys
import time

sys.path.insert(0, str(pathlib.Path(__file__).resolve().parent.parent.parent / "faults"))
from engines import NEW, places_of, run_tests, recovers as runs_to
from power import Journal, Kind, Loss, lose as lose_power, read_tree, write_tree
from relkvanu import Settings
from relkvanu.manifest import files_in
from relkvanu.store import Store

SEED = os.environ.get("SEED", str(time.time()))
LOSSES, ROUNDS = int(os.environ.get("LOSSES", "10")), int(os.environ.get("ROUNDS", "1"))
ENDS, LOST = 24, 8  # ends of a command, and ends of an export, an import and a claim where power is lost in two ways
COMMAND = [sys.executable, "-m", "relkvanu"]
ENGINE = [sys.executable, str(pathlib.Path(__file__).resolve().parent / "publishes.py")]
LONGEST = 600  # seconds of a process, on a busy machine
INPUTS = 10 ** 9


class Recoveries:
    def __init__(self, shim, engines, work):
        self.shim, self.engines, self.work, self.chance = shim, engines, work, random.Random(SEED)

    def runs(self, *words, **env):
        return subprocess.run([*COMMAND, *words], env={**os.environ, **env}, stdout=subprocess.PIPE, stderr=subprocess.STDOUT, text=True, timeout=LONGEST)

    def recovers(self, folder, **env):
        return self.runs("recover", folder / "job.db", folder / "state", **env)

    def killed(self, folder, seconds):
        """Runs the engine, kills it after it has completed a record, and returns the last one that it said to be complete."""
        with subprocess.Popen([*ENGINE, folder, str(INPUTS)], stdout=subprocess.PIPE, stderr=subprocess.PIPE, text=True) as process:
            first = process.stdout.readline()
            time.sleep(seconds)
            process.send_signal(signal.SIGKILL)
            told, wrong = process.stdout.read(), process.stderr.read()  # communicate() would lose what is read ahead
        assert first and process.returncode == -signal.SIGKILL, (process.returncode, wrong)
        whole = [it for it in (first + told).split("\n")[:-1] if it]
        return int(whole[-1])

    def ends(self, folder, inputs):
        ran = subprocess.run([*ENGINE, folder, str(inputs)], stdout=subprocess.PIPE, stderr=subprocess.STDOUT, text=True, timeout=LONGEST)
        assert ran.returncode == 0, ran.stdout


def lose(folder):
    for it in folder.glob("job.db*"):
        it.unlink()


def published(folder):
    return [int(line) for it in (folder / "published").iterdir() for line in it.read_text().split()]


def record_of(told):
    """The record that a recovery says the job goes on from."""
    return int(told.split("checkpoint ")[1].partition(",")[0])


def lost_logs(it):
    folder = it.work / "job"
    folder.mkdir()
    last = 0
    for _ in range(LOSSES):
        complete = it.killed(folder, it.chance.random() * it.chance.choice((0.02, 0.4)))
        assert complete > last, (complete, last)
        lose(folder)
        told = it.recovers(folder)
        assert told.returncode == 0, told.stdout
        last = record_of(told.stdout)
        assert last in (complete, complete + 1), (last, complete)  # a completion may not have been said
    most = max(published(folder))
    it.ends(folder, most + 20)
    found = published(folder)
    assert sorted(found) == list(range(most + 20)), f"{len(found)} inputs, {len(set(found))} of them others, up to {most + 20}"
    print(f"store: {LOSSES} logs were lost, and {len(found)} inputs published once")


def completes_some(engine, folder, seconds):
    """Runs an engine of the pages, which says on the standard error what is complete, and kills it later. Returns the last number that it said."""
    with subprocess.Popen([*engine, folder, NEW], stderr=subprocess.PIPE, text=True) as process:
        lines = [process.stderr.readline() for _ in range(3)]
        time.sleep(seconds)
        process.send_signal(signal.SIGKILL)
        told = "".join(lines) + process.stderr.read()  # communicate() would lose what is read ahead
    whole = [line.split() for line in told.split("\n")[:-1] if line.startswith("record ") and line.endswith(" is complete")]
    assert whole and process.returncode == -signal.SIGKILL, (process.returncode, told)
    return int(whole[-1][1])


def lost_engines(it):
    """The engines of the pages: after each recovery they go on, and their folder has what the coordinator knows and nothing else."""
    for nth, engine in enumerate(it.engines):
        folder = it.work / f"engine-{nth}"
        (folder / "state").mkdir(parents=True)
        for _ in range(LOSSES):
            complete = completes_some(engine, folder, it.chance.random() * 0.3)
            lose(folder)
            told = it.recovers(folder)
            assert told.returncode == 0 and record_of(told.stdout) in (complete, complete + 1), (complete, told.stdout)
            runs_to(folder, engine, int(told.stdout.split("numbers from ")[1].split()[0]) + 3)
        print(f"store: {LOSSES} logs of {' '.join(engine[-1:]).rpartition('/')[2]} were lost")


def base_of(it):
    """A job that was killed, and whose file is lost."""
    folder = it.work / "base"
    folder.mkdir()
    complete = it.killed(folder, 0.1)
    lose(folder)
    return folder, complete


def goes_on(it, folder, complete):
    """The same command makes the job, unless it is there. Each file of its choice is there."""
    is_there = (folder / "job.db").exists()
    told = it.recovers(folder)
    assert told.returncode == is_there and ("there is a job" in told.stdout) == is_there, (is_there, told.stdout)
    assert not list(folder.glob("*.relkvanu-new*")), list(folder.iterdir())
    with Store(folder / "job.db", Settings(interval=10), [2], storage=folder / "state", manifests=True, checksums=True) as job, job.read() as reads:
        choice = reads.choice()
        assert choice.id in (complete, complete + 1), (choice, complete)
        for task in range(2):
            (file,) = reads.files_of(choice.id, 0, task)
            assert (folder / "state" / str(file)).stat().st_size > 0, file
    is_right(it, folder / "state")


def is_right(it, folder):
    """Each record has a checksum of each file, which is right."""
    told = it.runs("records", "--whole", folder)
    assert told.returncode == 0 and told.stdout.count("; each checksum is right") == len(told.stdout.splitlines()) - 1 > 0, told.stdout


def recovery(folder):
    return "recover", folder / "job.db", folder / "state"


def places_in(it, base, most, command):
    """Some of the calls of a command that write, or all."""
    count, folder = it.work / "count", it.work / "counted"
    shutil.copytree(base, folder)
    told = it.runs(*command(folder), LD_PRELOAD=it.shim, STORE_IN=str(folder), STORE_DIE=str(1 << 40), STORE_COUNT=str(count))
    assert told.returncode == 0, told.stdout
    shutil.rmtree(folder)
    return places_of(count, it.chance, most * ROUNDS)


def ends_of(it, base, most, command, check):
    """The command ends before or after some of its calls that write. Checks what each leaves."""
    for place, after in places_in(it, base, most, command):
        folder = it.work / f"{place}-{after}"
        shutil.copytree(base, folder)
        told = it.runs(*command(folder), LD_PRELOAD=it.shim, STORE_IN=str(folder), STORE_DIE=str(place), STORE_DIE_AFTER=after)
        assert told.returncode != 0, f"no end at call {place}"
        check(folder)
        shutil.rmtree(folder)


def losses_of(it, base, most, command, check):
    """The same, and power is lost there: what was not synced is gone, or part of it is."""
    for place, after in places_in(it, base, most, command):
        for loss in (Loss.SYNCED, it.chance.choice(list(Loss))):
            folder, journal = it.work / f"{place}-{after}", it.work / "journal"
            journal.unlink(missing_ok=True)
            shutil.copytree(base, folder)
            on_disk = read_tree(folder)
            it.runs(*command(folder), LD_PRELOAD=it.shim, STORE_IN=str(folder), STORE_DIE=str(place), STORE_DIE_AFTER=after, STORE_JOURNAL=str(journal))
            lose_power(journal, folder, on_disk, loss, it.chance)
            check(folder)
            shutil.rmtree(folder)


def at_each_end(it):
    base, complete = base_of(it)
    files = {file.name for file in (base / "state").iterdir()}

    def check(folder):
        assert files == {file.name for file in (folder / "state").iterdir()} - {".relkvanu-job.new"}, "a file of the storage"
        goes_on(it, folder, complete)

    ends_of(it, base, ENDS, recovery, check)


def export(folder):
    return "export", folder / "state", folder / "out"


def is_exported(it, folder, complete):
    """The same command makes the folder, unless it is there. Its record is whole."""
    is_there, told = (folder / "out").exists(), it.runs(*export(folder))
    assert told.returncode == is_there and not (folder / "out.part").exists(), told.stdout
    told = it.runs("records", folder / "out")
    assert told.stdout.count("whole; ") == 1 and int(told.stdout.split("\n")[1].split()[0]) in (complete, complete + 1), told.stdout
    is_right(it, folder / "out")


def used_by_made(it, folder, storage, complete, job="new.db"):
    """The files of the record that the new job goes on from. Each is in its storage."""
    with Store(folder / job, Settings(interval=10), [2], storage=storage, manifests=True, checksums=True) as job, job.read() as reads:
        assert reads.choice().id in (complete, complete + 1), reads.choice()
        used = [file for task in range(2) for file in reads.files_of(reads.choice().id, 0, task)]
    assert len(used) == 2 and all((storage / str(file)).stat().st_size > 0 for file in used), used
    is_right(it, storage)
    return used


def imports(folder):
    return "import", folder / "state", folder / "new.db", folder / "new"


def is_imported(it, folder, complete):
    """The same command makes the job, unless it is there, and the first one is as it was."""
    is_there, told = (folder / "new.db").exists(), it.runs(*imports(folder))
    assert told.returncode == is_there and ("there is a job" in told.stdout) == is_there, told.stdout
    assert not list(folder.glob(".new.db.relkvanu-new*")) and not (folder / "new.part").exists(), list(folder.iterdir())
    used_by_made(it, folder, folder / "new", complete)
    assert it.recovers(folder).returncode == 0, "the first job"


def claim(folder, name="new"):
    """The files leave the first job's folder once those of the second one are there, and not before. In the end that folder has none of them, and its job is
    refused."""
    return "import", "--claim", folder / "state", folder / f"{name}.db", folder / name


def is_claimed(it, folder, complete):
    """Another claim is refused, or has the record before there is a job of the first one, which is refused then. Otherwise the same command goes on. The record is in
    one new folder, and nowhere else: no job begins from an earlier one that is still there."""
    ended, rival = (folder / "new.db").exists(), it.runs(*claim(folder, "rival"))
    told = it.runs(*claim(folder))
    if rival.returncode == 0:
        assert not ended and told.returncode == 1 and "was claimed for" in told.stdout and not (folder / "new.db").exists(), told.stdout
        used = used_by_made(it, folder, folder / "rival", complete, "rival.db")
    else:
        assert "was claimed for" in rival.stdout, rival.stdout
        assert told.returncode == 0 or (ended and "there is a job" in told.stdout), told.stdout  # it had done all but say so
        assert not list(folder.glob(".new.db.relkvanu-new*")) and not (folder / "new.part").exists(), list(folder.iterdir())
        used = used_by_made(it, folder, folder / "new", complete)
    assert not [file for file in used if (folder / "state" / str(file)).exists()], used
    told = it.recovers(folder)
    assert told.returncode == 1 and "was claimed for" in told.stdout, told.stdout  # it has left


def claim_in_place(folder):
    return "import", "--claim", folder / "out", folder / "new.db", folder / "out"


def is_claimed_in_place(it, folder, complete):
    """The same command makes the job, unless it is there."""
    is_there, told = (folder / "new.db").exists(), it.runs(*claim_in_place(folder))
    assert told.returncode == is_there, told.stdout
    used_by_made(it, folder, folder / "out", complete)


def exported_base(it):
    base, complete = base_of(it)
    assert it.runs("export", base / "state", base / "out").returncode == 0
    return base, complete


def the_old_job_of_a_claim(it):
    """Its file is there, and is refused for ever."""
    folder = it.work / "claimed"
    folder.mkdir()
    complete = it.killed(folder, 0.1)
    told = it.runs("import", "--claim", folder / "state", folder / "new.db", folder / "new")
    assert told.returncode == 0 and record_of(told.stdout) in (complete, complete + 1), told.stdout
    for _ in range(2):
        told = subprocess.run([*ENGINE, folder, "10"], stdout=subprocess.PIPE, stderr=subprocess.STDOUT, text=True, timeout=LONGEST)
        assert told.returncode != 0 and "older copy" in told.stdout, told.stdout


def after_a_whole_one(it):
    """Power is lost once the command has ended: the job is there."""
    base, _ = base_of(it)
    folder, journal = it.work / "whole", it.work / "journal"
    shutil.copytree(base, folder)
    on_disk = read_tree(folder)
    told = it.recovers(folder, LD_PRELOAD=it.shim, STORE_IN=str(folder), STORE_JOURNAL=str(journal))
    assert told.returncode == 0, told.stdout
    lose_power(journal, folder, on_disk, Loss.SYNCED, it.chance)
    with Store(folder / "job.db", Settings(interval=10), [2], storage=folder / "state") as job:
        assert job.report.is_recovered and job.report.choice.id == record_of(told.stdout), job.report


def with_its_name_alone(it):
    """Power is lost once the new job's file has its name, and before that is synced. The name may be there then without what was done before it: still
    nothing of the command is left beside the job."""
    base, complete = base_of(it)
    for command, check in ((recovery, goes_on), (imports, is_imported), (claim, is_claimed)):
        folder, journal = it.work / "named", it.work / "journal"
        shutil.copytree(base, folder)
        on_disk = read_tree(folder)
        told = it.runs(*command(folder), LD_PRELOAD=it.shim, STORE_IN=str(folder), STORE_JOURNAL=str(journal))
        assert told.returncode == 0, told.stdout
        records = Journal.read(journal, folder, on_disk)
        named = next(at for at, record in enumerate(records.records) if record.kind is Kind.RENAMES and ".relkvanu-new" in f"{record.path} {record.bytes}")
        for lost in records.losses([(named + 1, Loss.LATER)] * 8, it.chance):
            shutil.rmtree(folder)
            write_tree(lost.tree, folder)
            check(it, folder, complete)
        shutil.rmtree(folder)
        journal.unlink()


def a_changed_file(it, folder):
    """One bit is another: who reads the file finds it, and says which one."""
    is_right(it, folder / "state")
    # (the folder may also have files that no record names, and an older record)
    record = next(line.split()[0] for line in it.runs("records", folder / "state").stdout.splitlines() if "a recovery" in line)
    file = folder / "state" / str(next(iter(files_in((folder / "state" / f"record-{record}.manifest").read_bytes()))))
    before = file.read_bytes()
    for contents, words in ((bytes([before[0] ^ 1]) + before[1:], "has another checksum"), (before[:-1], "has another length"), (None, "is missing")):
        if contents is None:
            file.unlink()
        else:
            file.write_bytes(contents)
        told, plain = it.runs("records", "--whole", folder / "state"), it.runs("records", folder / "state")
        assert told.returncode == 1 and f"file {file.name} {words}\n" in told.stdout, told.stdout
        said = next(line for line in plain.stdout.splitlines() if line.split()[0] == record)
        assert plain.returncode == 0 and ("whole; a recovery" in said) == (words == "has another checksum"), plain.stdout
    file.write_bytes(before)
    is_right(it, folder / "state")


def what_it_says(it):
    folder, complete = base_of(it)
    told = it.runs("records", folder / "state")
    assert told.returncode == 0 and "whole; a recovery or an import begins from it" in told.stdout, told.stdout
    assert any(line.split()[0] == str(complete) or line.split()[0] == str(complete + 1) for line in told.stdout.splitlines()[1:]), told.stdout
    for words, status, text in ((("records",), 2, "JOB"), (("records", folder / "nowhere"), 1, "No such file"),
                                (("records", "--whole", folder / "nowhere"), 1, "No such file"), (("records", "--all", folder), 2, "--all"),
                                (("recover", folder / "job.db"), 2, "its storage"), (("recover", folder / "job.db", folder / "state", "--record", "x"), 2, "--record"),
                                (("recover", folder / "job.db", folder / "state", "--record", "999"), 1, "no record"),
                                (("recover", folder / "job.db", folder), 1, "no marker"), (("--help",), 0, "put-back")):
        told = it.runs(*words)
        assert told.returncode == status and text in told.stdout, (words, told.returncode, told.stdout)
    a_changed_file(it, folder)
    assert it.recovers(folder).returncode == 0
    told = it.recovers(folder)
    assert told.returncode == 1 and "there is a job" in told.stdout, told.stdout


def at_each(name, base_of, command, check, ends, losses):
    """The tests in which a command ends at each call that writes, and in which power is lost there."""

    def ended(it):
        base, complete = base_of(it)
        ends_of(it, base, ends, command, lambda folder: check(it, folder, complete))

    def lost(it):
        base, complete = base_of(it)
        losses_of(it, base, losses, command, lambda folder: check(it, folder, complete))

    ended.__name__, lost.__name__ = f"{name}_at_each_end", f"{name}_at_each_loss"
    return ended, lost


TESTS = (what_it_says, after_a_whole_one, with_its_name_alone, at_each_end, at_each("recovers", base_of, recovery, goes_on, ENDS, ENDS // 2)[1],
         *at_each("exports", base_of, export, is_exported, ENDS // 2, LOST),
         *at_each("imports", base_of, imports, is_imported, ENDS, LOST), *at_each("claims", base_of, claim, is_claimed, ENDS, LOST),
         *at_each("claims_in_place", exported_base, claim_in_place, is_claimed_in_place, ENDS // 2, ENDS // 2), the_old_job_of_a_claim, lost_logs, lost_engines)


def main(shim, *engines):
    print(f"store: the recoveries have SEED={SEED}")
    given = str(pathlib.Path(shim).resolve()), [it.split() for it in engines]
    return run_tests(TESTS, lambda work: Recoveries(*given, work))


if __name__ == "__main__":
    sys.exit(main(*sys.argv[1:]))
