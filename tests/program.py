"""What the tests of the built program share: how it is run, over devices that fail, and what they count."""
import os
import pathlib
import re
import shutil
import subprocess
import sys
import tempfile

TOP = os.path.dirname(os.path.dirname(os.path.abspath(__file__)))
# Far more than a run takes on a busy machine: only one that hangs takes as long.
MOST_SECONDS = 900


def program():
    """The program: the one argument, or the one that the gate or `rt run` has built."""
    path = sys.argv[1] if len(sys.argv) > 1 else f"{TOP}/crates/ckpt_job/out/ckpt_job"
    if not os.access(path, os.X_OK):
        sys.exit(f"{sys.argv[0]}: {path} is no program: run `rt run` in crates/ckpt_job, or name another")
    return os.path.abspath(path)


def built(source, made, *words):
    """Builds a C file of the repository, and returns the result, or nothing if there is no C compiler."""
    if not shutil.which("cc"):
        return None
    subprocess.run(["cc", "-O2", "-o", made, f"{TOP}/{source}", *words], check=True)
    return made


def skip(tool, what):
    """Prints what is not tested because a tool is missing, as the gate reads it."""
    print(f"skipped: {tool}: {what}", flush=True)


def shown():
    """The examples: a name, the script, its output, which it shows below its lines, and the status that the program ends with."""
    for name in sorted(it for it in os.listdir(f"{TOP}/examples") if it.endswith(".script")):
        script = bytes_of(f"{TOP}/examples/{name}")
        # a line of it makes a call, and the next one has the answer, unless it opens the job; an answer elsewhere is none
        found = re.findall(rb"^(?!config |job |start )[a-z].*\n(?:    # -> (.*\n))?|^(    # -> ).*\n", script, re.M)
        yield name.removesuffix(".script"), script, b"".join(answer or stray or b"no answer is shown\n" for answer, stray in found), 0


def rows():
    """The same of the rows beside them. A faulty line is all that makes the status 1."""
    folder = f"{TOP}/examples/rows"
    for name in sorted(it.removesuffix(".in") for it in os.listdir(folder) if it.endswith(".in")):
        told = bytes_of(f"{folder}/{name}.out")
        yield name, bytes_of(f"{folder}/{name}.in"), told, int(re.search(rb"^line \d+ fault ", told, re.M) is not None)


def examples():
    return [*shown(), *rows()]


def bytes_of(path):
    with open(path, "rb") as file:
        return file.read()


class Counts:
    """What the program asked of its devices: allocations, reads, writes, those of both after the one that failed or ended, threads, and
    how many of the allocations were refused."""

    def __init__(self, text):
        try:
            self.allocations, self.reads, self.writes, self.reads_late, self.writes_late, self.threads, self.refused = map(int, text.split())
        except ValueError:
            sys.exit(f"{sys.argv[0]}: devices.c left no counts but {text!r}: is the disk full?")


class Verdicts:
    """What was tried. It names what does not hold, and its last line has the counts."""

    def __init__(self, name):
        self.name, self.passed, self.failed = name, 0, 0

    def check(self, what, holds, run=None):
        self.passed += bool(holds)
        self.failed += not holds
        if not holds and self.failed <= 20:
            print(f"{self.name}: {what}", *([run.returncode, run.stderr[:80], (run.stdout or b"")[-80:]] if run else []), flush=True)

    def end(self):
        print(f"{self.passed} {self.name} passed, {self.failed} failed")
        sys.exit(self.failed > 0)


class Devices(Verdicts):
    """Runs programs over devices.c, if there is a C compiler."""

    def __init__(self, name):
        super().__init__(name)
        self.folder = tempfile.TemporaryDirectory()
        self.devices = built("faults/devices.c", f"{self.folder.name}/devices.so", "-shared", "-fPIC", "-ldl")

    def run_over(self, words, script, **given):
        """Runs a program, with what devices.c is to do, and returns the run and the counts, or none if it was killed."""
        counts = f"{self.folder.name}/counts"
        # those of an earlier run are not taken for those of this one
        pathlib.Path(counts).unlink(missing_ok=True)
        around = {"LD_PRELOAD": self.devices, "COUNTS": counts, **{key.upper(): str(it) for key, it in given.items()}}
        # (of a pipe, a busy machine may give the first bytes before the others, and then the program asks for memory another number of times)
        with tempfile.TemporaryFile() as given_in:
            given_in.write(script)
            given_in.seek(0)
            run = subprocess.run(words, stdin=given_in, capture_output=True, env=around, timeout=MOST_SECONDS)
        return run, Counts(bytes_of(counts).decode()) if os.path.exists(counts) else None


class Tests(Devices):
    def __init__(self, name):
        super().__init__(name)
        self.program = program()

    def run(self, script, **given):
        """Runs a script, with what devices.c is to do, and returns the run and the counts."""
        run, counts = self.run_over([self.program], script, **given)
        if counts is None:
            # it was killed, so nothing can be said of what it asked for
            sys.exit(f"{sys.argv[0]}: {given} of {script[:200]}: the program left no counts. It ended with {run.returncode}: {run.stderr[-300:]}")
        return run, counts


def is_end(run, status, error, output):
    return run.returncode == status and run.stderr == error and run.stdout == output
