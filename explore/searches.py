"""Builds and runs the explorer, and the reader of traces by its command or here. Knows the traces of docs/protocol."""
import ast
import contextlib
import importlib
import os
import pathlib
import re
import subprocess
import sys
import tempfile
from dataclasses import dataclass
from typing import Optional

TOP = pathlib.Path(__file__).resolve().parent.parent
TRACES = TOP / "docs/protocol"
# Far more than a search of the gate takes on a busy machine: only what hangs takes as long.
MOST_SECONDS = 3600
PYTHON = TOP / "bindings/python"
RESULT = re.compile("# (fault|holds|cut|seen) ")
# What the reader of traces says of a fault that the explorer names.
FAULTS = {"lost": "file {} is lost", "overwritten": "file {} is overwritten", "mixed": "record {} is done, and has a part", "left": "file {} is left",
          "missing": "element {} of 0.0 is lost", "twice": "element {} of 0.0 is published twice"}


@dataclass(frozen=True)
class Switch:
    """A rule that is switched off: the rule's number, the switch, whether it is needed over a coordinator with names, the steps of the shortest trace, the
    states until the fault, those with the rule on (None: nobody has counted), and the words of the scope."""

    rule: int
    name: str
    with_names: str
    steps: Optional[int]
    states: Optional[int]
    states_on: Optional[int]
    scope: tuple

    def file(self):
        return f"{self.rule:02}-{self.name}"


@dataclass(frozen=True)
class Explored:
    """What a search said: its status, the lines of the trace, and its last words."""

    status: int
    trace: str
    fault: str  # such as "lost 1", or empty
    told: str

    def number_of(self, word):
        return int(re.search(rf"^# .*? {word} ([0-9]+)", self.told, re.M)[1])

    @property
    def count(self):
        """The states of a search, or the steps of all random runs."""
        return self.number_of("steps" if " runs " in self.told else "states")


@contextlib.contextmanager
def built(arguments):
    """The explorer over the library of an archive, which the reader of traces finds too."""
    with tempfile.TemporaryDirectory() as work:
        library, program = f"{work}/lib", f"{work}/explore"
        subprocess.run([TOP / "bindings/build_library", library, *arguments], check=True)
        subprocess.run([TOP / "explore/build", program, library], check=True)
        os.environ["RELKVANU_LIB"] = library
        yield program


def table(name):
    for line in (TOP / "explore" / name).read_text(encoding="utf-8").splitlines():
        if line and not line.startswith("#"):
            yield line.split()


def switches():
    return [Switch(int(rule), name, with_names, int(steps), int(states), int(states_on), tuple(scope))
            for rule, name, with_names, steps, states, states_on, *scope in table("RULES")]


def scopes(kind):
    """The words of each scope, and what it counts, if that is known."""
    return [(tuple(words), None if count == "-" else int(count)) for found, count, *words in table("SCOPES") if found == kind]


def explore(program, words, seconds=MOST_SECONDS):
    """Runs the explorer. Its own faults and a time-out raise."""
    ran = subprocess.run([program, *words], stdout=subprocess.PIPE, text=True, timeout=seconds, check=False)
    if ran.returncode not in (0, 1):
        raise RuntimeError(f"explore {' '.join(words)}: status {ran.returncode}")
    lines = ran.stdout.splitlines()
    told = "\n".join(line for line in lines if RESULT.match(line))
    trace = "".join(line + "\n" for line in lines if not RESULT.match(line))
    found = re.search(r"^# fault ([a-z]+ [0-9]+)", told, re.M)
    return Explored(ran.returncode, trace, found.group(1) if found else "", told)


def rules(table):
    """The rules as relkvanu-conform says them: RULES, or NAMED_RULES."""
    words = f"import relkvanu.conform; print(relkvanu.conform.{table})"
    return ast.literal_eval(subprocess.run([sys.executable, "-c", words], cwd=PYTHON, stdout=subprocess.PIPE, text=True, check=True).stdout)


def conform(trace):
    """The status of relkvanu-conform over a trace, and what it says."""
    ran = subprocess.run([sys.executable, "-m", "relkvanu.conform", "-"], input=trace, stdout=subprocess.PIPE, stderr=subprocess.STDOUT, text=True,
                         cwd=PYTHON, timeout=MOST_SECONDS, check=False)
    return ran.returncode, ran.stdout


def conform_here(trace):
    """The same without a process, whose start takes longer than most traces. What makes a library for it has named that in RELKVANU_LIB before."""
    if str(PYTHON) not in sys.path:
        sys.path.insert(0, str(PYTHON))
    reader = importlib.import_module("relkvanu.conform")
    try:
        findings = reader.check(trace.splitlines())
    except reader.NoTrace as fault:
        return 2, f"relkvanu-conform: {fault}\n"
    return (1, "".join(f"{it}\n" for it in findings)) if findings else (0, "the trace obeys the rules\n")


def verdict(told):
    """What is wrong, as comments at the end of a trace."""
    return "".join(f"# {line}\n" for line in told.splitlines())


def differences(kept):
    """What docs/protocol has otherwise than what was found."""
    found = {f"{name}.trace": trace for name, trace in kept.items()}
    there = {path.name: path.read_text(encoding="utf-8") for path in TRACES.iterdir()}
    return [f"docs/protocol/{name} is not what was found: explore/write_traces" for name in sorted(found.keys() | there.keys()) if found.get(name) != there.get(name)]
