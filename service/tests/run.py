"""Runs the service's tests: run.py [WORD..] runs those whose name has one of the words. Some modules run at a time (LANES), each in a process of its
own. Many tests wait for what has to come within seconds, which a machine that does much else may miss. So tests that failed are tried once
more, alone, if they are few: SECOND_TRIES at most. A line says which these were. The last line has the counts."""
import atexit
import faulthandler
import importlib
import os
import pathlib
import re
import resource
import subprocess
import sys
import tempfile
import threading
import time
import traceback
from concurrent.futures import ThreadPoolExecutor

HERE = os.path.dirname(os.path.realpath(__file__))
sys.path.append(f"{HERE}/../../store/tests")
from busy import processors  # noqa: E402  (from there)

COUNTS = "counts of the module: "
# seconds of a test: one that takes longer hangs, and its process ends and says where
LONGEST = int(os.environ.get("RELKVANU_LONGEST", "3600"))
# so many failed tests may be tried once more
SECOND_TRIES = 2
# So many modules run at a time: most of their time they wait, and two of them keep less than a processor busy. The gate has other parts beside them.
LANES = 5 if processors() >= 4 else 2
# The longest first, as they were measured; then the others.
LONGEST_MODULES = [
    "test_unit", "test_lease", "test_stop_begin", "test_places", "test_clean", "test_portable", "test_dask", "test_postgres", "test_put_back", "test_names",
    "test_limits", "test_long_reads", "test_machines", "test_promotion", "test_long_images", "test_setup_tls", "test_images", "test_power", "test_damaged",
    "test_clocks", "test_events", "test_jobs_end", "test_page", "test_page_acts", "test_history", "test_disks", "test_bounds", "test_stuck", "test_failover",
]
MODULES = LONGEST_MODULES + sorted({path.stem for path in pathlib.Path(HERE).glob("test_*.py")} - set(LONGEST_MODULES))


class Skipped(Exception):
    """A test that can't be run here: the tool that it needs, and why."""

    def __init__(self, tool, why):
        super().__init__(tool, why)
        self.tool, self.why = tool, why


def tests(name, words):
    module = importlib.import_module(name)
    for word, test in list(vars(module).items()):
        if word.startswith("test_") and callable(test) and (not words or any(one in f"{name}.{word}" for one in words)):
            yield f"{name[5:]}: {word[5:].replace('_', ' ')}", test


def processor_seconds():
    """Of this process, and of those that it has waited for: so not of PostgreSQL, which is nobody's child."""
    return sum(sum(resource.getrusage(who)[:2]) for who in (resource.RUSAGE_SELF, resource.RUSAGE_CHILDREN))


def with_threads(test):
    """Runs a test, which fails if one of its threads does: nobody else would see that. What threads of an earlier test do is that test's."""
    earlier, failed = set(threading.enumerate()), []

    def note(args):
        if args.exc_type is SystemExit:
            return
        text = "".join(traceback.format_exception(args.exc_type, args.exc_value, args.exc_traceback))
        print(f"a thread failed: {text}", flush=True)
        if args.thread not in earlier:
            failed.append(text)

    threading.excepthook = note
    told = test()
    assert not failed, f"threads failed: {failed[0]}"
    return told


def run_module(name, words):
    """Runs the tests of a module. One line has what passed, failed and was skipped."""
    passed, failed, skipped = 0, 0, 0
    for title, test in tests(name, words):
        started, before = time.monotonic(), processor_seconds()
        faulthandler.dump_traceback_later(LONGEST, exit=True)
        try:
            told = with_threads(test)
            passed += 1
            print(f"ok   {title} ({time.monotonic() - started:.1f} s, {processor_seconds() - before:.1f} of a processor){f': {told}' if told else ''}")
        except Skipped as why:
            skipped += 1
            print(f"skipped: {why.tool}: {title}: {why.why}")
        except Exception:
            failed += 1
            print(f"FAIL {title}\n{traceback.format_exc()}")
    print(f"{COUNTS}{passed} {failed} {skipped}", flush=True)


def end_now():
    """Ends this process and what it has started. It waits for no thread: one of a test that failed may go on for ever."""
    faulthandler.cancel_dump_traceback_later()
    atexit._run_exitfuncs()
    sys.stdout.flush()
    os._exit(0)


def in_process(name, words):
    """The lines of a module's process, and its three numbers. One that ends badly has failed."""
    # a file: a process that a test has left would keep a pipe open
    with tempfile.TemporaryFile("w+", encoding="utf-8", errors="replace") as said:
        words = [sys.executable, "-u", __file__, "--module", name, *words]
        status = subprocess.run(words, stdout=said, stderr=subprocess.STDOUT, check=False).returncode
        said.seek(0)
        text = said.read()
    # a thread may say something behind the counts
    counts = re.findall(rf"^{COUNTS}(\d+) (\d+) (\d+)$", text, re.MULTILINE)
    lines = [line for line in text.splitlines() if not line.startswith(COUNTS)]
    for line in (line for line in lines if not line.startswith("skipped: ")):
        print(line, flush=True)
    if len(counts) == 1 and status == 0:
        return lines, tuple(map(int, counts[0]))
    print(f"FAIL a module ended badly: {name} with status {status}", flush=True)
    return lines, (0, 1, 0)


def tried_again(done):
    """How many of the tests that failed pass alone. None is tried if a module ended badly, or if they are many."""
    failed = sum(counts[1] for _, counts in done)
    titles = [found[1] for lines, _ in done for line in lines if (found := re.match(r"FAIL (\w+: [\w ]+)$", line))]
    if len(titles) != failed or failed > SECOND_TRIES:
        return 0
    passed = 0
    for title in titles:
        name, test = title.replace(" ", "_").split(":_")
        print(f"tried again, alone: {title}", flush=True)
        one_passed, one_failed, _ = in_process(f"test_{name}", [f"test_{name}.test_{test}"])[1]
        if one_passed and not one_failed:
            passed += 1
            print(f"service: second try: {title} failed beside others, and passed alone", flush=True)
    return passed


def main(words):
    with tempfile.TemporaryDirectory(prefix="relkvanu-templates-") as templates:
        os.chmod(templates, 0o755)  # PostgreSQL runs as a user of its own
        os.environ["RELKVANU_TEMPLATES"] = templates
        # where programs run `python3` it is this one, for which service/setup has installed the packages, and no other that a user has
        os.environ["PATH"] = os.pathsep.join([os.path.dirname(sys.executable), os.environ["PATH"]])
        with ThreadPoolExecutor(LANES) as pool:
            done = list(pool.map(lambda name: in_process(name, words), MODULES))
        again = tried_again(done) if any(counts[1] for _, counts in done) else 0
    passed, failed = sum(one[1][0] for one in done), sum(one[1][1] for one in done)
    passed, failed = passed + again, failed - again
    for line in (line for lines, _ in done for line in lines if line.startswith("skipped: ")):
        print(line)
    if passed + failed == 0:
        failed = 1
    print(f"{passed} service passed, {failed} failed")
    return 1 if failed else 0


if __name__ == "__main__":
    sys.modules["run"] = sys.modules["__main__"]
    if sys.argv[1:2] == ["--module"]:
        run_module(sys.argv[2], sys.argv[3:])
        end_now()
    else:
        sys.exit(main(sys.argv[1:]))
