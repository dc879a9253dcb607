#!/usr/bin/env python3
"""faults/kill_engines.py KILLS [SEED]: runs mini.py and mini-rust of examples/engine, kills a process of theirs KILLS times, and
looks at what they published: each number of each source once, in its order, and the sums of one run. A job whose files were put back, as a backup is, has to
refuse to publish a number again, and one whose transaction is lost has to refuse to start. Its status tells a supervisor when to start it again. One that
dies between a stop and its publication publishes at the next start. SIGTERM and Ctrl-C stop an engine with all published, and savepoints that
it is asked for meanwhile publish nothing. Then engines that break a row of the checklist in docs/ALIGNMENT.md have to be found wrong.
RELKVANU_LIB names the folder of the library."""
import json
import os
import pathlib
import random
import shutil
import signal
import subprocess
import sys
import tempfile
import time

HERE = pathlib.Path(__file__).resolve().parent
SECONDS = 300  # that a start may take to publish something, on a busy machine
KEYS = {"mini.py": 4, "mini-rust": 4}  # sums of a sample
BESIDE = {"mini.py": "target.py"}  # what a sample imports
# For each row of the checklist in docs/ALIGNMENT.md. One that is wrong only between two steps waits there: on a fast machine a kill would seldom hit that
# moment.
WRONG = {
    "1: it acknowledges what it has not cut": [
        "mini.py",
        ("        self.runner.spawn(self.sum, states.get(SUM, [0] * KEYS))\n",
         "        self.totals = states.get(SUM, [0] * KEYS)\n        self.runner.spawn(self.sum, self.totals)\n"),
        ("    def barrier(self, it):\n", "    def barrier(self, it):\n        self.cut(it, SUM, 0, self.totals)\n"),
        ("                self.cut(item, SUM, 0, totals)\n", ""),
    ],
    "2: it does not align": [
        "mini.py",
        ("        self.inputs = Inputs(2, room=20)\n",
         "        self.inputs = Inputs(2, room=20)\n        self.inputs._asked = lambda: self.inputs._left\n        self.inputs._free = [0, 1]\n"),
        ("                self.inputs.put(source, item)\n                self.cut(",
         "                import time; time.sleep(0.1 * source)\n                self.inputs.put(source, item)\n                self.cut("),
    ],
    "3: it sends elements before the barrier": [
        "mini.py",
        ("                self.inputs.put(source, item)\n                self.cut(",
         "                for number in self.next(source):\n                    self.inputs.put(source, number)\n"
         "                self.inputs.put(source, item)\n                self.cut("),
    ],
    "4: its snapshot has what came behind its cut": [
        "mini.py",
        ("                self.cut(item, SUM, 0, totals)\n", ""),
        ("                lines = []\n            else", "                lines = []\n                threading.Timer(0.05, self.cut, (item, SUM, 0, totals)).start()\n            else"),
    ],
    "5: a channel doubles an element": [
        "mini.py",
        ("                for number in item:\n", "                for number in [*item, *(it for it in item if it == 9)]:\n"),
    ],
    "6: its sum depends on its process": [
        "mini.py",
        ("                totals[item % KEYS] += item\n", "                totals[item % KEYS] += item + ('new' not in sys.argv)\n"),
    ],
    "7: a source reads on one split later": [
        "mini.py",
        ("states.get(ENUMERATOR, [0, 0]), ([], [])", "[it + 1 for it in states.get(ENUMERATOR, [-1, -1])], ([], [])"),
    ],
    "8: a task begins with its own last state": [
        "mini.py",
        ("        self.runner.spawn(self.sum, states.get(SUM, [0] * KEYS))\n",
         "        with open(self.target.folder / 'own', 'a+') as own:\n            own.seek(0)\n"
         "            self.runner.spawn(self.sum, json.loads(([json.dumps([0] * KEYS)] + own.readlines())[-1]))\n"),
        ("                self.cut(item, SUM, 0, totals)\n",
         "                print(json.dumps(totals), file=open(self.target.folder / 'own', 'a'))\n                import time; time.sleep(0.05)\n"
         "                self.cut(item, SUM, 0, totals)\n"),
    ],
    "9: it restores a record before the last one that it published": [
        "mini.py",
        ("Settings(interval=20)", "Settings(interval=20, retained=2)"),
        ("        self.runner = Runner(self.store, self)\n",
         "        if len(self.store.live()) > 1:\n            self.store.go_back(min(it.id for it in self.store.live() if it.done), True)\n"
         "        self.runner = Runner(self.store, self)\n"),
    ],
    "10: it writes over what it has saved": [
        "mini.py",
        ("        self.runner.spawn(self.sum, states.get(SUM, [0] * KEYS))\n",
         "        self.saved = self.target.folder / 'saved'\n        self.runner.spawn(self.sum, json.loads(self.saved.read_text()) if record else [0] * KEYS)\n"),
        ("                self.cut(item, SUM, 0, totals)\n",
         "                new = self.saved.with_suffix('.new')\n                new.write_text(json.dumps(totals))\n                new.replace(self.saved)\n"
         "                import time; time.sleep(0.05)\n                self.cut(item, SUM, 0, None)\n"),
    ],
    "11: it publishes at its cut": [
        "mini.py",
        ("                self.cut(item, SUM, 0, totals)\n                self.cut(item, SINK, 0, self.target.prepare(item.id, lines))\n",
         "                told = self.target.prepare(item.id, lines)\n                self.target.publish(item.id)\n                import time; time.sleep(0.02)\n"
         "                self.cut(item, SUM, 0, totals)\n                self.cut(item, SINK, 0, told)\n"),
    ],
    "11: it does not publish again": [
        "target.py",
        ("        self.publish(max(prepared, default=0))  #", "        self.prepared = []  #"),
        ("    def publish(self, up_to):\n", "    def publish(self, up_to):\n        import time; time.sleep(0.05 * (up_to % 3))\n"),
    ],
    "11: it gives nothing up": [
        "target.py",
        ("            it.unlink()  #", "            os.rename(it, it.with_suffix('.published'))  #"),
        ("            return list(self.prepared)\n", "            import time; time.sleep(0.02)\n            return list(self.prepared)\n"),
    ],
    "12: its target takes a transaction twice": [
        "target.py",
        ("                    it.with_suffix(\".published\").stat()  #", "                    os.link(it.with_suffix('.published'), self.folder / f'{10**9 + int(it.stem)}.published')  #"),
    ],
    "13: a task of it is in no record": [
        "mini.py",
        ("SOURCE, SUM, SINK = range(4)\nSHAPE, KEYS, SPLIT = [1, 2, 1, 1]", "SOURCE, SINK, SUM = range(4)\nSHAPE, KEYS, SPLIT = [1, 2, 1]"),
        ("                self.cut(item, SUM, 0, totals)\n", ""),
    ],
}


def in_rust(samples):
    """Builds the sample in Rust over the crates of the repository."""
    manifest = samples / "mini-rust/Cargo.toml"
    manifest.write_text(manifest.read_text(encoding="utf-8").replace('"../../../bindings/', f'"{HERE.parent}/bindings/'), encoding="utf-8")
    environment = {**os.environ, "CARGO_TARGET_DIR": str(samples / "built")}
    subprocess.run(["cargo", "build", "--offline", "--quiet", "--manifest-path", manifest], env=environment, check=True)


def is_short(samples, name):
    """Whether an engine by the runner has at most 100 lines, in the layout of rustfmt if it is in Rust."""
    lines = sum(1 for line in (samples / name).read_text(encoding="utf-8").splitlines() if line.strip())
    words = ["cargo", "fmt", "--check", "--manifest-path", samples / "mini-rust/Cargo.toml", "--", "--config-path", HERE.parent / "rustfmt.toml"]
    is_laid_out = not name.endswith(".rs") or subprocess.run(words, check=False).returncode == 0
    print(f"{name}: {lines} lines{'' if is_laid_out else ', and rustfmt lays them out otherwise'}", flush=True)
    return lines <= 100 and is_laid_out


class Job:
    """A job of the sample in a folder of its own. The texts are those of its program and of what that imports; one in Rust is built."""

    def __init__(self, folder, sample, samples, texts=None):
        self.folder, self.keys, self.cycle = folder, KEYS[sample], None
        for it in ("state", "target"):
            (folder / it).mkdir(parents=True)
        for name, text in (texts or {}).items():
            (folder / name).write_text(text, encoding="utf-8")
        self.words = [sys.executable, folder / sample] if texts else [samples / "built/debug/mini"]

    def published(self):
        return sorted(int(it.stem) for it in (self.folder / "target").glob("*.published"))

    def start(self, last, *words, stderr=subprocess.DEVNULL):
        new = [] if (self.folder / "job.db").exists() else ["new"]
        # what is left of a job that was killed says so on its standard error; a shell that runs this beside others may ignore Ctrl-C
        return subprocess.Popen([*self.words, self.folder, str(last), *new, *words], cwd=self.folder, stderr=stderr,
                                preexec_fn=lambda: signal.signal(signal.SIGINT, signal.SIG_DFL))

    def publishing(self, *words):
        """Starts it, and waits until it has published once more."""
        before, process = self.published(), self.start(1 << 62, *words)
        self.await_more(process, before)
        return process

    def await_more(self, process, before):
        until = time.monotonic() + SECONDS
        while self.published() == before and process.poll() is None:
            assert time.monotonic() < until, f"nothing was published in {SECONDS} s"
            time.sleep(0.005)

    def measure(self, process):
        """Sets `cycle` to the seconds from one publication to the next."""
        before, began = self.published(), time.monotonic()
        self.await_more(process, before)
        self.cycle = time.monotonic() - began

    def kill_one(self, dice):
        """Starts it, waits until it has published once more, and kills it in the two cycles that follow."""
        process = self.publishing()
        if self.cycle is None or dice.random() < 0.1:
            self.measure(process)
        time.sleep(dice.random() * max(0.06, 2 * self.cycle))
        process.kill()
        process.wait(SECONDS)

    def fault(self):
        """What is wrong with what it published; None: nothing."""
        lines = [json.loads(line) for id in self.published() for line in open(self.folder / "target" / f"{id}.published", encoding="utf-8")]
        totals = [0] * self.keys
        next_numbers = [0, 0]
        for source, number, told in lines:
            totals[number % self.keys] += number
            total = totals[number % self.keys]
            if number != next_numbers[source]:
                return f"source {source}: {number} where {next_numbers[source]} is next"
            if told != total:
                return f"source {source}: {number} with the sum {told}, which is {total}"
            next_numbers[source] += 1
        return None


def is_right(samples, sample, texts, kills, dice):
    job = Job(samples / f"right {sample}", sample, samples, texts)
    for _ in range(kills):
        job.kill_one(dice)
    # on to a checkpoint behind all that was begun: nothing that was killed is left to publish
    status = job.start(max(job.published(), default=0) + 5).wait(SECONDS)
    fault = f"status {status}" if status else job.fault() if len(job.published()) > kills // 2 else "too little was published"
    lines = sum(1 for id in job.published() for _ in open(job.folder / "target" / f"{id}.published", encoding="utf-8"))
    print(f"{sample}, {kills} kills: {fault or f'each of {lines} numbers once, in {len(job.published())} records'}", flush=True)
    return fault is None


def put(folder, into):
    """The job's file and its state, both of one moment, without what it published."""
    for it in ("state", "job.db", "job.db-wal", "job.db-shm", "job.db.lock"):
        if (into / it).is_dir():
            shutil.rmtree(into / it)
        (into / it).unlink(missing_ok=True)
        if (folder / it).is_dir():
            shutil.copytree(folder / it, into / it)
        elif (folder / it).exists():
            shutil.copy2(folder / it, into / it)


def refuses(samples, sample, texts):
    """Whether it publishes nothing again once its files were put back, and does not start once a transaction in its state is lost."""
    job, kept = Job(samples / f"back {sample}", sample, samples, texts), samples / f"kept {sample}"
    kept.mkdir()
    target = job.folder / "target"

    def ends(last):
        status = job.start(last).wait(SECONDS)
        return status, {it.name: it.read_bytes() for it in target.glob("*.published")}

    first, _ = ends(5)
    put(job.folder, kept)
    second, published = ends(10)
    put(kept, job.folder)
    again, after = ends(10)
    put(kept, job.folder)
    for it in target.iterdir():
        if it.suffix == ".published":
            it.unlink()
    lost, nothing = ends(10)
    right = (first, second) == (0, 0) and again != 0 and after == published and lost != 0 and not nothing
    told = "it refuses what it published before, and a start without it" if right else f"statuses {first}, {second}, {again}, {lost}"
    print(f"{sample}, put back: {told}", flush=True)
    return right


def is_started_again(samples, texts):
    """Whether the status of mini.py sends a supervisor back to it: after a restart, and not after a cancel, when no file is left."""
    job, statuses, new = Job(samples / "ends", "mini.py", samples, texts), [], ["new"]
    for call in ("runner.restart", "store.cancel"):
        text = f"""import sys, threading, mini
it = mini.Engine(*sys.argv[1:])
publish, once = it.complete, iter([threading.Thread(target=it.{call}).start])
it.complete = lambda id: (publish(id), next(once, int)())
it.runner.run()"""
        words = [sys.executable, "-c", text, job.folder, str(1 << 62), *new]
        statuses.append(subprocess.run(words, cwd=job.folder, stderr=subprocess.DEVNULL, timeout=SECONDS, check=False).returncode)
        new = []
    statuses.append(job.start(1 << 62).wait(SECONDS))
    left = [it.name for it in (job.folder / "state").iterdir() if not it.name.startswith(".")]
    print(f"mini.py, restarted, cancelled and started again: statuses {statuses}, {len(left)} files left", flush=True)
    return statuses == [1, 0, 0] and not left


def publishes_a_stop(samples, texts):
    """Whether mini.py publishes what a stop has completed if it dies in between: by the start that finds the job stopped. Once begun, the job goes on."""
    job, target, statuses, left = Job(samples / "stops", "mini.py", samples, texts), samples / "stops/target", [], []
    dies = """import os, sys, threading, mini
it = mini.Engine(*sys.argv[1:])
publish = it.complete
it.complete = lambda id: os._exit(9) if it.store.phase().phase.name == "STOPPED" else publish(id)
threading.Timer(0.5, it.store.stop_job).start()
it.runner.run()"""
    begins = "import sys, mini; mini.Engine(*sys.argv[1:]).store.begin_job()"
    for text, new in ((dies, ["new"]), (None, []), (begins, [])):
        words = [sys.executable, *(["-c", text] if text else [job.folder / "mini.py"]), job.folder, str(1 << 62), *new]
        statuses.append(subprocess.run(words, cwd=job.folder, stderr=subprocess.DEVNULL, timeout=SECONDS, check=False).returncode)
        left.append(sorted(int(it.stem) for it in target.glob("*.prepared")))
    stopped = job.published()
    statuses.append(job.start(stopped[-1] + 3).wait(SECONDS))
    fault = job.fault()
    right = statuses == [9, 0, 0, 0] and left[0] != [] and left[1:] == [[], []] and stopped[-1] == left[0][-1] and len(job.published()) > len(stopped) and not fault
    told = "what was prepared is published by the next start" if right else f"statuses {statuses}, prepared {left}, published {stopped}, {fault}"
    print(f"mini.py, killed at a stop: {told}", flush=True)
    return right


def takes_savepoints(samples, texts, kills, dice):
    """Whether mini.py publishes each number once if it is asked for a savepoint again and again, and is killed meanwhile."""
    asks = """import sys, threading, mini
from relkvanu import Refused
it = mini.Engine(*sys.argv[1:])
def ask():
    while True:
        id = it.runner.savepoint()
        print(id, file=open("savepoints", "a"))
        try:
            it.store.dispose(id)
        except Refused:
            pass  # the job would begin from it
threading.Thread(target=ask, daemon=True).start()
it.runner.run()"""
    job = Job(samples / "savepoints", "mini.py", samples, texts)
    job.words = [sys.executable, "-c", asks]
    for _ in range(kills):
        job.kill_one(dice)
    status = job.start(max(job.published(), default=0) + 50).wait(SECONDS)
    taken = [int(line) for line in (job.folder / "savepoints").read_text(encoding="utf-8").split()]
    fault = f"status {status}" if status else job.fault() if taken == sorted(set(taken)) and len(taken) > 1 else f"savepoints {taken}"
    print(f"mini.py, {kills} kills and {len(taken)} savepoints: {fault or 'each number once'}", flush=True)
    return fault is None


def is_stopped(samples, sample, texts, dice):
    """Whether each signal stops an engine by the runner with all published, and the job stays stopped until it is begun."""
    job, statuses, left = Job(samples / f"signals {sample}", sample, samples, texts), [], []
    for number, words in ((signal.SIGTERM, []), (signal.SIGINT, ["begin"])):
        process = job.publishing(*words)
        time.sleep(dice.random() * 0.06)
        process.send_signal(number)
        statuses.append(process.wait(SECONDS))
        published = job.published()
        statuses.append(job.start(1 << 62).wait(SECONDS))  # it finds the job stopped
        left.append([*(job.folder / "target").glob("*.prepared"), *(it for it in job.published() if it not in published)])
    statuses.append(job.start(job.published()[-1] + 3, "begin").wait(SECONDS))
    fault = job.fault()
    right = statuses == [0] * 5 and left == [[], []] and not fault
    print(f"{sample}, stopped by signals: {'all is published' if right else f'statuses {statuses}, left {left}, {fault}'}", flush=True)
    return right


def is_found(samples, why, texts, dice):
    """Whether a wrong engine publishes something wrong within 300 kills. Mostly a few are enough."""
    name, *swaps = WRONG[why]
    sample = next((it for it, beside in BESIDE.items() if beside == name), name)
    wrong = dict(texts[sample])
    for old, new in swaps:
        assert wrong[name].count(old) == 1, old
        wrong[name] = wrong[name].replace(old, new)
    job = Job(samples / f"wrong {why}", sample, samples, wrong)
    for kills in range(1, 301):
        job.kill_one(dice)
        fault = job.fault()
        if fault is not None:
            print(f"{why}: {fault}, after {kills} kills", flush=True)
            return True
    print(f"{why}: nothing was found")
    return False


def read(samples, *names):
    return {it: (samples / it).read_text(encoding="utf-8") for it in names}


def main(kills, seed=None):
    seed = int(seed) if seed else random.randrange(1 << 32)
    print(f"seed {seed}", flush=True)
    dice = random.Random(seed)
    with tempfile.TemporaryDirectory() as work:
        samples = pathlib.Path(work) / "engine"
        shutil.copytree(HERE.parent / "examples/engine", samples)
        texts = {"mini.py": read(samples, "mini.py", BESIDE["mini.py"])}
        if shutil.which("cargo"):
            in_rust(samples)
            texts["mini-rust"] = None
        else:
            print("skipped: cargo: the engine in Rust")
        good = [is_short(samples, it) for it in ("mini.py", "mini-rust/src/main.rs") if it in texts or "mini-rust" in texts]
        good += [is_right(samples, it, of, int(kills), dice) for it, of in texts.items()]
        good += [refuses(samples, it, of) for it, of in texts.items()]
        good.append(is_started_again(samples, texts["mini.py"]))
        good.append(publishes_a_stop(samples, texts["mini.py"]))
        good.append(takes_savepoints(samples, texts["mini.py"], int(kills), dice))
        good += [is_stopped(samples, it, of, dice) for it, of in texts.items()]
        good += [is_found(samples, why, texts, dice) for why in WRONG]
    print(f"{good.count(True)} engines passed, {good.count(False)} failed")
    return 0 if all(good) else 1


if __name__ == "__main__":
    sys.exit(main(*sys.argv[1:]))
