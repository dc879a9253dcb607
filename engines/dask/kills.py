"""kills.py JOB KILLS SEED FOLDER [URL] [--postgres] [--service PROGRAM] [--stops N]: a scheduler and two workers as plain commands, and drivers of JOB (words or
blocks). The driver, the workers and the scheduler are killed (-9) KILLS times each at random moments, alone or with others, and started again, as
systemd would do. With --service the coordinator is this program, which is killed as often; then no driver has a file or a library of its own. At
the end a driver comes to its end: the results are exact, each row is in the table once, and the storage has no other files than those in use.

With --stops the job is stopped and begun as often besides: by SIGTERM to the driver, or by `relkvanu stop`. Then most kills come in a stop, and a new
driver either begins the job, or finds it stopped and ends, if `relkvanu begin` did not begin it before."""
import argparse
import contextlib
import os
import pathlib
import random
import re
import signal
import socket
import subprocess
import sys
import tempfile
import time
from typing import NamedTuple, Sequence

HERE = pathlib.Path(__file__).resolve().parent
VICTIMS = "driver driver worker-0 worker-1 scheduler scheduler worker-0+worker-1 driver+worker-0 scheduler+driver".split()
VICTIMS_TOO = "service service service+driver service+worker-1".split()  # where there is a service
SPAN = 1.5  # seconds before a kill, at most: more than there are between two checkpoints
PACE = "0.3"  # seconds between two elements, or steps, of a driver that is to be killed
LAST = 10  # steps of the last driver
LAST_LINES = 400  # that it has, and those of the last record, if that was not published
STOP = 2  # seconds between the request of a stop and a kill, at most
STOPS_IN = 15  # seconds until a driver has mostly stopped the job
PATIENCE = 3600


def free_port():
    with socket.socket() as it:
        it.bind(("127.0.0.1", 0))
        return it.getsockname()[1]


class Machine(NamedTuple):
    """An address, and what a command on it begins with."""

    address: str = "127.0.0.1"
    enter: Sequence[str] = ()


class Cluster:
    """A scheduler and workers as processes, and the service if there is one, whose output is in files of a folder."""

    def __init__(self, folder, here=Machine(), there=Machine(), workers=2, service=None):
        self.folder, self.here, self.there, self.address = folder, here, there, f"tcp://{here.address}:{free_port()}"
        self.processes, self.count, self.program = {}, 0, service
        self.service = service and f"{here.address}:{free_port()}"
        for name in (*(["service"] if service else []), "scheduler", *(f"worker-{it}" for it in range(workers))):
            self.start(name)

    def command(self, name):
        dask = [sys.executable, "-W", "ignore", "-m"]
        if name == "service":
            return [self.program, "serve", "--listen", self.service, "--database", str(self.folder / "service.db"), "--history",
                    str(self.folder / "history")]
        if name == "scheduler":
            return [*self.here.enter, *dask, "distributed.cli.dask_scheduler", "--port", self.address.rpartition(":")[2], "--no-dashboard",
                    "--host", self.here.address]
        return [*self.there.enter, *dask, "distributed.cli.dask_worker", self.address, "--no-nanny", "--no-dashboard", "--nthreads", "1",
                "--memory-limit", "0", "--local-directory", str(self.folder), "--death-timeout", str(PATIENCE), "--host", self.there.address]

    def start(self, name):
        """Workers need no library."""
        self.count += 1
        with open(self.folder / f"{name}.{self.count}.log", "wb") as log:
            self.processes[name] = subprocess.Popen(self.command(name), stdout=log, stderr=log, env={**os.environ, "RELKVANU_LIB": "/nowhere"})

    def revive(self):
        for name, process in list(self.processes.items()):
            if process.poll() is not None:
                self.start(name)

    def kill(self, name):
        self.processes[name].kill()
        self.processes[name].wait()

    def stop(self):
        for name in self.processes:
            self.kill(name)


class Job:
    """The drivers of a job, one at a time."""

    def __init__(self, name, folder, url, cluster):
        self.name, self.folder, self.url, self.cluster, self.count, self.process = name, folder, url, cluster, 0, None
        self.stops, self.found, self.begins = set(), 0, False  # savepoints of stops; drivers that found one; whether a driver begins a job that has stopped

    def command(self, size):
        """With a service each driver is as the first one."""
        options = ([] if (self.folder / "job.db").exists() else ["new"]) + (["begin"] if self.begins else [])
        return [*self.cluster.here.enter, sys.executable, "-W", "ignore", str(HERE / f"{self.name}.py"), str(self.folder), self.url, size,
                self.cluster.address, *options]

    def environment(self):
        return {"SERVICE": f"http://{self.cluster.service}", "RELKVANU_LIB": "/nowhere"} if self.cluster.service else {}

    def start(self, size):
        """Starts a driver if none runs. Raises if the last one has come to an end by itself."""
        if self.process is not None and self.process.poll() is None:
            return
        if self.process is not None and self.process.returncode >= 0 and not self.notes_a_stop():
            raise AssertionError(f"driver {self.count} ended with {self.process.returncode}: {self.logs()[-1][-2000:]}")
        self.count += 1
        with open(self.folder / f"driver-{self.count}.log", "wb") as log:
            self.process = subprocess.Popen(self.command(size), stdout=log, stderr=log, env={**os.environ, **self.environment(), "PACE": PACE})

    def notes_a_stop(self):
        """Whether the driver has ended because the job has stopped."""
        told = re.search(r"^the job has stopped at savepoint (\d+): ", (self.folder / f"driver-{self.count}.log").read_text(), re.M)
        if self.process.returncode != 0 or told is None:
            return False
        self.found += int(told[1]) in self.stops
        self.stops.add(int(told[1]))
        return True

    def ask_to_stop(self):
        """A driver that does not run yet ends by the signal. Another request may be under way, or no job be there."""
        if self.cluster.service:
            self.operate("stop")
        elif self.process.poll() is None:
            self.process.send_signal(signal.SIGTERM)

    def operate(self, *words):
        """A command of the service, which may be refused."""
        subprocess.run([self.cluster.program, *words, self.name, "--url", f"http://{self.cluster.service}"], stdout=subprocess.PIPE, stderr=subprocess.PIPE,
                       check=False, timeout=PATIENCE)

    def ends_within(self, seconds):
        end = time.monotonic() + seconds
        while self.process.poll() is None and time.monotonic() < end:
            self.cluster.revive()
            time.sleep(0.1)

    def takes_a_record(self):
        """Waits until it has taken one from now on, or has ended."""
        log = self.folder / f"driver-{self.count}.log"
        before, end = len(log.read_text()), time.monotonic() + PATIENCE
        while self.process.poll() is None and "record " not in log.read_text()[before:]:
            assert time.monotonic() < end, log.read_text()[-2000:]
            self.cluster.revive()
            time.sleep(0.1)

    def kill(self):
        if self.process is not None:
            self.process.kill()
            self.process.wait()

    def logs(self):
        return [(self.folder / f"driver-{it}.log").read_text() for it in range(1, self.count + 1)]

    def last(self, size):
        """The driver that comes to its end. A worker ends by itself some time after its scheduler."""
        log, self.begins = self.folder / "driver-last.log", True
        with open(log, "wb") as to:
            self.process = subprocess.Popen(self.command(size), stdout=to, stderr=to, env={**os.environ, **self.environment()})
        end = time.monotonic() + PATIENCE
        while self.process.poll() is None and time.monotonic() < end:
            self.cluster.revive()
            with contextlib.suppress(subprocess.TimeoutExpired):
                self.process.wait(0.5)
        assert self.process.returncode == 0, log.read_text()[-2000:]
        return log.read_text()


def victims_of(job):
    return [it.split("+") for it in VICTIMS + (VICTIMS_TOO if job.cluster.service else [])]


def kind_of(name):
    return name.partition("-")[0]


def kill_each(job, names, killed):
    for it in names:
        job.kill() if it == "driver" else job.cluster.kill(it)
        killed[kind_of(it)] += 1


def kill_some(job, chance, kills, size):
    """Until each kind was killed often enough. Returns how often."""
    killed = {"driver": 0, "worker": 0, "scheduler": 0, **({"service": 0} if job.cluster.service else {})}
    while min(killed.values()) < kills:
        job.cluster.revive()
        job.start(size)
        if chance.random() < 0.7:
            job.takes_a_record()
        time.sleep(chance.uniform(0, SPAN))
        left = [it for it in victims_of(job) if any(killed[kind_of(name)] < kills for name in it)]  # not those of kinds that are done
        kill_each(job, chance.choice(left), killed)
        time.sleep(chance.uniform(0, 1))
    job.kill()
    job.cluster.revive()
    return killed


def stop_some(job, chance, stops, size):
    """Until the job has stopped so often. Returns how often each kind was killed."""
    killed = {"driver": 0, "worker": 0, "scheduler": 0, "service": 0}
    while len(job.stops) < stops:
        job.cluster.revive()
        job.begins = chance.random() < 0.7
        if job.cluster.service and chance.random() < 0.3:
            job.operate("begin")
        job.start(size)
        job.takes_a_record()
        time.sleep(chance.uniform(0, 1))
        job.ask_to_stop()
        if chance.random() < 0.7:
            time.sleep(chance.uniform(0, STOP))
            kill_each(job, chance.choice(victims_of(job)), killed)
        job.ends_within(STOPS_IN)
    job.kill()
    job.cluster.revive()
    return killed


def text_of(folder, chance, lines):
    path = folder / "text"
    with open(path, "w") as to:
        for _ in range(lines):
            to.write(" ".join(chance.choice("abcdefghijklmnop") * chance.randint(1, 3) for _ in range(chance.randint(0, 5))) + "\n")
    return path


def run_words(job, chance, kills, stops):
    text = text_of(job.folder, chance, 2000 * (1 + kills + stops))  # no driver comes to its end before the last
    told = f"{job_of(job, chance, kills, stops, str(text))}"
    cut(text, len(rows_of(job.folder)) + LAST_LINES)
    check_words(job.folder, text, job.last(str(text)))
    return told


def cut(text, lines):
    """What the last driver need not read."""
    kept = text.read_text().splitlines(keepends=True)[:lines]
    text.write_text("".join(kept))


def run_blocks(job, chance, kills, stops):
    told = job_of(job, chance, kills, stops, str(1 << 30))
    done = [int(it) for log in job.logs() for it in re.findall(r"^step (\d+): record ", log, re.M)]
    size = str(max(done, default=0) + LAST)
    assert f"exact {size}" in job.last(size)
    return f"{told}; exact after {size} steps"


def job_of(job, chance, kills, stops, size):
    killed = kill_some(job, chance, kills, size) if kills or not stops else {}
    if stops:
        more = stop_some(job, chance, stops, size)
        killed = {it: killed.get(it, 0) + more[it] for it in more if killed.get(it, 0) + more[it]}
    backs = sum(it.count("back to the last checkpoint") for it in job.logs())
    return f"killed {killed}; {job.count} drivers, which went back {backs} times besides" + (
        f"; stopped {len(job.stops)} times, found so {job.found} times" if stops else "")


def rows_of(folder):
    from words import database, table
    table(folder)
    with contextlib.closing(database(folder)[0]()) as it:
        at = it.cursor()
        at.execute("SELECT number, words FROM lines ORDER BY number")
        return [tuple(it) for it in at.fetchall()]


def check_words(folder, text, told):
    lines = text.read_text().splitlines()
    words = [word for line in lines for word in line.split()]
    wanted = f"{len(set(words))} words, {len(words)} of the text, {sum(len(it) + 1 for it in lines)} letters"
    assert wanted in told, (wanted, told[-2000:])
    rows = rows_of(folder)
    assert rows == [(number, len(line.split())) for number, line in enumerate(lines)], (len(rows), len(lines), len(set(rows)))
    print(f"words: {len(rows)} rows, each once")


def check_files(job):
    """What is in the storage is what the coordinator uses."""
    from relkvanu.drivers import opened_driver
    from where import coordinator_of, place_of
    os.environ.update(job.environment())
    coordinator, place = opened_driver(coordinator_of(job.folder, job.name), place_of(job.url, job.name), False)
    held = coordinator.begin()
    coordinator.close()
    used = {it for some in held.files for it in some}
    there = {it for page in place.open().pages() for it in page}
    assert there == used, (sorted(there - used), sorted(used - there))
    assert not (job.cluster.service and (job.folder / "job.db").exists())
    return f"record {held.id} with {len(used)} files, and no other file"


@contextlib.contextmanager
def postgres(wanted):
    """A server of the test's own, whose address words.py finds."""
    if not wanted:
        yield
        return
    sys.path.append(str(HERE.parent.parent / "service/tests"))
    from postgres import Postgres
    with tempfile.TemporaryDirectory() as folder:
        server = Postgres(folder, syncs=True)
        os.environ["TABLE"] = server.url
        try:
            yield
        finally:
            server.stop()


def main(given):
    chance, folder = random.Random(given.seed), pathlib.Path(given.folder)
    folder.mkdir()
    url = given.url or str(folder / "state")
    if not given.url:
        os.mkdir(url)
    with postgres(given.postgres):
        cluster = Cluster(folder, service=given.service)
        job = Job(given.job, folder, url, cluster)
        try:
            told = {"words": run_words, "blocks": run_blocks}[given.job](job, chance, given.kills, given.stops)
            told += f"; {check_files(job)}"
        finally:
            job.kill()
            cluster.stop()
    print(f"{given.job} over {url.partition(':')[0] if '://' in url else 'a folder'}{' and the service' if given.service else ''}: {told}")


def parser():
    it = argparse.ArgumentParser(description=__doc__)
    it.add_argument("job", choices=("words", "blocks"))
    it.add_argument("kills", type=int)
    it.add_argument("seed", type=int)
    it.add_argument("folder")
    it.add_argument("url", nargs="?", default="")
    it.add_argument("--postgres", action="store_true")
    it.add_argument("--service", metavar="PROGRAM")
    it.add_argument("--stops", type=int, default=0)
    return it


if __name__ == "__main__":
    main(parser().parse_args())
