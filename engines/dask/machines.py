"""Two machines of a network whose wires take their time, and are cut (service/tests/network.py). It runs under `unshare -rn`, where it may make namespaces.

machines.py cut CUTS SEED FOLDER: the job of words.py, with the driver and the scheduler on one machine and two workers on the other. The wires are
cut CUTS times, in turn for a moment and for longer than Dask waits. At the end the results are exact.
machines.py first FOLDER: FOLDER/first.py, by the commands of examples/dask for two machines, with the addresses that these have."""
import os
import pathlib
import random
import re
import signal
import subprocess
import sys
import time

from kills import Cluster, Job, Machine, check_files, check_words, text_of

TOP = pathlib.Path(__file__).resolve().parent.parent.parent
sys.path.append(str(TOP / "service/tests"))

from network import Network  # noqa: E402  # it is in that folder

DELAYS = 0.010, 0.020  # seconds that each packet takes, at least and at most
SHORT, LONG = 3, 45  # seconds; Dask gives a connection up after 30
WIRES = (1, 2), (2, 1)


class Machines:
    def __init__(self, folder):
        self.network = Network(folder, 2)
        self.here, self.there = (Machine(it.address, it.prefix) for it in self.network.machines[1:])
        self.set()

    def set(self, loss=0.0):
        for wire in WIRES:
            self.network.set(*wire, loss, *DELAYS)

    def cut(self, seconds):
        """No packet goes through, and nobody is told."""
        self.set(1.0)
        time.sleep(seconds)
        self.set()


def cut(cuts, seed, folder):
    chance, folder = random.Random(int(seed)), pathlib.Path(folder)
    folder.mkdir()
    url = str(folder / "state")
    os.mkdir(url)
    machines = Machines(folder)
    cluster = Cluster(folder, machines.here, machines.there)
    text = text_of(folder, chance, 1000 + 800 * int(cuts))
    job = Job("words", folder, url, cluster)
    try:
        job.start(str(text))
        for it in range(int(cuts)):
            job.takes_a_record()
            time.sleep(chance.uniform(0, 2))
            machines.cut(LONG if it % 2 else SHORT)
        job.kill()
        check_words(folder, text, job.last(str(text)))
    finally:
        job.kill()
        cluster.stop()
    backs = sum(it.count("back to the last checkpoint") for it in job.logs())
    passed, lost, late = machines.network.end()
    assert lost and late, (lost, late)
    print(f"two machines: {cuts} cuts, in which {lost} of {passed + lost} packets were lost; back {backs} times; {check_files(job)}")


def first(folder):
    """Each of the addresses in the commands has its own."""
    machines = Machines(folder)
    text = (TOP / "examples/dask/commands").read_text(encoding="utf-8")
    here, there = (machine._replace(enter=[*machine.enter, "bash", "-ec"]) for machine in (machines.here, machines.there))
    text = text.replace("10.0.0.1", here.address).replace("10.0.0.2", there.address)
    commands = dict(re.findall(r"^# on ([0-9.]+)\n((?:.+\n)*)", text, re.M))
    ends = "trap 'kill $(jobs -p); wait' EXIT\n"
    workers = subprocess.Popen([*there.enter, f"{ends}{commands[there.address]}wait"], cwd=folder, start_new_session=True)
    try:
        subprocess.run([*here.enter, f"{ends}{commands[here.address]}"], cwd=folder, check=True)
    finally:
        os.killpg(workers.pid, signal.SIGTERM)
        workers.wait()


if __name__ == "__main__":
    {"cut": cut, "first": first}[sys.argv[1]](*sys.argv[2:])
