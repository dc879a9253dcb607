"""Load by wrk. load.py [SECONDS [sqlite|postgres]] prints acknowledgements a second with 1 and 256 connections, of one and of 64 each, and what
wrk itself takes of a processor."""
import os
import re
import resource
import subprocess
import sys
from contextlib import nullcontext

from harness import HERE, Server, folder, memory, processor_times, until
from postgres import postgres
from relkvanu_service import Service

WAYS = [(1, 1), (256, 1), (1, 64), (256, 64)]


def children_ran():
    """The seconds that processes have run for which this one has waited."""
    it = resource.getrusage(resource.RUSAGE_CHILDREN)
    return it.ru_utime + it.ru_stime


def wrk(url, connections, batch, seconds, pause=0):
    """Requests a second, how many were not answered with 200, and the 99th percentile of their time. Each connection waits `pause` milliseconds before a request."""
    threads = min(2, connections)
    words = ["wrk", "--latency", f"-t{threads}", f"-c{connections}", f"-d{seconds}s", "-s", f"{HERE}/acks.lua", url]
    told = subprocess.run(words, env={**os.environ, "BATCH": str(batch), "PAUSE": str(pause)}, stdout=subprocess.PIPE, text=True, check=True).stdout
    rate = float(re.search(r"Requests/sec: +([0-9.]+)", told).group(1))
    bad = re.search(r"Non-2xx or 3xx responses: ([0-9]+)", told)
    slow = re.search(r"99% +(\S+)", told)
    return rate, int(bad.group(1)) if bad else 0, slow.group(1) if slow else "?"


def loaded(server, ways, seconds):
    """A line for each way, and how many acknowledgements were made. The processor times are those of the service and of wrk, which depend
    less on what else the machine does."""
    job = Service(server.url).open("load", {"interval": 10, "at_once": 64, "timeout": 3_600_000}, [4096])
    until(lambda: len(job.state()["live"]) >= 4)
    told, made, process = [], 0, f"/proc/{server.process.pid}"
    for connections, batch, *pause in ways:
        before, ran, wrk_ran = job.state()["seq"], sum(processor_times(process)), children_ran()
        rate, bad, slow = wrk(server.url, connections, batch, seconds, *pause)
        acks, ran, wrk_ran = job.state()["seq"] - before, sum(processor_times(process)) - ran, children_ran() - wrk_ran
        made += acks
        assert bad == 0, f"{bad} requests were not answered with 200"
        told.append((connections, batch, rate * batch, slow, acks, 1e6 * ran / max(acks, 1), 1e6 * wrk_ran / max(acks, 1)))
    return told, made


def main(seconds=10, where="sqlite"):
    print(f"load {os.getloadavg()[0]:.1f} before")
    with folder() as at, postgres(syncs=True) if where == "postgres" else nullcontext() as database:
        measure(at, seconds, database)
    print(f"load {os.getloadavg()[0]:.1f} after")


def measure(at, seconds, database):
    server = Server(at, database and database.url, ["--keep-calls", "1000000000"]).start()
    for connections, batch, rate, slow, acks, each, of_wrk in loaded(server, WAYS, seconds)[0]:
        times = f"{each:.0f} µs of a processor each, and {of_wrk:.0f} µs of wrk"
        print(f"{connections} connections, {batch} a request: {rate:.0f} acknowledgements/s, 99% within {slow}, {acks} calls logged, {times}", flush=True)
    print(f"memory with the job of 4096 subtasks: {memory(server) / 1024:.0f} MiB")
    state = server.get("/v1/jobs/load")[2]
    count, took = (server.metric(f"relkvanu_image_seconds_{it}") for it in ("count", "sum"))
    print(f"{count:.0f} images, of {state['image']['bytes']} bytes at last, {1000 * took / count:.1f} ms each; load {os.getloadavg()[0]:.1f}")
    if not database:
        print(f"the log has {os.path.getsize(server.database) / state['seq']:.0f} bytes a call, images in it")
    server.stop()


if __name__ == "__main__":
    main(int((sys.argv[1:] or ["10"])[0]), *sys.argv[2:3])
