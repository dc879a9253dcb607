"""A cleaner of many jobs: scale_clean.py JOBS STORAGES opens so many jobs over so many file systems (as root, else folders), and measures one cleaner of all
of them: its memory, processor, threads and connections, at rest and while each job releases two files and gives one up; and how long the files of a new job
stay. It exits with 1 if a file is left that nobody needs, or one that is in use is missing. RELKVANU_PROGRAM is the program, by default the debug build."""
import os
import subprocess
import sys
import threading
import time
from concurrent.futures import ThreadPoolExecutor
from contextlib import ExitStack, closing, contextmanager

from harness import PROGRAM, Server, counts, folder, folders, process_status, processor_times, small_disk, until
from places import Folder
from relkvanu_service import Service
from test_clean import SETTINGS, Cleaner, kept, of, worked

NEW_JOBS, REST, WORKERS = 5, 20, 8


class Usage:
    """What a process uses, and the most of it since it was begun to be looked at."""

    def __init__(self, pid):
        self.pid, self.threads, self.connections, self.kilobytes, self.over = pid, 0, 0, 0, threading.Event()
        self.thread = threading.Thread(target=self.look, daemon=True)
        self.thread.start()

    def processor(self):
        return sum(processor_times(f"/proc/{self.pid}"))

    def look(self):
        while not self.over.wait(0.1):
            said = process_status(self.pid)
            self.threads = max(self.threads, int(said["Threads"]))
            self.kilobytes = max(self.kilobytes, int(said["VmRSS"].split()[0]))
            sockets = sum(self.is_socket(f"/proc/{self.pid}/fd/{fd}") for fd in os.listdir(f"/proc/{self.pid}/fd"))
            self.connections = max(self.connections, sockets)

    @staticmethod
    def is_socket(path):
        try:
            return os.readlink(path).startswith("socket:")
        except OSError:
            return False

    def close(self):
        self.over.set()
        self.thread.join()


@contextmanager
def storages(at, count):
    """So many file systems, or folders for one who is not root."""
    with ExitStack() as disks:
        if os.geteuid() != 0:
            folders(at, *map(str, range(count)))
            yield [Folder(f"{at}/{number}") for number in range(count)]
        else:
            yield [Folder(disks.enter_context(small_disk(at, "64m", str(number)))) for number in range(count)]


def round_of(jobs):
    """Each job releases two files and gives one up. Returns the seconds until all that were released are gone."""
    with ThreadPoolExecutor(WORKERS) as threads:
        names = list(threads.map(lambda it: worked(*it), jobs))
    began = time.monotonic()
    for it, all_of in zip(jobs, names):
        until(lambda it=it: counts(it[0]) == (0, 0), seconds=600)
        assert of(it[1], it[2])[-2:] == all_of[2:], it[0].name
    return time.monotonic() - began


def garbage_of(server, jobs):
    """Looks once for the garbage of all jobs. Returns the seconds that it took."""
    began = time.monotonic()
    subprocess.run([PROGRAM, "clean", "--once", "--only", "garbage", "--url", server.url], check=True, stderr=subprocess.DEVNULL)
    assert all(len(of(place, prefix)) == 1 for _, place, prefix in jobs)
    return time.monotonic() - began


def measured(server, places, count, cleaner, usage):
    serves = Usage(server.process.pid)
    service, began = Service(server.url), time.monotonic()
    jobs = []
    for number in range(count):
        place, prefix = places[number % len(places)], f"j{number}-"
        jobs.append((service.open(f"job-{number}", SETTINGS, [1], storage=place.storage(prefix)), place, prefix))
    until(lambda: sum(value for key, value in cleaner.metrics().items() if key.startswith("works{")) == count, seconds=600)
    print(f"{count} jobs are opened and found after {time.monotonic() - began:.1f} s", flush=True)
    # the garbage of each is looked for once at first
    until(lambda: all(cleaner.metrics().get("threads") == 0 for _ in range(5)), seconds=600, each=0.5)
    at_rest = [it.processor() for it in (usage, serves)]
    time.sleep(REST)
    used = [100 * (it.processor() - before) / REST for it, before in zip((usage, serves), at_rest)]
    print(f"at rest: {used[0]:.1f} % of a processor, and {used[1]:.1f} % of the service's", flush=True)
    before = usage.processor()
    print(f"each released 2 files: gone {round_of(jobs):.1f} s later, {usage.processor() - before:.1f} s of a processor", flush=True)
    print(f"each gave 1 file up: one look at all garbage took {garbage_of(server, jobs):.1f} s", flush=True)
    took = []
    for number in range(NEW_JOBS):
        prefix = f"new{number}-"
        job = service.open(f"new-{number}", SETTINGS, [1], storage=places[0].storage(prefix))
        all_of = worked(job, places[0], prefix)
        began = time.monotonic()
        until(lambda job=job, prefix=prefix, all_of=all_of: kept(job, places[0], prefix, all_of), seconds=120, each=0.02)
        took.append(time.monotonic() - began)
    took.sort()
    print(f"files of a new job: gone after {took[len(took) // 2]:.1f} s, at most {took[-1]:.1f} s", flush=True)
    print(f"at most {usage.threads} threads, {usage.connections} connections, {usage.kilobytes // 1024} MB", flush=True)
    serves.close()


def main(count, places):
    with folder() as at, storages(at, places) as found:
        server = Server(at).start()
        cleaner = Cleaner(server)
        try:
            with closing(Usage(cleaner.process.pid)) as usage:
                measured(server, found, count, cleaner, usage)
        finally:
            cleaner.end()
            server.stop()


if __name__ == "__main__":
    main(int(sys.argv[1]), int(sys.argv[2]))
