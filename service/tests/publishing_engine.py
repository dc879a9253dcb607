"""publishing_engine.py URL FOLDER INPUTS: an engine over the service with manifests, as docs/SERVICE-ENGINE.md has it. Its job `orders` has two tasks, which
read the numbers below INPUTS, the even and the odd ones. A sink prepares what each read for a record, and publishes it once the record has a manifest. So each
number is published once, whenever the process is killed or the database of the service is lost. It prints each record that it has published, and ends when all
numbers are. It begins from its files in FOLDER/state and from payloads that say the same."""
import contextlib
import os
import pathlib
import sys

import harness  # noqa: F401 (it finds the client)
from relkvanu.service_manifests import Manifests, service_folder
from relkvanu_service import Service

TASKS, EACH = 2, 3  # numbers that a task reads for a record
PREFIX, SUFFIX = "s-", ".bin"
# A record is due when this engine says so. Two records are retained, so the files of the last one with a manifest are there until the next one has its own.
SETTINGS = {"interval": 1 << 40, "timeout": 600_000, "tolerable": 1000, "retained": 2}


def sync(folder):
    descriptor = os.open(folder, os.O_RDONLY)
    os.fsync(descriptor)
    os.close(descriptor)


def write(path, text):
    """A new file, which is whole and on the disk when this returns."""
    part = path.with_name(f"{path.name}.part")
    with open(part, "w", encoding="utf-8") as it:
        it.write(text)
        it.flush()
        os.fsync(it.fileno())
    part.rename(path)
    sync(path.parent)


class Sink:
    def __init__(self, folder):
        self.prepared, self.published = folder / "sink", folder / "published"
        self.prepared.mkdir(exist_ok=True)
        self.published.mkdir(exist_ok=True)

    def prepare(self, record, task, numbers):
        write(self.prepared / f"{record}.{task}", "".join(f"{it}\n" for it in numbers))

    def waiting(self):
        found = [it for it in self.prepared.iterdir() if not it.name.endswith(".part")]
        return sorted((int(it.name.partition(".")[0]), it) for it in found)

    def publish(self, record):
        """The record is complete: it is the last one that is."""
        for number, file in self.waiting():
            if number <= record:
                assert not (self.published / file.name).exists(), f"record {number} comes twice"
                os.rename(file, self.published / file.name)
        sync(self.published)

    def give_up(self, record):
        for number, file in self.waiting():
            if number > record:
                file.unlink()


class Engine:
    def __init__(self, url, folder, inputs):
        self.files, self.inputs, self.sink = folder / "state", inputs, Sink(folder)
        self.files.mkdir(exist_ok=True)
        self.job = Service(url).open("orders", SETTINGS, [TASKS])
        self.job.claim(self.files)
        self.manifests = Manifests(self.job, service_folder("orders", self.files, PREFIX, SUFFIX))
        start = self.job.begin()
        self.task, self.read = start.session(block=10), list(range(TASKS))
        for task in range(TASKS) if start.id else ():
            state = start.load()["subtasks"][f"0.{task}"]
            (file,) = state["files"]
            self.read[task] = int(self.path(file).read_text())
            assert self.read[task] == int(state["payload"]), (file, state)
        self.manifests.keep()
        self.sink.publish(start.id or 0)
        self.sink.give_up(start.id or 0)

    def path(self, file):
        return self.files / f"{PREFIX}{file}{SUFFIX}"

    def take_part(self, record, task):
        """Returns whether the record is complete."""
        numbers = range(self.read[task], self.inputs, TASKS)[:EACH]
        self.sink.prepare(record, task, numbers)
        self.read[task] += TASKS * len(numbers)
        name = self.task.name()
        state = str(self.read[task])
        write(self.path(name), state)
        return self.task.ack(record, f"0.{task}", [name], payload=state.encode())["ack"] == "completed"

    def run(self):
        while any(it < self.inputs for it in self.read):
            record = self.job.checkpoint()["id"]
            if any([self.take_part(record, task) for task in range(TASKS)]):
                self.manifests.keep()
                self.sink.publish(record)
                print(record, flush=True)
            self.discard()

    def discard(self):
        files = self.job.take()
        for file in files:
            with contextlib.suppress(FileNotFoundError):
                self.path(file).unlink()
        sync(self.files)
        if files:
            self.job.calls([{"call": "deleted", "file": str(it)} for it in files])


def main(url, folder, inputs):
    Engine(url, pathlib.Path(folder), int(inputs)).run()


if __name__ == "__main__":
    main(*sys.argv[1:])
