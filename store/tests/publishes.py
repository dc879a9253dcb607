#!/usr/bin/env python3
"""publishes.py FOLDER INPUTS: an engine over the durable coordinator with manifests, for recoveries.py. Two tasks read the numbers below INPUTS, the even
and the odd ones. A sink prepares what each read for a record, in FOLDER/sink/RECORD.TASK, and publishes it once the record is complete, by giving
it a name in FOLDER/published. So each number is published once, whenever the process is killed. It ends when all are published."""
import contextlib
import os
import pathlib
import sys

from relkvanu import AckCompleted, RestoredFresh, Settings, Triggered
from relkvanu.store import Call, Store

TASKS, EACH = 2, 3  # numbers that a task reads for a record


class Sink:
    def __init__(self, folder: pathlib.Path) -> None:
        self.prepared, self.published = folder / "sink", folder / "published"
        self.prepared.mkdir(exist_ok=True)
        self.published.mkdir(exist_ok=True)

    def prepare(self, record: int, task: int, numbers: range) -> None:
        part = self.prepared / f"part.{task}"
        with open(part, "w", encoding="utf-8") as file:
            file.write("".join(f"{it}\n" for it in numbers))
            file.flush()
            os.fsync(file.fileno())
        part.rename(self.prepared / f"{record}.{task}")
        self.sync(self.prepared)

    def sync(self, folder: pathlib.Path) -> None:
        descriptor = os.open(folder, os.O_RDONLY)
        os.fsync(descriptor)
        os.close(descriptor)

    def waiting(self) -> "list[tuple[int, pathlib.Path]]":
        found = [it for it in self.prepared.iterdir() if it.name.partition(".")[0].isdecimal()]
        return sorted((int(it.name.partition(".")[0]), it) for it in found)

    def publish(self, record: int) -> None:
        """The record is complete: it is the last one that is."""
        for number, file in self.waiting():
            if number <= record:
                os.rename(file, self.published / file.name)
        self.sync(self.published)

    def give_up(self, record: int) -> None:
        """What was prepared for records after the one that a restore returned."""
        for number, file in self.waiting():
            if number > record:
                file.unlink()


class Engine:
    def __init__(self, job: Store, sink: Sink, inputs: int) -> None:
        self.job, self.sink, self.inputs = job, sink, inputs
        self.read = list(range(TASKS))  # the next number of each task
        self.term = job.report.term

    def restore(self) -> None:
        made = self.job.restore()
        self.term = made.term
        record = 0 if isinstance(made.reply, RestoredFresh) else made.reply.id
        with self.job.read() as reads:
            files = [reads.files_of(record, 0, task) for task in range(TASKS)] if record else []
        for task, (file,) in enumerate(files):
            with open(os.open(str(file), os.O_RDONLY, dir_fd=self.job.folder()), encoding="utf-8") as state:
                self.read[task] = int(state.read())
        self.sink.publish(record)
        self.sink.give_up(record)
        self.job.sweep()

    def take_part(self, record: int, task: int) -> bool:
        numbers = range(self.read[task], self.inputs, TASKS)[:EACH]
        self.sink.prepare(record, task, numbers)
        self.read[task] += TASKS * len(numbers)
        (name,) = self.job.reserve(self.term, 1)
        self.job.put(name, b"%d" % self.read[task])
        return isinstance(self.job.ack_in(self.term, record, 0, task, [name]).reply, AckCompleted)

    def run(self) -> None:
        if self.job.report.is_recovered:
            self.restore()
        while any(it < self.inputs for it in self.read):
            triggered = self.job.call(Call.trigger()).reply
            assert isinstance(triggered, Triggered), triggered
            if any([self.take_part(triggered.id, task) for task in range(TASKS)]):
                self.sink.publish(triggered.id)
                print(triggered.id, flush=True)
            self.discard()

    def discard(self) -> None:
        files = self.job.call(Call.take(8)).reply.files
        for file in files:
            with contextlib.suppress(FileNotFoundError):
                os.unlink(str(file), dir_fd=self.job.folder())
        if files:
            os.fsync(self.job.folder())
            self.job.calls([Call.deleted(it) for it in files])


def main(folder: str, inputs: str) -> None:
    work = pathlib.Path(folder)
    (work / "state").mkdir(exist_ok=True)
    settings = Settings(interval=10, timeout=600_000, retained=2)
    with Store(work / "job.db", settings, [TASKS], storage=work / "state", create=not (work / "begun").exists(), manifests=True,
               checksums=True) as job:
        (work / "begun").touch()  # from now on there is a job: a missing file is a lost one
        Engine(job, Sink(work), int(inputs)).run()


if __name__ == "__main__":
    main(*sys.argv[1:])
