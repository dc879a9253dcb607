"""stored.py FOLDER [LAST] [new]: a job of three tasks that count. FOLDER/job.db has the coordinator, the folder FOLDER/state the files of its tasks."""
import contextlib
import itertools
import os
import queue
import sys
import threading
import time
from typing import Optional, Sequence

from relkvanu import AckCompleted, Fenced, Mode, OutOfMemory, Refused, Settings
from relkvanu.store import NextBarrier, NextCancelled, NextFailed, Store, StoreError

TASKS = 3


class Engine:
    def __init__(self, job: Store, last: int) -> None:
        self.job, self.last = job, last
        self.tasks = []  # their threads, each with the queue of its barriers. The last ones run; those before them hang

    def make(self, call, *words):
        """Without memory nothing has changed: the same call again, after a second."""
        while True:
            try:
                return call(*words)
            except OutOfMemory:
                time.sleep(1)

    def take_part(self, index: int, term: int, id: int, name: int, count: int) -> None:
        """Makes a file by a name that the task has reserved, and acknowledges it. A task deletes nothing: what it gives up is swept."""
        try:
            self.job.put(name, b"%d\n" % count)
            reply = self.make(self.job.ack_in, term, id, 0, index, [name]).reply
        except (StoreError, Refused):
            self.make(self.job.forfeit, term, [name])
            with contextlib.suppress(Refused):  # the record is not known any more
                self.make(self.job.decline_in, term, id, 0, index)
        else:
            if isinstance(reply, AckCompleted):
                print(f"record {id} is complete", file=sys.stderr)  # sinks get this message: they may publish

    def task(self, index: int, term: int, count: int, barriers: "queue.Queue[Optional[int]]") -> None:
        """Its term is the one that it was started with: it asks for no other. Once a restore or a cancel has ended it, none of its calls is made."""
        names = (name for _ in itertools.count() for name in self.make(self.job.reserve, term, 100))  # durable before the first is used
        try:
            for count, id, name in zip(itertools.count(count + 1), iter(barriers.get, None), names):  # the count is its state
                self.take_part(index, term, id, name, count)
        except Fenced as why:
            if why.name != "OldTerm":
                raise

    def start_tasks(self, term: int, counts: Sequence[int]) -> None:
        for index, count in enumerate(counts):
            barriers: "queue.Queue[Optional[int]]" = queue.Queue()
            self.tasks.append((self.start(self.task, index, term, count, barriers), barriers))

    def end_tasks(self, longest: Optional[float]) -> None:
        """Before a restore it waits a second for each, and for none that hangs, as in a put on a disk that does not answer: its term ends."""
        self.tell(None)
        for thread, _ in self.tasks:
            thread.join(longest)
        self.tasks = [it for it in self.tasks if it[0].is_alive()]

    def tell(self, barrier: Optional[int]) -> None:
        for _, barriers in self.tasks[-TASKS:]:
            barriers.put(barrier)

    def restore(self) -> None:
        self.begin(self.make(self.job.restore).term)

    def begin(self, term: int) -> None:
        """Tasks go on from the record that a restore has returned, which is the choice, in the term that it begins."""
        counts = [0] * TASKS
        with self.job.read() as reads:
            choice = reads.choice()
            files = [] if choice is None else [reads.files_of(choice.id, 0, index)[0] for index in range(TASKS)]
        for index, file in enumerate(files):
            with open(os.open(str(file), os.O_RDONLY, dir_fd=self.job.folder())) as state:
                counts[index] = int(state.read())
        if choice is not None:  # perhaps told before: a sink publishes what its state lists, and gives up all else
            print(f"record {choice.id} is complete", file=sys.stderr)
        self.start_tasks(term, counts)

    def run(self) -> None:
        if not self.job.report.is_recovered:  # report.steps
            self.start_tasks(self.job.report.term, [0] * TASKS)
        elif self.job.report.mode is not Mode.CANCELLED:
            self.restore()
        discarder = self.start(self.job.discard)  # after the load: no file of the record is missing
        for times in itertools.count():
            it = self.make(self.job.await_next, 60_000)
            if isinstance(it, NextCancelled):
                break
            if isinstance(it, NextFailed):  # a file could not be written, say
                self.end_tasks(1)
                self.restore()
            elif isinstance(it, NextBarrier):
                if it.id > self.last:
                    break  # the checkpoint before this one has ended, so each task waits
                self.tell(it.id)
            if isinstance(it, NextFailed) or times % 1000 == 0:  # at any time, also while tasks run
                self.make(self.job.sweep)
        self.end_tasks(None)
        while isinstance(it, NextCancelled) and self.make(self.job.sweep) + self.left() > 0:  # then only savepoints and kept records have files
            time.sleep(1)
        self.job.stop()
        discarder.join()

    def left(self) -> int:
        """How many files the discarder has before it."""
        with self.job.read() as reads:
            counts = reads.file_counts()
            return counts.waiting + counts.taken

    def start(self, run, *words) -> threading.Thread:
        """A thread whose failure ends the process. The next one goes on with what is committed."""
        def guarded() -> None:
            try:
                run(*words)
            except BaseException as error:
                print(error, file=sys.stderr)
                os._exit(1)

        thread = threading.Thread(target=guarded, daemon=True)
        thread.start()
        return thread


def main(folder: str, *words: str) -> None:
    os.chdir(folder)
    settings, last = Settings(interval=10, timeout=600_000), next((int(it) for it in words if it != "new"), 1 << 62)
    with Store("job.db", settings, [TASKS], storage="state", create="new" in words, manifests=True, patience=5000) as job:
        engine = Engine(job, last)
        engine.run()


if __name__ == "__main__":
    main(*sys.argv[1:])
