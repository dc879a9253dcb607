"""count.py [new]: counts the words of an endless text. Kill it at any moment, and start it again: out/ has each line once."""
import itertools
import json
import queue
import sys

from relkvanu import Settings
from relkvanu.outputs import Files
from relkvanu.runner import Barrier, Inputs, Runner
from relkvanu.store import Store

TEXT = "to be or not to be that is the question".split()
SOURCE, COUNT, SINK = range(3)  # the vertices, each of one subtask


class Engine:
    def __init__(self, job, sink, files=None):
        self.runner, self.sink, self.inputs = Runner(job, self, files), sink, Inputs(1)

    def start(self, term, record):  # from this checkpoint, or from nothing
        offset, counts, entries = (self.runner.state(record, it, 0) for it in (SOURCE, COUNT, SINK))
        self.sink.begin(self.runner.job.identity, entries)  # publishes what the checkpoint lists, and gives up all else
        self.inputs, self.barriers = Inputs(1), queue.SimpleQueue()
        self.runner.spawn(self.read, self.inputs, self.barriers, int(offset or 0))
        self.runner.spawn(self.count, self.inputs, json.loads(counts or b"{}"))

    def read(self, inputs, barriers, offset):
        for offset in itertools.count(offset):
            while not barriers.empty():
                barrier = barriers.get()
                self.runner.ack_state(barrier, SOURCE, 0, b"%d" % offset)
                inputs.put(0, barrier)  # behind the words that the snapshot has
            inputs.put(0, TEXT[offset % len(TEXT)])

    def count(self, inputs, counts):  # the state by key; the sink is chained to it
        while True:
            _, item = inputs.take()
            if isinstance(item, Barrier):
                self.runner.ack_state(item, COUNT, 0, json.dumps(counts).encode())
                self.sink.acknowledge(self.runner, item, SINK, 0)
            else:
                counts[item] = counts.get(item, 0) + 1
                self.sink([item, counts[item]])

    def barrier(self, it): self.barriers.put(it)  # a checkpoint is due
    def complete(self, id): self.sink.complete(id)

    def stopped(self, record):
        self.sink.begin(self.runner.job.identity, self.runner.state(record, SINK, 0))

    def go_on(self): pass  # after a stop that failed: no task waits here

    def end(self): self.inputs.close()  # ends both tasks


if __name__ == "__main__":
    store = Store("job.db", Settings(interval=100), [1, 1, 1], storage="state", create="new" in sys.argv)
    engine = Engine(store, Files("out"))
    engine.runner.stop_at_signals()
    print(engine.runner.run().name)  # also restores, sweeps and discards
