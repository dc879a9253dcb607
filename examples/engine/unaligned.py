"""unaligned.py FOLDER AFTER LAST [new]: forty sources and a sink that takes 2 ms for each element, so all channels are full. AFTER is the number of
milliseconds after which a checkpoint overtakes, or `aligned`. It ends after the checkpoint LAST, and prints how long each took. Each element is published once."""
import json
import sys
import time

from relkvanu import Settings, unaligned
from relkvanu.runner import Barrier, Inputs, Runner
from relkvanu.store import Store
from target import Target

SOURCES, ROOM, SLOW = 40, 100, 0.002
SOURCE, SINK = range(2)


class Engine:
    def __init__(self, folder, after, last, *words):
        self.target, self.after, self.began, self.inputs = Target(f"{folder}/target"), after, {}, None
        self.store = Store(f"{folder}/job.db", Settings(interval=200), [SOURCES, 1], storage=f"{folder}/state", create="new" in words)
        self.runner = Runner(self.store, self)
        self.runner.close_after(int(last))

    def start(self, term, record):
        states = {(it.vertex, it.index): json.loads(it.payload) for it in record.parts} if record else {}
        unaligned.check(self.store, record)
        self.target.begin(states.get((SINK, 0), []))
        recorded = unaligned.load(self.store, record, SINK, 0)
        if self.after == "aligned":
            assert not recorded, "the job begins from an unaligned checkpoint"
            self.inputs = Inputs(SOURCES, ROOM)
        else:
            self.inputs = unaligned.UnalignedInputs(SOURCES, ROOM, after=float(self.after), recorded=recorded)
        self.barriers = [[] for _ in range(SOURCES)]
        self.runner.spawn(self.write)
        for source in range(SOURCES):
            self.runner.spawn(self.read, source, states.get((SOURCE, source), 0))

    def barrier(self, it):
        self.began[it.id] = time.monotonic()
        for barriers in self.barriers:
            barriers.append(it)

    def read(self, source, position):
        """A source: its elements are its numbers, and its state is the next one."""
        while True:
            if self.barriers[source]:
                barrier = self.barriers[source].pop(0)
                self.inputs.put(source, barrier)
                self.runner.ack_payload(barrier, SOURCE, source, json.dumps(position).encode())
            self.inputs.put(source, position)
            position += 1

    def write(self):
        """The sink. Its state is the list of what it prepared."""
        lines, snapshots = [], {}
        while True:
            source, item = self.inputs.take()
            if isinstance(item, Barrier):
                self.runner.ack_payload(item, SINK, 0, self.prepared(item.id, lines))
                lines = []
            elif isinstance(item, unaligned.Snap):
                snapshots[item.barrier.id], lines = self.prepared(item.barrier.id, lines), []
            elif isinstance(item, unaligned.Recorded):
                unaligned.acknowledge(self.runner, item, SINK, 0, payload=snapshots[item.barrier.id])
                snapshots = {it: state for it, state in snapshots.items() if it > item.barrier.id}
            else:
                time.sleep(SLOW)
                lines.append([source, item])

    def prepared(self, id, lines):
        return json.dumps(self.target.prepare(id, lines)).encode()

    def complete(self, id):
        print(f"checkpoint {id}: {(time.monotonic() - self.began[id]) * 1000:.0f} ms", flush=True)
        self.target.publish(id)

    def go_on(self):
        pass

    def end(self):
        if self.inputs is not None:
            self.inputs.close()


if __name__ == "__main__":
    Engine(*sys.argv[1:]).runner.run()
