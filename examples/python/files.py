"""files.py FOLDER [LAST] [new]: a job of one task, up to the checkpoint LAST, whose files are in a storage that the runner is given: FOLDER/state."""
import sys

from relkvanu import Settings
from relkvanu.runner import Runner
from relkvanu.store import Store


class Engine:
    def __init__(self, folder, last, is_new, **more):
        settings = Settings(interval=10, tolerable=1000)  # a file that can't be put does not fail the job
        store = Store(f"{folder}/job.db", settings, [1], create=is_new)
        self.runner = Runner(store, self, f"{folder}/state", **more)  # or s3://BUCKET/PREFIX, or a Storage of yours
        self.runner.close_after(last)

    def start(self, term, record):
        self.state = self.runner.state(record, 0, 0) or bytes(5000)
        if record is not None:
            self.complete(record.id)  # perhaps told before

    def barrier(self, it):
        self.runner.ack_state(it, 0, 0, self.state)  # too large for the acknowledgement: a file

    def complete(self, id):
        print(f"record {id} is complete", file=sys.stderr)  # sinks publish

    def go_on(self):
        pass

    def end(self):
        pass


if __name__ == "__main__":
    folder, *words = sys.argv[1:]
    Engine(folder, next((int(it) for it in words if it != "new"), 1 << 62), "new" in words).runner.run()
