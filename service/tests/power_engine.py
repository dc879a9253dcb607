"""power_engine.py URL FOLDER TOLD: an engine over the service, as docs/SERVICE-ENGINE.md has it, until it is killed. Its job `orders` has three
subtasks, which write their files into FOLDER, sync them, and acknowledge them with files of the record before. It takes savepoints and
disposes of them. The file TOLD gets a line for each request that was answered, with its calls and their answers."""
import json
import os
import sys
from concurrent.futures import ThreadPoolExecutor

import harness  # noqa: F401 (it finds the client)
from relkvanu_service import Refused, Service, dispose, savepoint

SETTINGS, SHAPE, SUBTASKS = {"interval": 20, "tolerable": 1000}, [1, 2], ("0.0", "1.0", "1.1")
SIZE = 600  # bytes of a file: more than a sector


class TellingService(Service):
    """Tells each request that makes calls, once it is answered."""

    def __init__(self, url, told):
        super().__init__(url)
        self.told = told

    def request(self, method, path, body=None, key=None, wait=0):
        answer = super().request(method, path, body, key, wait)
        if path.endswith("/calls"):
            to = os.open(self.told, os.O_CREAT | os.O_WRONLY | os.O_APPEND, 0o600)
            os.write(to, json.dumps([body["calls"], answer["answers"]]).encode() + b"\n")
            os.close(to)
        return answer


def write(folder, name):
    """A new file, which is on the disk with its folder when this returns."""
    with open(f"{folder}/s-{name}", "xb", buffering=0) as it:
        it.write(b"%d " % name * (SIZE // len(b"%d " % name)))
        os.fsync(it.fileno())
    at = os.open(folder, os.O_RDONLY)
    os.fsync(at)
    os.close(at)


class Engine:
    def __init__(self, service, folder):
        self.job, self.folder = service.open("orders", SETTINGS, SHAPE), folder
        self.job.claim(folder)
        start = self.job.begin()
        self.task, self.held = start.session(block=10), {}  # of each subtask its last record, and the file of that
        self.follower = start.follower

    def take_part(self, record, base, subtask):
        name, (last, old) = self.task.name(), self.held.get(subtask, (None, None))
        write(self.folder, name)
        try:
            self.task.ack(record, subtask, [name], [old] if last == base else [])
            self.held[subtask] = record, name
        except Refused:
            self.task.forfeit([name])

    def checkpoints(self, pool):
        """Takes part in each record that is triggered, and yields those that are complete."""
        while True:
            for event in self.follower.next(wait=1):
                if event["event"] == "triggered":
                    list(pool.map(lambda it: self.take_part(event["id"], event.get("base"), it), SUBTASKS))
                elif event["event"] == "completed":
                    yield event["id"]


def main(url, folder, told):
    engine, kept = Engine(TellingService(url, told), folder), []
    with ThreadPoolExecutor(len(SUBTASKS)) as pool:
        for number, record in enumerate(engine.checkpoints(pool)):
            if number % 5 == 0:
                kept.append(engine.job.call(savepoint())["id"])
            if len(kept) > 2:
                try:
                    engine.job.call(dispose(kept.pop(0)))
                except Refused:
                    continue  # it is not complete yet


if __name__ == "__main__":
    main(*sys.argv[1:])
