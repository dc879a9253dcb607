"""The buckets of `relkvanu clean`, `savepoints` and `restore`, which start this program and decide what is done. A line of its input is what to do in which
place, a line of its output the answer with the same number, both in JSON; it ends with its input. What is done in one place keeps no other waiting. It needs
boto3 (Debian's python3-boto3)."""
import json
import signal
import sys
import threading
from concurrent.futures import ThreadPoolExecutor
from typing import Any, Callable, Dict, Iterator, Optional, Tuple

from relkvanu.storage import KeepsVersions, Marker, NotThere, OtherJob, StorageError

Request = Dict[str, Any]
MOST_THREADS = 1000  # as many as who asks has at most
# what somebody has to look at, as the metrics name it
LOOK = {NotThere: "no_marker", OtherJob: "other_marker", KeepsVersions: "keeps_versions"}


class Place:
    """A bucket. One thread at a time asks for something in it."""

    def __init__(self, bucket: Any) -> None:
        self.bucket = bucket
        self.listing: Iterator[Dict[int, int]] = iter(())

    def text(self, name: str) -> Optional[str]:
        found: Optional[bytes] = self.bucket.read_beside(name)
        return None if found is None else found.decode(errors="replace")

    def hold(self) -> None:
        self.bucket.is_held = True

    def is_marked(self) -> bool:
        try:
            self.bucket.check()
        except (NotThere, OtherJob):
            return False
        return True

    def begin_list(self) -> None:
        self.listing = self.bucket.sizes()


# What is asked for, and what is answered.
WORKS: Dict[str, Callable[[Place, Request], Any]] = {
    "beside": lambda it, asked: {"names": it.bucket.beside(asked["start"])},
    "read": lambda it, asked: {"text": it.text(asked["name"])},
    "write": lambda it, asked: it.bucket.write_beside(asked["name"], asked["text"].encode()),
    "remove": lambda it, asked: it.bucket.remove_beside(asked["name"]),
    "hold": lambda it, _: it.hold(),
    "is marked": lambda it, _: {"is": it.is_marked()},
    "has any": lambda it, asked: {"has": any(map(it.bucket.has, asked["files"]))},
    "delete": lambda it, asked: {"failed": it.bucket.delete(asked["files"])},
    "sizes": lambda it, _: it.begin_list(),
    "page": lambda it, _: {"files": list(next(it.listing, {}).items())},
}


class Helper:
    """All places that are open, and a client for each server."""

    def __init__(self) -> None:
        self._places: Dict[int, Place] = {}
        self._clients: Dict[Tuple[Optional[str], Optional[str]], Any] = {}
        self._lock = threading.Lock()  # of these, and of the output

    def _opened(self, asked: Request) -> Place:
        """The bucket. Until its marker is held it may have none."""
        from relkvanu.s3 import Bucket, client

        class Held(Bucket):
            is_held = False

            def check(self) -> None:
                if self.is_held:
                    super().check()

        server = (asked["endpoint"], asked["region"])
        with self._lock:
            if server not in self._clients:
                self._clients[server] = client(*server)
        return Place(Held(asked["bucket"], asked["job"], prefix=asked["prefix"], suffix=asked["suffix"], s3=self._clients[server],
                          keeps_versions=asked["keeps_versions"], marker=Marker(*asked["marker"])))

    def _open(self, asked: Request) -> Request:
        try:
            self._places[asked["place"]] = self._opened(asked)
        except ImportError as error:
            return {"error": f"a bucket needs boto3, python3-boto3 of Debian: {error}"}
        except ValueError as error:
            return {"error": f"endpoint, region: {error}"}
        return {}

    def _done(self, asked: Request) -> Request:
        if asked["do"] == "open":
            return self._open(asked)
        if asked["do"] == "close":
            self._places.pop(asked["place"], None)
            return {}
        return WORKS[asked["do"]](self._places[asked["place"]], asked) or {}

    def answer(self, line: str) -> None:
        asked = json.loads(line)
        try:
            told = self._done(asked)
        except (NotThere, OtherJob, KeepsVersions) as error:
            told = {"error": str(error), "look": LOOK[type(error)]}
        except StorageError as error:
            told = {"error": str(error)}
        except Exception as error:  # noqa: B902  who asks waits for an answer
            told = {"error": f"{type(error).__name__}: {error}"}
        with self._lock:
            print(json.dumps({"id": asked["id"], **told}), flush=True)


def main() -> None:
    signal.signal(signal.SIGINT, signal.SIG_IGN)  # of a terminal: what it was told is done to its end
    helper = Helper()
    with ThreadPoolExecutor(MOST_THREADS) as threads:
        for line in sys.stdin:
            threads.submit(helper.answer, line)


if __name__ == "__main__":
    main()
