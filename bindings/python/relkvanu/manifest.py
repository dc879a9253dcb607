"""The text of a manifest, as docs/RECOVERY.md (The format) has it: one of a job of the service, or one that is made anew for another job. It needs
no library. Those of a durable coordinator are written by the library, which also says which ones are whole (relkvanu.store.Store.records)."""
import contextlib
import functools
import json
import posixpath
import zlib
from typing import Any, Container, Dict, Iterable, List, Optional, Tuple

PIECE = 1 << 20  # bytes of a file that are read at once


def name_of(record: int) -> str:
    return f"record-{record}.manifest"


def record_of(name: str) -> int:
    return int(posixpath.basename(name)[len("record-"):-len(".manifest")])


def sealed(found: Dict[str, Any]) -> bytes:
    """The text of these members, with the checksum of all that comes before it."""
    body = json.dumps(found, separators=(",", ":"))[:-1].encode()
    return body + b',"sum":"%08x"}\n' % zlib.crc32(body)


def is_sealed(text: bytes) -> bool:
    """Whether the text has its checksum."""
    body, _, told = text.rpartition(b',"sum":"')
    return told == b'%08x"}\n' % zlib.crc32(body)


def of_job(manifest: bytes, job: str) -> bytes:
    """The text anew for another job, in which the record is the choice."""
    found = json.loads(manifest)
    del found["sum"]
    found.update(origin=found["job"], job=job, epoch=1, chosen=True)
    return sealed(found)


def mark_of(manifest: bytes, place: str) -> bytes:
    """The mark of a record that was claimed for this place. It has no files."""
    found = json.loads(manifest)
    del found["sum"], found["subtasks"]
    return sealed({**found, "claimed": place})


def members(text: bytes) -> Dict[str, Any]:
    """Nothing if the text is damaged: the library says so of it."""
    with contextlib.suppress(ValueError):
        found = json.loads(text)
        return found if isinstance(found, dict) else {}
    return {}


def parts_in(manifest: bytes) -> Dict[str, Tuple[List[int], str]]:
    """The files of each subtask in their order, and its payload as hexadecimal digits, or none if the text is damaged."""
    with contextlib.suppress(ValueError, KeyError, TypeError, AttributeError):
        found = json.loads(manifest)["subtasks"]
        return {f"{it['vertex']}.{it['index']}": ([int(file) for file in it["files"]], it.get("payload", "")) for it in found}
    return {}


def sums_in(manifest: bytes) -> Dict[int, int]:
    """The checksums of files that a manifest has."""
    with contextlib.suppress(ValueError, KeyError, TypeError):
        subtasks = json.loads(manifest)["subtasks"]
        return {int(file): int(it, 16) for part in subtasks for file, it in zip(part["files"], part.get("sums", ())) if it is not None}
    return {}


def sum_of(pieces: Iterable[bytes]) -> int:
    """The checksum that a manifest has of a file: CRC-32."""
    return functools.reduce(lambda sum, it: zlib.crc32(it, sum), pieces, 0)


def files_in(manifest: bytes) -> Dict[int, Optional[int]]:
    """The files that a manifest names, each with its length, or none if the text is damaged."""
    with contextlib.suppress(ValueError, KeyError, TypeError):
        return {int(file): size for it in json.loads(manifest)["subtasks"] for file, size in it["files"].items()}
    return {}


class Sums:
    """The checksums and the lengths of a job's files, as the manifests of its records have them. The number of a file is given out once, so each file is
    read once, or not at all, and its length is never taken anew."""

    def __init__(self, place: Any, *, reads: bool) -> None:
        self._place, self._reads = place, reads
        self._known: Dict[int, Dict[int, int]] = {}  # of each record
        self._lengths: Dict[int, Dict[int, Optional[int]]] = {}

    def note(self, record: int, manifest: bytes) -> None:
        self._known[record], self._lengths[record] = sums_in(manifest), files_in(manifest)

    def note_all(self) -> None:
        """What the place has from before."""
        for it in self._place.names():
            text = self._place.read(it) or b""
            if is_sealed(text):
                self.note(record_of(it), text)

    def drop(self, record: int) -> None:
        """It has ended."""
        self._known.pop(record, None)
        self._lengths.pop(record, None)

    def keep(self, records: Container[int]) -> None:
        """The others have ended."""
        self._known = {record: it for record, it in self._known.items() if record in records}
        self._lengths = {record: it for record, it in self._lengths.items() if record in records}

    def length(self, file: int) -> Optional[int]:
        """What a manifest says of it."""
        return next((it[file] for it in self._lengths.values() if it.get(file) is not None), None)

    def of(self, file: int) -> Optional[int]:
        """Raises Gone if it is read, and is not there."""
        known = next((it[file] for it in self._known.values() if file in it), None)
        if known is not None or not self._reads:
            return known
        with contextlib.closing(self._place.opened(file)) as contents:
            return sum_of(iter(functools.partial(contents.read, PIECE), b""))

    def member(self, files: List[int]) -> Dict[str, Any]:
        """That of a subtask with these files."""
        found = [self.of(file) for file in files]
        is_known = any(it is not None for it in found)
        return {"sums": [None if it is None else f"{it:08x}" for it in found]} if is_known else {}

    def added(self, record: int, manifest: bytes) -> bytes:
        """The manifest with the checksums of its files."""
        found = json.loads(manifest)
        del found["sum"]
        for part in found["subtasks"]:
            payload = {"payload": part.pop("payload")} if "payload" in part else {}
            part.update(**self.member([int(file) for file in part["files"]]), **payload)
        text = sealed(found)
        self.note(record, text)
        return text
