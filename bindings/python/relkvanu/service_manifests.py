"""Manifests of a job of the service, beside its files: with them `relkvanu recover` makes the job again if the database of the service is lost. An engine
writes one for each record before anybody is told that the record is complete:

    manifests = Manifests(job, service_folder("orders", "/srv/orders", "state-", ".bin"))
    manifests.keep()  # after begin(), before tasks start; after each completed checkpoint, before sinks are told

It needs the client of the service, and no library. docs/RECOVERY.md has the rest."""
import contextlib
import hashlib
import posixpath
import time
from typing import Any, Dict, Iterator, List, NamedTuple, Optional, Tuple

from relkvanu.errors import Error
from relkvanu.manifest import Sums, files_in, members, parts_in, record_of, sealed, sums_in
from relkvanu.places import Gone, InBucket, InFolder, Owner, Path
from relkvanu.storage import FileNames, NotThere, OtherJob

MARK = ".relkvanu-"  # before the name of a job: its marker
RECORDS = ".relkvanu.records"  # no marker has this name
TRIES = 100  # a record may end while it is looked up
# What may be told before a manifest says so again. Names: sixteen rounds in which each of 4096 tasks reserves the most.
SOME_NUMBERS, SOME_TERMS, SOME_NAMES = 2048, 1024, 1 << 32


class NotKept(Error):
    """No manifest was written. Nobody may be told yet that the record is complete."""


def identity_of(marker: bytes) -> str:
    """The identity of a job in its manifests: its marker has its name, and says when it was opened."""
    return hashlib.sha256(marker).hexdigest()[:32]


class _OfService:
    """What a place is to a job of the service, beside what it is as a folder or a bucket. The manifests of each opening of the job have a folder of their own."""

    new = "~"  # no job has this sign in its name

    def text(self: Any) -> Optional[bytes]:
        """The marker."""
        found: Optional[bytes] = self.read(self.marker)
        return found

    def marked(self: Any) -> bytes:
        """The same, or NotThere."""
        found: Optional[bytes] = self.text()
        if found is None:
            raise NotThere(2, "there is no marker of the job", f"{self.url}/{self.marker}")
        return found

    def check_marker(self: Any, marker: bytes) -> None:
        if self.marked() != marker:
            raise OtherJob(17, "it names another job, or this one as another database has it", f"{self.url}/{self.marker}")

    def of(self: Any, identity: str) -> None:
        """From now on the manifests are those of this opening of the job."""
        self.at = f"{RECORDS}/{identity}/"

    def owner(self: Any) -> Optional[Owner]:
        found = self.text()
        return None if found is None else Owner(identity_of(found), 1)

    def mark(self: Any, owner: Owner, tag: Optional[str] = None) -> Optional[str]:
        """The marker of an import, until there is a job that can be named."""
        self.write(self.marker, imported_marker(self.marker))
        return None


def imported_marker(name: str) -> bytes:
    """No job of a service was opened then, so no discarder takes it for that of its own job."""
    return f"relkvanu discard deletes files of the job {name[len(MARK):]}, opened at 0, from this folder.\n".encode()


class ServiceFolder(_OfService, InFolder):
    """The folder of a job's files."""

    def remove(self, name: str) -> None:
        (self.path / name).unlink(missing_ok=True)


class ServiceBucket(_OfService, InBucket):
    """What a bucket has of them."""


def service_folder(job: str, path: Path, prefix: str = "", suffix: str = "") -> ServiceFolder:
    """The files PREFIX, number, SUFFIX in a folder."""
    return ServiceFolder(path, FileNames(prefix, suffix), marker=MARK + job)


def service_bucket(job: str, bucket: str, prefix: str, suffix: str, s3: Any) -> ServiceBucket:
    """The objects of a bucket with keys PREFIX, number, SUFFIX. The marker is behind the last slash of the prefix."""
    folder, name = posixpath.split(prefix)
    return ServiceBucket(f"s3://{bucket}/{folder}", s3, FileNames(name, suffix), marker=MARK + job)


class Below(NamedTuple):
    """Each number of a record, term and name that anybody was told is below these."""

    number: int
    term: int
    name: int


class Manifests:
    """Those of a job of the service (relkvanu_service.Job) in a place of service_folder() or service_bucket(). Raises NotThere or OtherJob if the place
    does not have the job's marker, and NotKept if the job may lose the files of the record before a manifest is there."""

    def __init__(self, job: Any, place: Any, checksums: bool = False) -> None:
        """With `checksums` manifests have one of each file, which is read for it once. Otherwise they keep those that are there."""
        self._job, self._place, self._is_first = job, place, True
        self._sums, self._has_sums = Sums(place, reads=checksums), checksums
        self._marker = job.marker()[1].encode()
        place.of(identity_of(self._marker))
        self.check()
        settings = job.state()["settings"]
        pending = 1 if settings["pause"] else settings["at_once"]
        if settings["retained"] <= pending:
            raise NotKept(f"{job.name}: `retained` has to be above `at_once`, or the files of the last record that has a manifest may be deleted before "
                          "the next one has its own")

    def check(self) -> None:
        self._place.check_marker(self._marker)

    def keep(self) -> Optional[int]:
        """Writes the manifest of the record that a restart would begin from, and those of other records that lack one, and removes those of records that
        have ended. When it returns, they are on the disk. Returns the number of the record; None: none is complete. Whoever was about to tell that an
        earlier record is complete may do so now. Raises NotKept, or what the storage or the client raises: then nobody may be told yet."""
        for _ in range(TRIES):
            self.check()
            state = self._job.state()
            try:
                kept = self._keep(state)
            except Gone:
                continue  # a record has ended since
            self._is_first = False
            return kept
        raise NotKept(f"{self._job.name}: its records end too soon")

    def _keep(self, state: Dict[str, Any]) -> Optional[int]:
        choice: Optional[int] = state["choice"].get("id")
        live = {int(it["id"]): it["kind"] for it in state["live"] if it["done"]}
        there = {record_of(it) for it in self._place.names()}
        if self._is_first:
            self._sums.note_all()
        missing = [it for it in live if it == choice or it not in there or (self._is_first and self._differs(it))]
        missing.sort(key=lambda it: (it == choice, it))
        for nth, record in enumerate(missing, 1):
            # a checkpoint that is retained was the choice once, and before those behind it
            place, chosen = state["seq"] - len(missing) + nth, record == choice or live[record] == "checkpoint"
            origin = members(self._place.read(self._place.manifest(record)) or b"").get("origin")  # of an import
            carried = {"origin": origin} if origin else {}
            text = manifest_of(self._job, self._place, state, record, sums=self._sums, place=place, chosen=chosen, **carried)
            self._place.write(self._place.manifest(record), text)
            self._sums.note(record, text)
            if record == choice and (lost := lost_of(self._job, self._place, record, text)):
                raise NotKept(f"{self._job.name}: record {record} is not whole: the files {lost} are not there, or have another length than was acknowledged. "
                              "Restore the job to another record")
        self._sums.keep(live)
        for record in there.difference(live):
            self._place.remove(self._place.manifest(record))
        return choice

    def _differs(self, record: int) -> bool:
        """Whether a manifest that an earlier process has left is of a history that the service has lost since, or lacks payloads."""
        text = self._place.read(self._place.manifest(record)) or b""
        left = parts_in(text)
        lacks_sums = self._has_sums and len(sums_in(text)) != len(files_in(text))
        return lacks_sums or left != {name: (it["files"], it["payload"].hex()) for name, it in _whole(self._job, record)["subtasks"].items()}


def _whole(job: Any, record: int) -> Dict[str, Any]:
    """A complete record with its payloads and the order of its files. Raises Gone if it has ended, or is not complete."""
    try:
        found: Dict[str, Any] = job.load(record)
        return found
    except Exception as error:  # that of the client
        if getattr(error, "status", None) != 404:
            raise
    job.record(record)  # raises it if there was no such record
    raise Gone


def manifest_of(job: Any, storage: Any, state: Dict[str, Any], record: int, *, sums: Optional[Sums] = None, **more: Any) -> bytes:
    """The text of the manifest of a complete record of a job, whose state was asked for before. `more` are members that differ. Raises Gone if the record or
    a file of it is not there any more."""
    whole = _whole(job, record)
    subtasks = [_part(storage, vertex, index, whole["subtasks"][f"{vertex}.{index}"], sums) for vertex, index in _subtasks(whole["shape"])]
    sizes = [size for it in subtasks for size in it["files"].values()]
    term, below = told_by(job, state)
    found = {
        "relkvanu": "manifest", "version": 1, "library": "service", "written": time.time_ns() // 1_000_000,
        "job": identity_of(job.marker()[1].encode()), "epoch": 1, "term": term, "place": state["seq"], "record": record, "kind": whole["kind"],
        "chosen": state["choice"].get("id") == record, "below": below._asdict(), "settings": state["settings"], "subtasks": subtasks,
        "files": len(sizes), "bytes": sum(it or 0 for it in sizes), "shape": whole["shape"], **more,
    }
    return sealed(found)


def _part(storage: Any, vertex: int, index: int, state: Dict[str, Any], sums: Optional[Sums]) -> Dict[str, Any]:
    payload = {"payload": state["payload"].hex()} if state["payload"] else {}
    told = state.get("sizes") or [None] * len(state["files"])
    files = {str(file): _length(storage, file, size, sums) for file, size in zip(state["files"], told)}
    checksums = {} if sums is None else sums.member(state["files"])
    figures = {name: state[name] for name in ("bytes", "millis") if state.get(name)}
    return {"vertex": vertex, "index": index, "files": files, **checksums, **payload, **figures}


def _length(storage: Any, file: int, told: Optional[int], sums: Optional[Sums]) -> Optional[int]:
    """The length that was acknowledged: as its task told it, or as an earlier manifest says. Of a file of which nobody has said it yet it is that of now."""
    known = sums.length(file) if told is None and sums is not None else told
    if known is not None and not isinstance(storage, InBucket):
        return known
    with contextlib.suppress(Gone):
        return storage.size(file)  # type: ignore[no-any-return]
    return None


def lost_of(job: Any, storage: Any, record: int, manifest: bytes) -> List[int]:
    """The files of a record that are not there, or have another length than its manifest says. Raises Gone if the record has ended since."""
    lost = [file for file, length in files_in(manifest).items() if _is_lost(storage, file, length)]
    if lost:
        _whole(job, record)
    return lost


def _is_lost(storage: Any, file: int, length: Optional[int]) -> bool:
    try:
        return storage.size(file) not in (None, length)
    except Gone:
        return True


def _subtasks(shape: List[int]) -> Iterator[Tuple[int, int]]:
    return ((vertex, index) for vertex, parallelism in enumerate(shape) for index in range(parallelism))


def told_by(job: Any, state: Dict[str, Any]) -> Tuple[int, Below]:
    """The term that runs, and what is above all that the job has told and may tell before it is asked again."""
    records = [*state["live"], *job.records(limit=1), state["choice"]]
    number = max(it.get("id", 0) for it in records) + 1 + SOME_NUMBERS
    now = job.term()
    return now["term"], Below(number, now["term"] + 1 + SOME_TERMS, now["next_name"] + SOME_NAMES)
