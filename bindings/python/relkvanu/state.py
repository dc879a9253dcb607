"""The state files of a job that a runner runs: in the folder of a Store, or in any Storage. Before tasks start the files of their record are looked for; then
garbage goes, and what is released."""
import contextlib
import dataclasses
import os
import time
import zlib
from typing import Any, Callable, Dict, Generic, Hashable, Iterable, Iterator, Mapping, Optional, Protocol, TypeVar, Union

from relkvanu.errors import Error
from relkvanu.jobs import Job, StoreError
from relkvanu.manifest import is_sealed, members, name_of
from relkvanu.reads import Chosen
from relkvanu.service_manifests import RECORDS
from relkvanu.storage import PAGE, Folder, NotThere, OtherJob, Storage, StorageError, bucket_and_prefix
from relkvanu.sweep import sweep
from relkvanu.whole import Origin, Whole

K = TypeVar("K", bound=Hashable)
AGAIN = 0.5  # seconds before a file is read again


class FileLost(Error):
    """A file of the record from which the job begins is not in the storage. The process ends, and sweeps nothing."""


class Unreadable(Error):
    """The storage lists a file of the record, and could not read it for the runner's patience. Nothing is deleted: start the process again."""


class Files(Protocol):
    """What the runner and its tasks need of a storage."""

    def put(self, file: int, contents: bytes) -> None: ...

    def get(self, file: int) -> bytes: ...

    def load(self) -> Optional[Whole]:
        """The record from which the job begins, once each of its files was looked for."""

    def sweep(self) -> None: ...

    def discard(self) -> None:
        """Deletes what is released, until the job's stop()."""


class StoreFiles:
    """The storage folder of a Store, which looks for files, sweeps and discards by itself."""

    def __init__(self, store: Any) -> None:
        self._store = store
        self.put: Callable[[int, bytes], None] = store.put

    def get(self, file: int) -> bytes:
        try:
            with open(os.open(str(file), os.O_RDONLY | os.O_CLOEXEC, dir_fd=self._store.folder()), "rb") as found:
                return found.read()
        except OSError as error:
            raise StorageError(error.errno, error.strerror, str(file)) from error

    def load(self) -> Optional[Whole]:
        try:
            record: Optional[Whole] = self._store.load()
        except StoreError as why:
            raise (FileLost(why.message) if why.name == "FileLost" else why) from None
        return record

    def sweep(self) -> None:
        self._store.sweep()

    def discard(self) -> None:
        self._store.discard()


class StorageFiles:
    """A Storage that the engine has given."""

    def __init__(self, job: Job, storage: Storage) -> None:
        self._job, self._storage = job, storage
        self.put, self.get = storage.put, storage.get

    def load(self) -> Optional[Whole]:
        self._storage.check()
        record = self._job.load()
        lost = set() if record is None else {file for part in record.parts for file in part.files}
        for page in self._storage.pages() if lost else ():
            lost.difference_update(page)
        if record is not None and lost:
            raise FileLost(f"file {min(lost)} of record {record.id} is missing")
        return record if record is None else self._with_origin(record)

    def _with_origin(self, record: Whole) -> Whole:
        """Of a job of the service an import and a recovery note it in the manifest beside the files. A Store knows it."""
        name = f"{RECORDS}/{self._job.identity}/{name_of(record.id)}"
        text = getattr(self._storage, "read_beside", lambda name: None)(name)
        if text is not None and not is_sealed(text):
            raise StoreError("Damaged", f"{name} beside the files is damaged", False)
        origin = record.origin or (text and members(text).get("origin"))
        return dataclasses.replace(record, origin=Origin(origin, record.id)) if isinstance(origin, str) else record

    def sweep(self) -> None:
        try:
            sweep(_Sized(self._storage), self._job.garbage, True)
        except (NotThere, OtherJob):
            raise
        except StorageError as error:
            raise StoreError("NotDone", str(error), False, error.errno or 0) from error

    def discard(self) -> None:
        self._job.discard_lists(self._storage.delete)


class _Sized:
    """A Storage for a sweep, which needs no sizes here."""

    def __init__(self, storage: Storage) -> None:
        self._storage, self.check, self.delete = storage, storage.check, storage.delete

    def sizes(self, most: int = PAGE) -> Iterator[Dict[int, int]]:
        for page in self._storage.pages(most):
            yield dict.fromkeys(page, 0)


def storage_of(job: Job, place: Union[str, "os.PathLike[str]"], s3: Any = None) -> Storage:
    """A folder, or s3://BUCKET/PREFIX, with the job's marker. A job without a file makes the marker in a place without files. `s3` is a client of another server
    than boto3 finds."""
    def opened(is_new: bool) -> Storage:
        url, marker = os.fspath(place), job.storage_marker()
        if not url.startswith("s3://"):
            return Folder(url, job.identity, is_new, marker=marker)
        from relkvanu.s3 import Bucket

        bucket, prefix = bucket_and_prefix(url)
        return Bucket(bucket, job.identity, is_new, prefix, s3=s3, marker=marker)

    try:
        return opened(False)
    except NotThere:
        counts = job.file_counts()
        if job.choice() is not None or counts.in_use + counts.waiting + counts.taken > 0:
            raise
        return opened(True)


def read_again(get: Callable[[int], bytes], file: int, patience: float) -> bytes:
    """A file that is listed. Raises Unreadable once it could not be read for so many seconds."""
    until = time.monotonic() + patience
    while True:
        try:
            return get(file)
        except OSError as error:
            if time.monotonic() >= until:
                raise Unreadable(f"file {file} is listed, and can't be read: {error}") from error
        time.sleep(min(AGAIN, max(0.0, until - time.monotonic())))


class Lineage(Generic[K]):
    """What a subtask may reuse: the files that it has acknowledged for the base of a barrier, by a key of its own. Make it at a start with the record's number
    and its files."""

    def __init__(self, id: Optional[int] = None, files: Optional[Mapping[K, int]] = None) -> None:
        self._acked: Dict[int, Dict[K, int]] = {} if id is None else {id: dict(files or {})}

    def acked(self, id: int, files: Mapping[K, int]) -> None:
        """The subtask has acknowledged the record with these files, fresh and reused."""
        self._acked[id] = dict(files)

    def reusable(self, base: Optional[Chosen]) -> Dict[K, int]:
        """The files of the base, which stay until the barrier's record has ended. Nothing without a base: then all is written anew."""
        if base is None:
            return {}
        self._acked = {id: files for id, files in self._acked.items() if id >= base.id}
        return dict(self._acked.get(base.id, {}))


class Cached:
    """A Storage with copies of its files in a folder of a local disk, of at most so many bytes: what was read or put last is read from there. A name is given to
    one file only, so a copy is never stale. Each job has a folder of its own. A copy that a loss of power has damaged is read anew."""

    def __init__(self, files: Storage, folder: Union[str, "os.PathLike[str]"], most: int) -> None:
        self._files, self._folder, self._most = files, os.fspath(folder), most
        self.check, self.pages = files.check, files.pages
        self.read_beside: Callable[[str], Optional[bytes]] = getattr(files, "read_beside", lambda name: None)
        os.makedirs(self._folder, exist_ok=True)

    def _path(self, file: int) -> str:
        return f"{self._folder}/{file}.copy"

    def put(self, file: int, contents: bytes) -> None:
        self._files.put(file, contents)
        self._keep(file, contents)

    def get(self, file: int) -> bytes:
        with contextlib.suppress(OSError), open(self._path(file), "rb") as copy:
            head, contents = copy.read(12), copy.read()
            if head == self._head(contents):
                os.utime(self._path(file))
                return contents
        contents = self._files.get(file)
        self._keep(file, contents)
        return contents

    def delete(self, files: Iterable[int]) -> Dict[int, str]:
        some = list(files)
        for file in some:
            self._drop(self._path(file))
        return self._files.delete(some)

    @staticmethod
    def _head(contents: bytes) -> bytes:
        return len(contents).to_bytes(8, "big") + zlib.crc32(contents).to_bytes(4, "big")

    def _keep(self, file: int, contents: bytes) -> None:
        """A disk that is full or gone keeps nothing, and nothing fails."""
        new = f"{self._path(file)}.{os.getpid()}"
        try:
            with open(new, "wb") as copy:
                copy.write(self._head(contents) + contents)
            os.replace(new, self._path(file))
            self._make_room()
        except OSError:
            self._drop(new)

    def _make_room(self) -> None:
        with os.scandir(self._folder) as entries:
            copies = sorted((it.stat().st_mtime, it.stat().st_size, it.path) for it in entries)
        excess = sum(size for _, size, _ in copies) - self._most
        for _, size, path in copies:
            if excess <= 0:
                break
            self._drop(path)
            excess -= size

    @staticmethod
    def _drop(path: str) -> None:
        with contextlib.suppress(OSError):
            os.unlink(path)
