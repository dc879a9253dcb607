"""Where a job's state files are: a folder, or with relkvanu.s3 a bucket. A file is whole or not there, and is durable before a task acknowledges
it; a file counts as deleted only in a storage that is there, and that is the job's. docs/DURABLE.md has a worked example."""
import contextlib
import errno
import itertools
import os
import re
from typing import TYPE_CHECKING, ContextManager, Dict, Iterable, Iterator, List, NamedTuple, Optional, Protocol, Set, Tuple, Union

from relkvanu.errors import Error
from relkvanu.replies import Counted

if TYPE_CHECKING:  # these need the library, and a task that puts a file has none
    from relkvanu.coordinator import Coordinator

MARKER = ".relkvanu-storage"
PART = ".part"  # behind the name of a file that is not whole yet
PAGE = 1000


def bucket_and_prefix(url: str) -> Tuple[str, str]:
    """Of s3://BUCKET/PREFIX, whose prefix ends with a slash unless it is empty. Behind a # or a ? there would be no prefix, but other parts of an address."""
    if "#" in url or "?" in url:
        raise ValueError(f"{url}: an address of a bucket has no # and no ?")
    bucket, _, path = url[len("s3://"):].partition("/")
    prefix = path.strip("/")
    return bucket, f"{prefix}/" if prefix else ""


class StorageError(Error, OSError):
    """A file was not put, deleted or listed. It may be there, or not."""


class NotThere(StorageError):
    """The storage is not there, or it has no marker: a wrong path, or one that is not mounted. No file of it counts as deleted."""


class OtherJob(StorageError):
    """The storage is that of another job."""


class KeepsVersions(StorageError):
    """The bucket keeps versions of what is deleted, so no file would ever be gone."""


class Exists(StorageError):
    """A file has this number already. No number is given to two files."""


class Storage(Protocol):
    """State files by their numbers. A method may be called by several threads at once."""

    def check(self) -> None:
        """Raises NotThere or OtherJob, unless the storage is there and has the job's marker."""

    def put(self, file: int, contents: bytes) -> None:
        """Makes a file. When it returns, a loss of power does not take the file. If it raises StorageError, the file may be there: so the task
        declines, and leaves the number to a sweep. Raises Exists if the number is taken."""

    def get(self, file: int) -> bytes: ...

    def delete(self, files: Iterable[int]) -> Dict[int, str]:
        """Deletes files for good. Returns those that may be there still, each with the reason. A file that is not there counts as deleted, if
        the storage is there and is the job's. In that of another job nothing is deleted."""

    def pages(self, most: int = PAGE) -> Iterator[List[int]]:
        """The numbers of all files, also of those that were put in part. Raises StorageError: then the list is not whole."""


class SizedStorage(Protocol):
    """What a sweeper needs of a storage."""

    def check(self) -> None:
        """That of a Storage."""

    def delete(self, files: Iterable[int]) -> Dict[int, str]:
        """That of a Storage."""

    def sizes(self, most: int = PAGE) -> Iterator[Dict[int, int]]:
        """The pages of a Storage, with the bytes of each file."""


class Marker(NamedTuple):
    """A file of the storage that says whose files it has. By default it has the name of the job; that of a job of the service also says when the
    job was opened (`Marker(*job.marker())` with the service's client), since another service may have a job of the same name."""

    name: str
    text: str


class FileNames:
    """The names of files: a number between a prefix and a suffix."""

    def __init__(self, prefix: str, suffix: str) -> None:
        self.prefix, self.suffix = prefix, suffix
        self._form = re.compile(re.escape(prefix) + r"(0|[1-9][0-9]{0,19})" + re.escape(suffix))

    def of(self, file: int) -> str:
        return f"{self.prefix}{file}{self.suffix}"

    def file(self, name: str) -> Optional[int]:
        """The number of a name, or None if it is no file of the job."""
        found = self._form.fullmatch(name)
        return int(found.group(1)) if found and int(found.group(1)) < 1 << 64 else None

    def marker(self, job: str) -> Marker:
        if not job or "\n" in job:
            raise ValueError("the name of a job has one line")
        return Marker(self.prefix + MARKER, f"relkvanu: state files of the job {job}\n")


def check_marker(found: Optional[bytes], marker: Marker, job: str, where: str) -> None:
    """Whether a marker is the job's. `found` is None if there is none."""
    if found is None:
        raise NotThere(errno.ENOENT, f"no marker {marker.name} of a job: a wrong place, or it is not mounted", where)
    if found != marker.text.encode():
        raise OtherJob(errno.EEXIST, f"not the storage of the job {job}", where)


Contents = Union[bytes, Iterable[bytes]]  # of a file, whole or in pieces
FILE_FLAGS = os.O_NOFOLLOW | os.O_CLOEXEC


def _size(entry: "os.DirEntry[str]") -> int:
    """The bytes of a file. It may have been deleted since it was listed."""
    try:
        return entry.stat(follow_symlinks=False).st_size
    except FileNotFoundError:
        return 0
    except OSError as error:
        raise StorageError(error.errno, error.strerror, entry.name) from error


def _write_all(to: int, contents: bytes) -> None:
    left = memoryview(contents)
    while left:
        left = left[os.write(to, left):]


class Folder(ContextManager["Folder"]):
    """A folder. It stays open, so no call reaches a folder that is mounted or renamed to its path later. No symbolic link in it is
    followed. `is_new` makes the marker, in a folder that has no state file; without it a folder without the marker is refused."""

    def __init__(self, path: Union[str, "os.PathLike[str]"], job: str, is_new: bool = False, prefix: str = "", suffix: str = "",
                 marker: Optional[Marker] = None) -> None:
        self.path, self.job, self.names = os.fspath(path), job, FileNames(prefix, suffix)
        self.marker = self.names.marker(job) if marker is None else marker
        self._part = FileNames(prefix, suffix + PART)
        try:
            self._folder = os.open(self.path, os.O_RDONLY | os.O_DIRECTORY | os.O_CLOEXEC)
        except OSError as error:
            raise NotThere(error.errno, error.strerror, self.path) from error
        try:
            if is_new:
                self._begin()
            self.check()
        except BaseException:
            self.close()
            raise

    def close(self) -> None:
        folder, self._folder = self._folder, -1
        if folder >= 0:
            os.close(folder)

    def __exit__(self, *_: object) -> None:
        self.close()

    def _begin(self) -> None:
        """The marker, in a folder without state files: beside files there was a job, and its log is missing. A process that was killed here
        finds its own marker."""
        if next(self.pages(1), None):
            raise StorageError(errno.ENOTEMPTY, "a new job needs a folder without state files", self.path)
        if self._read(self.marker.name) is None:
            part = f"{self.marker.name}~"
            self._unlink(part)
            self._make(part, self.marker.name, self.marker.text.encode())

    def check(self) -> None:
        check_marker(self._read(self.marker.name), self.marker, self.job, self.path)

    def put(self, file: int, contents: Contents) -> None:
        """Pieces are taken one after the other."""
        self.check()
        self._make(self._part.of(file), self.names.of(file), contents)

    def get(self, file: int) -> bytes:
        found = self._read(self.names.of(file))
        if found is None:
            raise StorageError(errno.ENOENT, "no such file", f"{self.path}/{self.names.of(file)}")
        return found

    def read_beside(self, name: str) -> Optional[bytes]:
        """What is beside the state files under this name, or None if there is none."""
        return self._read(name)

    def delete(self, files: Iterable[int]) -> Dict[int, str]:
        failed: Dict[int, str] = {}
        some = list(files)
        try:
            self.check()
            for file in some:
                reason = self._unlink(self.names.of(file)) or self._unlink(self._part.of(file))
                if reason:
                    failed[file] = reason
            self.check()
            self._sync()
        except StorageError as error:
            return dict.fromkeys(some, str(error))
        return failed

    def pages(self, most: int = PAGE) -> Iterator[List[int]]:
        for page in self._entries(most):
            yield [file for file, _ in page]

    def sizes(self, most: int = PAGE) -> Iterator[Dict[int, int]]:
        for page in self._entries(most):
            sizes: Dict[int, int] = {}
            for file, entry in page:
                sizes[file] = sizes.get(file, 0) + _size(entry)
            yield sizes

    @contextlib.contextmanager
    def _listing(self) -> Iterator[int]:
        """The folder, opened once more: descriptors of one opening share their place in a listing, and two threads would each see a part."""
        folder = os.open(".", os.O_RDONLY | os.O_DIRECTORY | os.O_CLOEXEC, dir_fd=self._folder)
        try:
            yield folder
        finally:
            os.close(folder)

    def _entries(self, most: int) -> Iterator[List[Tuple[int, "os.DirEntry[str]"]]]:
        try:
            with self._listing() as folder, os.scandir(folder) as entries:
                found = self._files(entries)
                while page := list(itertools.islice(found, most)):
                    yield page
        except OSError as error:
            raise StorageError(error.errno, error.strerror, self.path) from error

    def _files(self, entries: Iterable["os.DirEntry[str]"]) -> Iterator[Tuple[int, "os.DirEntry[str]"]]:
        for entry in entries:
            file = self.names.file(entry.name)
            file = self._part.file(entry.name) if file is None else file
            if file is not None and entry.is_file(follow_symlinks=False):
                yield file, entry

    def _read(self, name: str) -> Optional[bytes]:
        try:
            with open(os.open(name, os.O_RDONLY | FILE_FLAGS, dir_fd=self._folder), "rb") as file:
                return file.read()
        except FileNotFoundError:
            return None
        except OSError as error:
            raise StorageError(error.errno, error.strerror, f"{self.path}/{name}") from error

    def _make(self, part: str, name: str, contents: Contents) -> None:
        """Writes beside the name, syncs, and gives the file its name: so it is whole or not there. Who has the part has the name."""
        try:
            to = os.open(part, os.O_WRONLY | os.O_CREAT | os.O_EXCL | FILE_FLAGS, 0o666, dir_fd=self._folder)
        except FileExistsError as error:
            raise Exists(error.errno, error.strerror, f"{self.path}/{part}") from error
        except OSError as error:
            raise StorageError(error.errno, error.strerror, f"{self.path}/{part}") from error
        made = part
        try:
            try:
                for piece in [contents] if isinstance(contents, bytes) else contents:
                    _write_all(to, piece)
                os.fsync(to)
            finally:
                os.close(to)
            if self._is_there(name):
                raise Exists(errno.EEXIST, os.strerror(errno.EEXIST), f"{self.path}/{name}")
            os.rename(part, name, src_dir_fd=self._folder, dst_dir_fd=self._folder)
            made = name
            self._sync()
        except StorageError:
            self._unlink(made)
            raise
        except OSError as error:
            self._unlink(made)
            raise StorageError(error.errno, error.strerror, f"{self.path}/{name}") from error

    def _is_there(self, name: str) -> bool:
        try:
            os.stat(name, dir_fd=self._folder, follow_symlinks=False)
        except FileNotFoundError:
            return False
        return True

    def _unlink(self, name: str) -> str:
        """Why a name may be there still, or nothing."""
        try:
            os.unlink(name, dir_fd=self._folder)
        except FileNotFoundError:
            pass
        except OSError as error:
            return f"{self.path}/{name}: {error.strerror}"
        return ""

    def _sync(self) -> None:
        """A file system that can't sync a folder, as FUSE's, says EINVAL."""
        try:
            os.fsync(self._folder)
        except OSError as error:
            if error.errno != errno.EINVAL:
                raise StorageError(error.errno, error.strerror, self.path) from error


def unknown(core: "Coordinator", files: Iterable[int]) -> Set[int]:
    """Those of the files that the coordinator does not know: no record uses them, they don't wait and are not taken."""
    waiting = set(itertools.takewhile(lambda it: it is not None, map(core.waiting_file, itertools.count())))
    taken = set(core.taken_files())
    return {file for file in files if file not in waiting and file not in taken and core.count(file) == Counted(file, 0)}
