"""Where manifests and the files that they name are: a folder, or what is below s3://BUCKET/PREFIX. It needs no library, and boto3 for a bucket alone."""
import contextlib
import copy
import errno
import fcntl
import importlib
import os
import pathlib
import re
from typing import Any, Callable, Dict, Iterator, List, NamedTuple, Optional, Union

from relkvanu.manifest import name_of
from relkvanu.storage import FileNames, Marker, NotThere, StorageError, bucket_and_prefix

MARKER = ".relkvanu-job"
OWNER = re.compile(rb"relkvanu job ([0-9a-f]{32})\nepoch ([1-9][0-9]{0,18})\n")  # a marker of a store
PLAIN = FileNames("", "")  # a file has its number as its name
Path = Union[str, "os.PathLike[str]"]


class Owner(NamedTuple):
    """What a marker says."""

    job: str
    epoch: int

    def text(self) -> bytes:
        return f"relkvanu job {self.job}\nepoch {self.epoch}\n".encode()


class Gone(Exception):
    """A file of the record is not there any more: the record has ended."""


@contextlib.contextmanager
def gone_if_absent() -> Iterator[None]:
    """An object that is not there was one of a record that has ended."""
    try:
        yield
    except StorageError as error:
        if error.errno != errno.ENOENT or isinstance(error, NotThere):
            raise
        raise Gone from error


def owner_in(text: Optional[bytes]) -> Optional[Owner]:
    found = None if text is None else OWNER.fullmatch(text)
    return None if found is None else Owner(found[1].decode(), int(found[2]))


def sync(folder: Path) -> None:
    descriptor = os.open(folder, os.O_RDONLY | os.O_DIRECTORY)
    try:
        os.fsync(descriptor)
    finally:
        os.close(descriptor)


def give(made: int, folder: pathlib.Path) -> None:
    """Root gives what it has made in a folder, an open file or folder, to the user of that folder, who runs the engine. Where root may not give to each
    user, as in some containers, it stays root's."""
    if os.geteuid() == 0:
        owner = os.stat(folder)
        try:
            os.fchown(made, owner.st_uid, owner.st_gid)
        except OSError as error:
            if error.errno not in (errno.EPERM, errno.EINVAL):
                raise


def make_file(path: pathlib.Path, pieces: Any) -> int:
    """Writes and syncs a file, in the place of one that is there. Returns its length."""
    path.unlink(missing_ok=True)
    # what the folder's user puts there meanwhile is not followed
    with open(os.open(path, os.O_WRONLY | os.O_CREAT | os.O_EXCL | os.O_NOFOLLOW, 0o666), "wb") as file:
        give(file.fileno(), path.parent)
        length = sum(file.write(it) for it in pieces)
        file.flush()
        os.fsync(file.fileno())
    return length


def make_folder(folder: pathlib.Path) -> None:
    """Makes a folder and those above it, each of which is on the disk when this returns."""
    if not folder.is_dir():
        make_folder(folder.parent)
        folder.mkdir(exist_ok=True)
        made = os.open(folder, os.O_RDONLY | os.O_DIRECTORY | os.O_NOFOLLOW)
        try:
            give(made, folder.parent)
        finally:
            os.close(made)
        sync(folder.parent)


class InBucket:
    """Manifests and files below s3://BUCKET/PREFIX. Files are named by `form`, whose prefix may go on behind PREFIX. `at` comes before the names of
    manifests."""

    def __init__(self, url: str, s3: Any, form: FileNames = PLAIN, at: str = "", marker: str = MARKER) -> None:
        self.url, self.s3, self.at, self.marker = url, s3, at, marker
        self.bucket, self.prefix = bucket_and_prefix(url)
        self.form = FileNames(self.prefix + form.prefix, form.suffix)
        unchecked = importlib.import_module("relkvanu.s3").UncheckedBucket
        self._bucket = unchecked(self.bucket, "any", prefix=self.form.prefix, suffix=form.suffix, s3=s3, keeps_versions=True, marker=Marker(marker, "any"))
        self._tag: Optional[str] = None  # of the marker, as it was seen last
        self.read: Callable[[str], Optional[bytes]] = self._bucket.read_beside
        self.write: Callable[[str, bytes], None] = self._bucket.write_beside
        self.write_once: Callable[[str, bytes], bool] = self._bucket.write_once_beside
        self.remove: Callable[[str], None] = self._bucket.remove_beside
        self.drop: Callable[[List[int]], Dict[int, str]] = self._bucket.delete

    def owner(self) -> Optional[Owner]:
        text, self._tag = self._bucket.read_marker()
        return owner_in(text)

    def mark(self, owner: Owner, tag: Optional[str] = None) -> Optional[str]:
        """Replaces the marker with this tag, or the one that owner() has read, or mark() has written: nobody takes a fence away that came meanwhile.
        Returns its tag."""
        self._tag = self._bucket.write_marker(owner.text(), tag or self._tag)
        return self._tag

    @contextlib.contextmanager
    def locked(self) -> Iterator[None]:
        """A bucket has no lock. mark() finds out whether another command or an opening came in between."""
        yield

    def manifest(self, record: int) -> str:
        return self.at + name_of(record)

    def names(self, end: str = "") -> List[str]:
        return [it for it in self._bucket.beside(f"{self.at}record-") if it.endswith(f".manifest{end}")]

    def whole(self) -> str:
        """What tells it from other places."""
        return self.url.rstrip("/") + ("" if self.marker == MARKER else f"/{self.marker}")

    def check_conditions(self, name: str) -> None:
        """Raises StorageError if the server puts this object though it is there: it keeps no other claim out, and no opening that has read the marker."""
        if not self._bucket.heeds_beside(name):
            raise StorageError(errno.ENOSYS, "the server has no conditional writes, which a claim needs: end each process of the job, and import the record", self.url)

    def sizes(self) -> Dict[int, int]:
        return {file: size for page in self._bucket.sizes() for file, size in page.items()}

    def size(self, file: int) -> Optional[int]:
        """A manifest in a bucket says no lengths: an object is whole, or not there."""
        return None

    def is_empty(self) -> bool:
        return not self._bucket.beside("")

    def copy(self, file: int, source: "InBucket") -> None:
        self._bucket._ask(self.s3.copy_object, Key=self.form.of(file), CopySource={"Bucket": source.bucket, "Key": source.form.of(file)})

    def put(self, file: int, contents: Any) -> None:
        self._bucket._ask(self.s3.put_object, Key=self.form.of(file), Body=contents)

    def remove_itself(self) -> None:
        """A prefix is there as long as it has objects."""

    def opened(self, file: int) -> Any:
        """The contents of a file, to be read."""
        with gone_if_absent():
            return self._bucket.opened(self.form.of(file))


class InFolder:
    """Manifests and files in a folder. Files are named by `form`, and `at` comes before the names of manifests."""

    new = ".new"  # behind the name of a file that is not whole yet

    def __init__(self, path: Path, form: FileNames = PLAIN, at: str = "", marker: str = MARKER) -> None:
        self.url, self.path, self.form, self.at, self.marker = os.fspath(path), pathlib.Path(path), form, at, marker

    def owner(self) -> Optional[Owner]:
        return owner_in(self.read(self.marker))

    def mark(self, owner: Owner, tag: Optional[str] = None) -> Optional[str]:
        self.write(self.marker, owner.text())
        return tag

    @contextlib.contextmanager
    def locked(self) -> Iterator[None]:
        """The lock of the folder that the library takes too: an opening waits, and looks at the marker again."""
        with contextlib.ExitStack() as stack:
            if self.path.is_dir():
                folder = os.open(self.path, os.O_RDONLY | os.O_DIRECTORY)
                stack.callback(os.close, folder)
                with contextlib.suppress(OSError):  # a file system without such locks
                    fcntl.flock(folder, fcntl.LOCK_EX)
            yield

    def manifest(self, record: int) -> str:
        return self.at + name_of(record)

    def names(self, end: str = "") -> List[str]:
        return [self.at + it.name for it in (self.path / self.at).glob(f"record-*.manifest{end}")]

    def whole(self) -> str:
        path = pathlib.Path(os.path.abspath(self.path))
        return str(path.parent.resolve() / path.name) + ("" if self.marker == MARKER else f"/{self.marker}")

    def read(self, name: str) -> Optional[bytes]:
        try:
            return (self.path / name).read_bytes()
        except FileNotFoundError:
            return None

    def write(self, name: str, contents: bytes) -> None:
        """Makes or replaces a file, whole and durable."""
        path = self.path / name
        make_folder(path.parent)
        make_file(self.path / f"{name}{self.new}", [contents])
        os.rename(self.path / f"{name}{self.new}", path)
        sync(path.parent)

    def write_once(self, name: str, contents: bytes) -> bool:
        """Makes what is not there yet. Returns whether it was not. Who writes it has the lock."""
        is_free = not (self.path / name).exists()
        if is_free:
            self.write(name, contents)
        return is_free

    def check_conditions(self, name: str) -> None:
        """A folder is locked."""

    def remove(self, name: str) -> None:
        sync(self.path)  # the files that left are gone before it
        (self.path / name).unlink(missing_ok=True)

    def sizes(self) -> Dict[int, int]:
        with os.scandir(self.path) as entries:
            found = ((self.form.file(it.name), it) for it in entries)
            return {file: it.stat().st_size for file, it in found if file is not None and it.is_file(follow_symlinks=False)}

    def size(self, file: int) -> Optional[int]:
        """Its length. Raises Gone if it is not there."""
        try:
            return os.stat(self.path / self.form.of(file), follow_symlinks=False).st_size
        except FileNotFoundError as error:
            raise Gone from error

    def is_empty(self) -> bool:
        return not self.path.exists() or not any(self.path.iterdir())

    def drop(self, files: List[int]) -> Dict[int, str]:
        """Deletes files. Returns those that may be there still, each with the reason."""
        for file in files:
            (self.path / self.form.of(file)).unlink(missing_ok=True)
        return {}

    def remove_itself(self) -> None:
        """An exported folder that has nothing more. It may be gone already."""
        if self.path.is_dir() and not any(self.path.iterdir()):
            self.path.rmdir()

    def opened(self, file: int) -> Any:
        try:
            return open(os.open(self.path / self.form.of(file), os.O_RDONLY | os.O_NOFOLLOW), "rb")
        except FileNotFoundError as error:
            raise Gone from error

    def moved(self, path: pathlib.Path) -> "InFolder":
        """The same, elsewhere."""
        found = copy.copy(self)
        found.url, found.path = os.fspath(path), path
        return found

    def link(self, file: int, source: "InFolder", to: pathlib.Path) -> bool:
        """Gives a file of the source this name too. Returns false where the file system has no links, or has too many."""
        try:
            os.link(source.path / source.form.of(file), to, follow_symlinks=False)
        except FileNotFoundError as error:
            raise Gone from error
        except OSError as error:
            if error.errno not in (errno.EXDEV, errno.EPERM, errno.EMLINK, errno.ENOTSUP, errno.ENOSYS):
                raise
            return False
        return True


Place = Union[InFolder, InBucket]


def place(url: Path, s3: Any = None) -> Place:
    text = os.fspath(url)
    if not text.startswith("s3://"):
        return InFolder(text)
    return InBucket(text, importlib.import_module("relkvanu.s3").client() if s3 is None else s3)
