"""State files in a bucket of S3, or of a server that speaks its protocol. It needs boto3 (Debian's python3-boto3), which finds keys and region
as it does everywhere: in the environment, ~/.aws, or the role of the machine."""
import errno
import posixpath
import threading
from typing import TYPE_CHECKING, Any, Callable, Dict, Iterable, Iterator, List, Optional, Tuple

import boto3  # type: ignore[import]
from botocore.config import Config  # type: ignore[import]
from botocore.exceptions import BotoCoreError, ClientError  # type: ignore[import]

from relkvanu.manifest import Sums, record_of
from relkvanu.places import OWNER
from relkvanu.storage import PAGE, Contents, Exists, FileNames, KeepsVersions, Marker, NotThere, OtherJob, StorageError, check_marker

if TYPE_CHECKING:
    from relkvanu.store import Store

__all__ = ["Bucket", "KeepsVersions", "StateBucket", "client"]

MOST_KEYS = 1000  # in a DeleteObjects, and on a page of a listing
GONE = ("NoSuchBucket",)  # not NoSuchKey: that is an object that is not there
ABSENT = ("NoSuchKey", "404", "NotFound")
OTHERS = {"PreconditionFailed": errno.EEXIST, "ConditionalRequestConflict": errno.EEXIST, "NotImplemented": errno.ENOSYS}
_asks = threading.local()  # the conditions of a put, as headers, of the thread that makes it


def client(endpoint: Optional[str] = None, region: Optional[str] = None) -> Any:
    """A client that tries each request three times, and waits at most a minute for an answer. All requests here may come twice."""
    how = Config(retries={"mode": "standard", "max_attempts": 3}, connect_timeout=10, read_timeout=60)
    return boto3.client("s3", endpoint_url=endpoint, region_name=region, config=how)


def _add_conditions(params: Any, **_: Any) -> None:
    """boto3 has no words for them before 1.35."""
    params["headers"].update(getattr(_asks, "conditions", {}))


class Bucket:
    """The objects of a bucket with this prefix. `is_new` makes the marker, where there is no state file. A bucket that has versions is refused
    (KeepsVersions), unless `keeps_versions` says that its lifecycle rules delete old versions. A marker that is given is an object beside the
    files, where a folder would have it: the part of the prefix after its last slash is not in its key."""

    def __init__(self, bucket: str, job: str, is_new: bool = False, prefix: str = "", suffix: str = "", s3: Any = None,
                 keeps_versions: bool = False, marker: Optional[Marker] = None) -> None:
        self.bucket, self.job, self.names = bucket, job, FileNames(prefix, suffix)
        self.marker = self.names.marker(job) if marker is None else Marker(posixpath.join(posixpath.dirname(prefix), marker.name), marker.text)
        self._s3 = client() if s3 is None else s3
        self._keeps_versions = keeps_versions
        self._heeds: Optional[bool] = None  # whether the server refuses to put a key that is there
        if not keeps_versions and self._ask(self._s3.get_bucket_versioning).get("Status"):
            raise KeepsVersions(errno.EINVAL, "the bucket keeps versions", bucket)
        if is_new:
            self._begin()
        self.check()

    def _begin(self) -> None:
        """The marker, where there is no state file: beside files there was a job, and its log is missing."""
        if next(self.pages(1), None):
            raise StorageError(errno.ENOTEMPTY, "a new job needs a place without state files", f"{self.bucket}/{self.names.prefix}")
        if self._read(self.marker.name) is None:
            self.write_marker(self.marker.text.encode(), None)

    def check(self) -> None:
        check_marker(self._read(self.marker.name), self.marker, self.job, f"{self.bucket}/{self.names.prefix}")

    def put(self, file: int, contents: Contents) -> None:
        """One request, so the object is whole or not there. It has at most 5 GiB. After a time-out the object may come later, so its number
        is never given again. The server refuses an object that is there. Not all servers heed that, so the first put tries it: if this one does
        not, each put looks first."""
        name, whole = self.names.of(file), contents if isinstance(contents, bytes) else b"".join(contents)
        if self._heeds is None:
            self._heeds = self._tried_to_heed()
        if not self._heeds and self._is_there(name):
            raise Exists(errno.EEXIST, "there is such an object", f"{self.bucket}/{name}")
        if not self._heeds:
            self._ask(self._s3.put_object, Key=name, Body=whole)
        elif not self._put_once(name, whole):
            raise Exists(errno.EEXIST, "there is such an object", f"{self.bucket}/{name}")

    def _tried_to_heed(self) -> bool:
        """Whether the server refuses to put a key that is there: the marker."""
        self.check()
        return self._is_heeded(self.marker.name, self.marker.text.encode())

    def heeds_beside(self, name: str) -> bool:
        """Whether the server refuses to put an object beside the marker that is there."""
        return self._is_heeded(posixpath.join(posixpath.dirname(self.marker.name), name), self.read_beside(name) or b"")

    def _is_heeded(self, name: str, contents: bytes) -> bool:
        """Puts an object with the bytes that it has."""
        try:
            self._put_if(name, contents, {"If-None-Match": "*"})
        except StorageError as error:
            if error.errno not in (errno.EEXIST, errno.ENOSYS):
                raise
            return error.errno == errno.EEXIST
        return False

    def _put_once(self, name: str, contents: bytes) -> bool:
        """Whether an object was made. If the request came twice, the answer to the second says that the first has made it."""
        try:
            self._put_if(name, contents, {"If-None-Match": "*"})
        except StorageError as error:
            if error.errno != errno.EEXIST:
                raise
            came_twice = getattr(error.__cause__, "response", {}).get("ResponseMetadata", {}).get("RetryAttempts", 0) > 0
            return came_twice and name != self.marker.name and self._read(name) == contents
        return True

    def _put_if(self, name: str, contents: bytes, conditions: Dict[str, str]) -> str:
        """Puts an object if the server finds the conditions met. Returns its tag."""
        self._s3.meta.events.register("before-call.s3.PutObject", _add_conditions, unique_id="relkvanu-conditions")
        _asks.conditions = conditions
        try:
            tag: str = self._ask(self._s3.put_object, Key=name, Body=contents)["ETag"]
            return tag
        finally:
            _asks.conditions = {}

    def read_marker(self) -> Tuple[Optional[bytes], Optional[str]]:
        """The marker and its tag, for write_marker()."""
        told = self._found(self._s3.get_object, self.marker.name)
        return (None, None) if told is None else (told["Body"].read(), told["ETag"])

    def write_marker(self, text: bytes, tag: Optional[str]) -> str:
        """Replaces the marker that has this tag, or makes one where there was none. Returns its tag. Raises OtherJob if another opening or command has
        marked the place meanwhile. A server without conditional writes can't tell that: there each process has to be ended before."""
        tags = [] if tag is None else [tag, tag.strip('"')]  # radosgw compares them without the quotes that it has told
        for conditions in [{"If-Match": it} for it in tags] or [{"If-None-Match": "*"}]:
            try:
                return self._put_if(self.marker.name, text, conditions)
            except StorageError as error:
                if error.errno == errno.ENOSYS:
                    return self._put_if(self.marker.name, text, {})
                if error.errno != errno.EEXIST:
                    raise
        raise OtherJob(errno.EEXIST, "another opening or command has marked it meanwhile", f"{self.bucket}/{self.names.prefix}")

    def get(self, file: int) -> bytes:
        found = self._read(self.names.of(file))
        if found is None:
            raise StorageError(errno.ENOENT, "no such object", f"{self.bucket}/{self.names.of(file)}")
        return found

    def has(self, file: int) -> bool:
        """Whether a file is there. Raises StorageError if that is not known."""
        return self._is_there(self.names.of(file))

    def delete(self, files: Iterable[int]) -> Dict[int, str]:
        """An object counts as deleted if the server says so of its key, and has the marker before and afterwards. An error says nothing of
        what was deleted, nor does a time-out."""
        some = list(files)
        failed: Dict[int, str] = {}
        try:
            self.check()
            for start in range(0, len(some), MOST_KEYS):
                failed.update(self._delete_some(some[start:start + MOST_KEYS]))
            self.check()
        except StorageError as error:
            return dict.fromkeys(some, str(error))
        return failed

    def _delete_some(self, files: List[int]) -> Dict[int, str]:
        keys = {self.names.of(file): file for file in files}
        try:
            told = self._ask(self._s3.delete_objects, Delete={"Objects": [{"Key": key} for key in keys]})
        except StorageError as error:
            return dict.fromkeys(files, str(error))
        failed = {file: "the server does not say that it was deleted" for file in files}
        for it in told.get("Deleted", []):
            if self._keeps_versions or not it.get("DeleteMarker"):  # versions may have been switched on since
                failed.pop(keys.get(it.get("Key"), -1), None)
        for it in told.get("Errors", []):  # in an answer with the status 200
            if it.get("Key") in keys:
                failed[keys[it["Key"]]] = f"{it.get('Code')}: {it.get('Message', '')}"
        return failed

    def pages(self, most: int = PAGE) -> Iterator[List[int]]:
        for page in self.sizes(most):
            yield list(page)

    def sizes(self, most: int = PAGE) -> Iterator[Dict[int, int]]:
        for objects in self._objects(self.names.prefix, most):
            found = ((self.names.file(it["Key"]), it["Size"]) for it in objects)
            page = {file: size for file, size in found if file is not None}
            if page:
                yield page

    def beside(self, start: str) -> List[str]:
        """The names of objects beside the marker that begin so."""
        folder = posixpath.dirname(self.marker.name)
        keys = (it["Key"] for objects in self._objects(posixpath.join(folder, start), MOST_KEYS) for it in objects)
        return [posixpath.relpath(key, folder or ".") for key in keys]

    def read_beside(self, name: str) -> Optional[bytes]:
        """An object beside the marker, or None if there is none."""
        return self._read(posixpath.join(posixpath.dirname(self.marker.name), name))

    def write_beside(self, name: str, contents: bytes) -> None:
        """Makes or replaces an object beside the marker."""
        self._ask(self._s3.put_object, Key=posixpath.join(posixpath.dirname(self.marker.name), name), Body=contents)

    def write_once_beside(self, name: str, contents: bytes) -> bool:
        """Makes an object beside the marker, on a server that heeds conditions. Returns false if there is one."""
        return self._put_once(posixpath.join(posixpath.dirname(self.marker.name), name), contents)

    def remove_beside(self, name: str) -> None:
        """Removes an object beside the marker. One that is not there is removed."""
        self._ask(self._s3.delete_object, Key=posixpath.join(posixpath.dirname(self.marker.name), name))

    def _objects(self, prefix: str, most: int) -> Iterator[List[Any]]:
        after: Dict[str, str] = {}
        while True:
            told = self._ask(self._s3.list_objects_v2, Prefix=prefix, MaxKeys=min(most, MOST_KEYS), **after)
            yield told.get("Contents", [])
            if not told.get("IsTruncated"):
                return
            after = {"ContinuationToken": told["NextContinuationToken"]}

    def _is_there(self, name: str) -> bool:
        return self._found(self._s3.head_object, name) is not None

    def _read(self, name: str) -> Optional[bytes]:
        told = self._found(self._s3.get_object, name)
        return None if told is None else _Contents(told["Body"], f"{self.bucket}/{name}").read()

    def _found(self, request: Callable[..., Any], name: str) -> Any:
        """What a request about an object is answered, or None if there is none."""
        try:
            return self._ask(request, Key=name)
        except StorageError as error:
            if error.errno != errno.ENOENT or isinstance(error, NotThere):
                raise
            return None

    def _ask(self, request: Callable[..., Any], **words: Any) -> Any:
        """Makes a request. Raises NotThere if there is no bucket, and StorageError: with ENOENT if there is no object, with EEXIST if there is
        one that there must not be, and with ENOSYS if the server can't do it."""
        where = f"{self.bucket}/{words.get('Key', self.names.prefix)}"
        try:
            return request(Bucket=self.bucket, **words)
        except ClientError as error:
            code = str(error.response.get("Error", {}).get("Code", ""))
            if code in GONE:
                raise NotThere(errno.ENOENT, str(error), where) from error
            raise StorageError(errno.ENOENT if code in ABSENT else OTHERS.get(code, errno.EIO), str(error), where) from error
        except (BotoCoreError, OSError) as error:
            raise StorageError(errno.EIO, str(error), where) from error


class _Contents:
    """What is in an object, to be read. The connection may also end while it comes."""

    def __init__(self, body: Any, where: str) -> None:
        self._body, self._where = body, where

    def read(self, most: Optional[int] = None) -> bytes:
        try:
            found: bytes = self._body.read(most)
        except (BotoCoreError, OSError) as error:
            raise StorageError(errno.EIO, str(error), self._where) from error
        return found

    def close(self) -> None:
        self._body.close()


class UncheckedBucket(Bucket):
    """A bucket without a look at its marker: what it has there is what is asked for."""

    def check(self) -> None:
        pass

    def opened(self, key: str) -> _Contents:
        return _Contents(self._ask(self._s3.get_object, Key=key)["Body"], f"{self.bucket}/{key}")


class _Checksums(Sums):
    """Those of a bucket. An object that can't be read has none."""

    def of(self, file: int) -> Optional[int]:
        try:
            return super().of(file)
        except StorageError:
            return None


class StateBucket(Bucket):
    """The state files of a job of relkvanu.store that has no `storage`, with its manifests: of them `relkvanu recover JOB s3://BUCKET/PREFIX` makes
    the job again if its file is lost. Made right after each opening. Its marker names the opening, so what an earlier one deletes is refused. The prefix ends
    with a slash, or is empty. Raises OtherJob for the place of another job, or of a later opening: then the job's file is an older copy. A store that was opened
    with `checksums` has one of each object in its manifests, for which the object is read once."""

    def __init__(self, store: "Store", bucket: str, prefix: str = "", s3: Any = None, keeps_versions: bool = False) -> None:
        if prefix and not prefix.endswith("/"):
            raise ValueError("the prefix of a job's manifests ends with a slash")
        self._report = store.report
        super().__init__(bucket, store.report.job, True, prefix, s3=s3, keeps_versions=keeps_versions, marker=store.marker())
        self._sums = _Checksums(_Beside(self), reads=True) if store.checksums else None
        if self._sums is not None:
            self._sums.note_all()
        store.keep_manifests(self)

    def _begin(self) -> None:
        """The marker of this opening. A process that was killed between the job and its first marker has no files yet."""
        where = f"{self.bucket}/{self.names.prefix}"
        found, tag = self.read_marker()
        if found is None and self._report.choice is not None:
            check_marker(None, self.marker, self.job, where)
        if found is None and any(self.pages(1)):
            raise StorageError(errno.ENOTEMPTY, "a job needs a place of its own, and there are files", where)
        if found is not None:
            owner = OWNER.fullmatch(found)
            if owner is None or owner[1].decode() != self.job:
                raise OtherJob(errno.EEXIST, f"not the storage of the job {self.job}", where)
            if int(owner[2]) > self._report.epoch:
                raise OtherJob(errno.EEXIST, "a later opening of the job has used it, and the job's file is an older copy", where)
        self.write_marker(self.marker.text.encode(), tag)

    def put_manifest(self, name: str, contents: bytes) -> None:
        self.write_beside(name, contents if self._sums is None else self._sums.added(record_of(name), contents))

    def remove_manifest(self, name: str) -> None:
        self.remove_beside(name)
        if self._sums is not None and name.endswith(".manifest"):
            self._sums.drop(record_of(name))

    def manifests(self) -> List[str]:
        return self.beside("record-")

    def contents(self, file: int) -> _Contents:
        """An object, which is read in pieces."""
        key = self.names.of(file)
        return _Contents(self._ask(self._s3.get_object, Key=key)["Body"], f"{self.bucket}/{key}")


class _Beside:
    """The manifests and the objects of a bucket, as checksums are made of them."""

    def __init__(self, bucket: StateBucket) -> None:
        self.names = lambda: [it for it in bucket.manifests() if it.endswith(".manifest")]
        self.read, self.opened = bucket.read_beside, bucket.contents
