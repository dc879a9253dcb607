"""Manifests of a durable job, whose place may be s3://BUCKET/PREFIX. These functions are for engines too. Without a bucket, use those of relkvanu.store.Store.

What is carried into a bucket has an object .relkvanu-part there until it is whole: so a command that was killed goes on when it is given again.
"""
import concurrent.futures
import contextlib
import dataclasses
import fcntl
import functools
import json
import os
import pathlib
import posixpath
import secrets
import shutil
import tempfile
import time
from typing import Any, Dict, Iterator, List, NamedTuple, Optional

from relkvanu.manifest import PIECE, files_in, mark_of, members, name_of, of_job, record_of, sum_of, sums_in
from relkvanu.places import MARKER, PLAIN, Gone, InBucket, InFolder, Owner, Path, Place, give, gone_if_absent, make_file, sync
from relkvanu.store import Carried, Record, Recovered, Store, StoreError

PART = ".relkvanu-part"
CLAIMED = ".claimed"  # behind the name of a manifest: the mark that stays where a claim has taken the record
OPENINGS = 1024  # that a marker may lack, as in relkvanu_store_recover
TRIES = 100  # a record may end while it is carried
THREADS = 16  # requests at once


@contextlib.contextmanager
def listed(source: Place) -> Iterator[pathlib.Path]:
    """A folder that the library reads in place of a bucket: with the marker, the manifests, the marks, and for each file that they name, and that is there, one of its
    length, which is a hole."""
    if isinstance(source, InFolder) and (source.form, source.at) == (PLAIN, ""):
        yield source.path
        return
    with tempfile.TemporaryDirectory(prefix="relkvanu-") as name:
        folder, owner, wanted = pathlib.Path(name), source.owner(), set()
        for it in [*source.names(), *source.names(CLAIMED)]:
            text = source.read(it)
            if text is not None:
                (folder / posixpath.basename(it)).write_bytes(text)
                wanted |= set(files_in(text))
        for file, size in source.sizes().items():
            if file in wanted:
                with open(folder / str(file), "wb") as hole:
                    hole.truncate(size)
        if owner is not None:
            (folder / MARKER).write_bytes(owner.text())
        yield folder


def claims_in(source: Place) -> Dict[int, str]:
    """The records that were claimed, each with the place that it was claimed for."""
    found = {record_of(it[:-len(CLAIMED)]): source.read(it) for it in source.names(CLAIMED)}
    return {record: str(members(text).get("claimed", "another place")) for record, text in found.items() if text is not None}


def claimed(source: Place, record: int, place: str) -> StoreError:
    return StoreError("Absent", f"{source.url}: record {record} was claimed for {place}: repeat that command or start its job, or give the number of an "
                                "earlier record", False)


def chosen(source: Place, folder: pathlib.Path, record: int) -> Record:
    """The record that a recovery begins from, or the one with this number. Without a number none is earlier than one that was claimed."""
    for it in Store.records(folder):
        is_whole = it.damage is None and it.is_of_job and it.missing == 0
        if is_whole and (it.id == record if record else it.is_next):
            return it
    claims = claims_in(source)
    if claims and (not record or record in claims):
        raise claimed(source, record or max(claims), claims[record or max(claims)])
    raise StoreError("Absent", f"{source.url}: no record that has a manifest there has all its files", False)


def records(source: Place) -> List[Record]:
    """The records of a place that have a manifest. Those in a bucket have the bytes of the objects that are there."""
    sizes = source.sizes() if isinstance(source, InBucket) else {}
    with listed(source) as folder:
        found = Store.records(folder)
        texts = {it.id: (folder / name_of(it.id)).read_bytes() for it in found} if sizes else {}
    return [dataclasses.replace(it, bytes=sum(sizes.get(file, 0) for file in files_in(texts[it.id]))) if sizes and it.damage is None else it for it in found]


def check_free(job: Path) -> None:
    """Raises StoreError if there is a job or its -wal, or another process makes one, before an old job is fenced."""
    with tempfile.TemporaryDirectory(prefix="relkvanu-") as name:
        folder = pathlib.Path(name)
        InFolder(folder).mark(Owner("0" * 32, 1))
        try:
            Store.recover_listed(job, folder)
        except StoreError as error:
            if error.name != "Absent":  # there is no record in it
                raise


def recover(job: Path, source: Place, record: int = 0) -> Recovered:
    """Makes the file of a job again from the manifests in its place. Killed at any moment it has done nothing, or all."""
    if isinstance(source, InFolder):
        return Store.recover(job, source.path, record)
    if source.owner() is None:
        raise StoreError("Storage", f"{source.url}: it has no marker of a job", False)
    check_free(job)
    with listed(source) as folder:
        chosen(source, folder, record)
    fence(source)  # a process that was told to end may not have ended
    with listed(source) as folder:
        found = Store.recover_listed(job, folder, record)
        owner = InFolder(folder).owner()
    assert owner is not None
    source.mark(owner)  # from now on an old file is refused. The next opening does it too
    return found


# To carry a record.


def pieces_of(contents: Any) -> Iterator[bytes]:
    return iter(functools.partial(contents.read, PIECE), b"")


def check_sum(source: Place, file: int, contents: Any, wanted: Optional[int]) -> None:
    """Reads the contents, if the manifest has a checksum of them, and goes back to where they begin."""
    if wanted is not None:
        if sum_of(pieces_of(contents)) != wanted:
            raise StoreError("Damaged", f"{source.url}: file {file} has another checksum than its manifest says", False)
        contents.seek(0)


def carry_file(source: Place, target: Place, part: pathlib.Path, file: int, size: Optional[int], checksum: Optional[int] = None) -> None:
    """Into a bucket, or into the folder `part`. From bucket to bucket the server copies. A file that two folders can have is linked. What is copied here has to
    have its checksum."""
    if isinstance(source, InBucket) and isinstance(target, InBucket):
        with gone_if_absent():
            target.copy(file, source)
        return
    if isinstance(target, InBucket):
        with contextlib.closing(source.opened(file)) as contents:
            check_sum(source, file, contents, checksum)
            target.put(file, contents)
        return
    to = part / target.form.of(file)
    if isinstance(source, InFolder) and target.link(file, source, to):
        length = to.stat().st_size
    else:
        with contextlib.closing(source.opened(file)) as contents:
            length = make_file(to, pieces_of(contents))
        with open(to, "rb") as made:
            check_sum(source, file, made, checksum)
    if size is not None and length != size:
        raise StoreError("Damaged", f"{source.url}: file {file} is not as long as its manifest says", False)


def cancel(tasks: List["concurrent.futures.Future[None]"]) -> None:
    """Those that have not begun. Python 3.8 has no cancel_futures."""
    for it in tasks:
        it.cancel()


def carry_files(source: Place, target: Place, part: pathlib.Path, manifest: bytes) -> None:
    checksums = sums_in(manifest)
    with concurrent.futures.ThreadPoolExecutor(THREADS) as pool:
        tasks = [pool.submit(carry_file, source, target, part, file, size, checksums.get(file)) for file, size in files_in(manifest).items()]
        for it in concurrent.futures.as_completed(tasks):
            if it.exception() is not None:
                cancel(tasks)
                it.result()


def manifest_of(source: Place, record: Record) -> bytes:
    text = source.read(source.manifest(record.id))
    if text is None:
        raise Gone
    return text


def is_named(descriptor: int, path: pathlib.Path) -> bool:
    try:
        return os.path.samestat(os.fstat(descriptor), os.lstat(path))
    except FileNotFoundError:
        return False


def locked_part(part: pathlib.Path) -> int:
    """Opens the folder, which nobody else removes or names while it is open here. Another command may have done so before the lock was had."""
    for _ in range(TRIES):
        with contextlib.suppress(FileExistsError):
            part.mkdir(mode=0o700)
        try:
            lock = os.open(part, os.O_RDONLY | os.O_DIRECTORY | os.O_NOFOLLOW)
        except FileNotFoundError:
            continue
        try:
            fcntl.flock(lock, fcntl.LOCK_EX | fcntl.LOCK_NB)
        except BlockingIOError:
            os.close(lock)
            break
        if is_named(lock, part):
            return lock
        os.close(lock)
    raise StoreError("InUse", f"{part}: another export or import writes it", False)


@contextlib.contextmanager
def part_folder(target: InFolder) -> Iterator[pathlib.Path]:
    """A folder beside the target that nobody else makes meanwhile. It is removed unless it was given its name."""
    part = pathlib.Path(f"{target.url.rstrip('/')}.part")
    lock = locked_part(part)
    try:
        # the user of an empty folder whose name it gets, or else of the one that it is in
        give(lock, target.path if target.path.is_dir() and not target.path.is_symlink() else part.parent)
        for it in part.iterdir():
            shutil.rmtree(it) if it.is_dir() and not it.is_symlink() else it.unlink()
        yield part
    finally:
        if is_named(lock, part):
            shutil.rmtree(part)
        os.close(lock)


def into_folder(source: Place, target: InFolder, record: int, manifest: bytes, job: Optional[str]) -> int:
    """The folder gets its name once all is on the disk. Returns the bytes."""
    files = files_in(manifest)
    with part_folder(target) as part:
        carry_files(source, target, part, manifest)
        size = sum((part / target.form.of(file)).stat().st_size for file in files)
        whole = target.moved(part)
        whole.write(whole.manifest(record), manifest if job is None else of_job(manifest, job))
        if job is not None:
            whole.mark(Owner(job, 1))
        sync(part)
        try:
            os.rename(part, target.url.rstrip("/"))
        except OSError as error:
            raise StoreError("Present", f"{target.url}: {error.strerror}", False) from error
    sync(target.path.resolve().parent)
    return size


def begun(target: InBucket, origin: str, job: Optional[str]) -> Dict[str, Any]:
    """What an earlier try has begun in an empty place, or this one begins. The same record has the same files, so it goes on where that one was."""
    found = target.read(PART)
    if found is None:
        if not target.is_empty():
            raise StoreError("Present", f"{target.url}: there are objects", False)
        new = {"origin": origin, "job": job}
        target.write(PART, json.dumps(new).encode())
        return new
    part: Dict[str, Any] = json.loads(found)
    if part["origin"] != origin or (part["job"] is None) != (job is None):
        raise StoreError("Present", f"{target.url}: something else is carried there", False)
    return part


def into_bucket(source: Place, target: InBucket, record: int, manifest: bytes, job: Optional[str]) -> int:
    """The manifest comes last: with it the record is there. What another record has left there goes before."""
    part = begun(target, json.loads(manifest)["job"], job)
    files = files_in(manifest)
    carry_files(source, target, pathlib.Path(), manifest)
    sizes = target.sizes()
    drop(target, [file for file in sizes if file not in files])
    if target.read(PART) is None:
        raise StoreError("Present", f"{target.url}: another command has carried it there", False)
    for it in target.names():
        target.remove(it)
    if part["job"] is not None:
        target.mark(Owner(part["job"], 1))
    target.write(target.manifest(record), manifest if part["job"] is None else of_job(manifest, part["job"]))
    target.remove(PART)
    return sum(sizes.get(file, 0) for file in files)


def drop(source: Place, files: List[int]) -> None:
    for file, why in source.drop(files).items():
        raise StoreError("NotDone", f"{source.url}{file}: {why}", False)


def carry_to(source: Place, target: Place, record: int, manifest: bytes, job: Optional[str]) -> int:
    """Carries the record of this manifest. Raises Gone if a file of it is not there any more."""
    if isinstance(target, InFolder):
        return into_folder(source, target, record, manifest, job)
    return into_bucket(source, target, record, manifest, job)


def carry(source: Place, target: Place, record: int, job: Optional[str]) -> Carried:
    """Chooses a record and carries it. While its job runs it may end meanwhile: then there is a later one."""
    for _ in range(TRIES):
        with listed(source) as folder:
            one = chosen(source, folder, record)
        with contextlib.suppress(Gone):
            size = carry_to(source, target, one.id, manifest_of(source, one), job)
            return Carried(one.id, one.is_savepoint, one.files, size)
    raise StoreError("Absent", f"{source.url}: its records end too soon", False)


def export(source: Place, target: Place, record: int = 0) -> Carried:
    """Carries a record into an empty place, with its manifest. The job of the source may run meanwhile."""
    if isinstance(source, InFolder) and isinstance(target, InFolder):
        return Store.export(source.path, target.path, record)
    if isinstance(target, InFolder) and not target.is_empty():
        raise StoreError("Present", f"{target.url}: it is there, and is no empty folder", False)
    return carry(source, target, record, None)


# To begin another job.


def has_job(path: Path) -> bool:
    return os.path.exists(path) and os.path.getsize(path) != 0


def manifests_of(source: Place) -> Dict[int, bytes]:
    found = {posixpath.basename(it): source.read(it) for it in source.names()}
    return {int(name[len("record-"):-len(".manifest")]): text for name, text in found.items() if text is not None}


def imported(source: Place, target: Place) -> Optional[int]:
    """The record of the source of which the target has an import that no engine has opened yet."""
    if target.owner() is None or (isinstance(target, InBucket) and target.read(PART) is not None):
        return None
    there = {(id, members(text).get("job")) for id, text in manifests_of(source).items()}
    return next((id for id, text in manifests_of(target).items() if (id, members(text).get("origin")) in there), None)


def begin(source: Place, target: Place, record: int) -> None:
    if imported(source, target) is None:
        if isinstance(target, InFolder) and not target.is_empty():
            raise StoreError("Present", f"{target.url}: it is there, and is no empty folder", False)
        carry(source, target, record, secrets.token_hex(16))


def import_job(source: Place, job: Path, target: Place, record: int = 0) -> Recovered:
    """Makes another job, at `job` over the target, of a record in the source, whose job may run."""
    if has_job(job):
        raise StoreError("Present", f"{os.fspath(job)}: there is a job", False)
    begin(source, target, record)
    return recover(job, target)


def check_mark(source: Place, record: int, target: Place) -> None:
    """Whether the record is not another claim's."""
    place = claims_in(source).get(record, target.whole())
    if place != target.whole():
        raise claimed(source, record, place)


def check_claim(source: Place, record: int, target: Place) -> None:
    """Before anything changes."""
    check_mark(source, record, target)
    source.check_conditions(source.manifest(record))


def mark(source: Place, target: Place) -> None:
    """From now on the record is this claim's, before there is a job of it: so of claims that end in between no two have one."""
    record = imported(source, target)
    text = None if record is None else source.read(source.manifest(record))
    if record is None or text is None or not source.write_once(source.manifest(record) + CLAIMED, mark_of(text, target.whole())):
        for it in manifests_of(target):  # one of them has been there
            check_mark(source, it, target)


def leave_place(source: Place, target: Place) -> None:
    """What an export has made goes with the mark of its record, once that has left."""
    if source.owner() is None and not source.names():
        for record, place in claims_in(source).items():
            if place == target.whole():
                source.remove(source.manifest(record) + CLAIMED)
        source.remove_itself()


def leave(source: Place, record: int, target: Place) -> None:
    """The files of the record leave the source, but for those that another record has, and then its manifest."""
    with listed(source) as folder:
        found = Store.records(folder)
        if any(it.damage is not None for it in found):
            raise StoreError("Damaged", f"{source.url}: a manifest there can't be read: the files of the record stay there too", False)
        files = {it.id: set(files_in((folder / name_of(it.id)).read_bytes())) for it in found}
    if record in files:
        drop(source, sorted(files.pop(record).difference(*files.values())))
        source.remove(source.manifest(record))
    leave_place(source, target)


class Fence(NamedTuple):
    owner: Owner
    tag: Optional[str]  # of the marker in a bucket


def fence(source: Place) -> Optional[Fence]:
    owner = source.owner()
    if owner is None:
        return None
    epochs = [it.get("epoch", 0) for it in map(members, manifests_of(source).values()) if it.get("job") == owner.job]
    fenced = Owner(owner.job, max([owner.epoch, *epochs]) + OPENINGS)
    return Fence(fenced, source.mark(fenced))


def hold(source: Place, fenced: Optional[Fence]) -> None:
    """Raises OtherJob if another claim has fenced a bucket since: then the record is that one's, and nothing leaves."""
    if fenced is not None and fenced.tag is not None:
        source.mark(fenced.owner, fenced.tag)


def own(source: InBucket, record: Record) -> None:
    """Gives the job of an exported record an identity, in place."""
    text, job = manifest_of(source, record), secrets.token_hex(16)
    source.write(source.manifest(record.id), of_job(text, job))
    source.mark(Owner(job, 1))


def claim(source: Place, job: Path, target: Place, record: int = 0) -> Recovered:
    """import_job() by which the record's files leave the source, or stay in place if the target is the same. The source's old job is fenced first. Of two
    claims at once one is refused: a folder is locked, and in a bucket the marker is replaced only as long as it is the one that was read."""
    if isinstance(source, InFolder) and isinstance(target, InFolder):
        return Store.import_job(source.path, job, target.path, record, claim=True)
    with source.locked():
        return claim_locked(source, job, target, record)


def claim_locked(source: Place, job: Path, target: Place, record: int) -> Recovered:
    is_in_place = isinstance(source, InBucket) and isinstance(target, InBucket) and (source.bucket, source.prefix) == (target.bucket, target.prefix)
    if has_job(job):
        return go_on(source, job, target)
    if not record and not is_in_place:
        record = imported(source, target) or 0
    with listed(source) as folder:
        one = chosen(source, folder, record)
    check_claim(source, one.id, target)
    check_free(job)
    if is_in_place:
        if source.owner() is None and isinstance(source, InBucket):
            own(source, one)
        return recover(job, source, record)
    is_begun = isinstance(target, InBucket) and target.read(PART) is not None
    if not is_begun and imported(source, target) is None and not target.is_empty():
        raise StoreError("Present", f"{target.url}: it is there, and is not empty", False)
    fenced = fence(source)  # before the record is chosen, so that none is lost that the old job completes meanwhile
    begin(source, target, record)
    hold(source, fenced)
    mark(source, target)
    found = recover(job, target)
    leave(source, found.record, target)
    return found


def go_on(source: Place, job: Path, target: Place) -> Recovered:
    """A claim whose job is there already, as the same call has left it before it ended, or an import: then the old job runs, and is fenced first."""
    record = imported(source, target)
    if record is None:
        leave_place(source, target)  # of a claim that was killed behind its last file
        raise StoreError("Present", f"{os.fspath(job)}: there is a job", False)
    it = members(manifests_of(target)[record])
    check_claim(source, record, target)
    hold(source, fence(source))
    mark(source, target)
    leave(source, record, target)
    return Recovered(record, it["kind"] == "savepoint", it["files"], it["bytes"], 0, 0, 0, 0, max(it["below"]["number"], record + 1))


# What is printed.


def state_of(it: Record) -> str:
    if it.damage is not None:
        return "written by a later version" if it.damage == "NotAStore" else "the manifest is damaged"
    if not it.is_of_job:
        return "of another job than the folder"
    if it.missing:
        return f"{it.missing} files are missing or have another length"
    return "whole; a recovery or an import begins from it" if it.is_next else "whole"


def show_record(it: Record, state: str) -> None:
    written = "?" if it.damage else time.strftime("%Y-%m-%dT%H:%M:%SZ", time.gmtime(it.written // 1000))
    kind = "?" if it.damage else "savepoint" if it.is_savepoint else "checkpoint"
    print(f"{it.id:<12} {kind:<10} {written:<20} {it.files:>10} {it.bytes:>16}  {state}")


def show_head(source: Place, found: List[Record]) -> None:
    for record, place in sorted(claims_in(source).items()):
        print(f"record {record} was claimed for {place}")
    print(f"{'record':<12} {'kind':<10} {'written':<20} {'files':>10} {'bytes':>16}  state" if found else "no record has a manifest")


def show(source: Place) -> None:
    found = records(source)
    show_head(source, found)
    for it in found:
        show_record(it, state_of(it))


class Reads:
    """What the files of a place have, each of which is read once: records share them."""

    def __init__(self, source: Place) -> None:
        self.source, self.sizes = source, source.sizes()
        self.sums: Dict[int, int] = {}

    def fault_of(self, file: int, size: Optional[int], checksum: Optional[int]) -> Optional[str]:
        if file not in self.sizes:
            return "is missing"
        if size is not None and size != self.sizes[file]:
            return "has another length"
        if checksum is not None and file not in self.sums:
            try:
                with contextlib.closing(self.source.opened(file)) as contents:
                    self.sums[file] = sum_of(pieces_of(contents))
            except Gone:
                return "is missing"
            except OSError:
                return "can't be read"
        return "has another checksum" if checksum is not None and self.sums[file] != checksum else None

    def faults(self, manifest: bytes) -> Dict[int, str]:
        sums = sums_in(manifest)
        told = {file: self.fault_of(file, size, sums.get(file)) for file, size in files_in(manifest).items()}
        return {file: it for file, it in told.items() if it is not None}


def state_of_sums(it: Record, faults: Dict[int, str]) -> str:
    if it.damage is None and it.is_of_job and not it.missing and faults:
        return f"{len(faults)} files have another checksum or can't be read" + ("; a recovery or an import begins from it" if it.is_next else "")
    if it.damage is None and not it.missing:
        return f"{state_of(it)}; " + (f"checksums of {it.unknown} files are not known" if it.unknown else "each checksum is right")
    return state_of(it)


def show_whole(source: Place) -> None:
    """show(), which reads the files too. It fails if something is not as a manifest says."""
    found, reads, texts, is_right = records(source), Reads(source), manifests_of(source), True
    show_head(source, found)
    for it in found:
        faults = {} if it.damage else reads.faults(texts.get(it.id, b""))
        show_record(it, state_of_sums(it, faults))
        for file, words in faults.items():
            print(f"  record {it.id}: file {file} {words}")
        is_right = is_right and not faults and it.damage is None
    if not is_right:
        raise StoreError("Damaged", f"{source.url}: not all files are as the manifests say", False)


def show_all(source: Place, reads: bool) -> None:
    (show_whole if reads else show)(source)


def tell_carried(to: str, made: Carried) -> None:
    print(f"{to} has {'savepoint' if made.is_savepoint else 'checkpoint'} {made.record}, with {made.files} files of {made.bytes} bytes")


def tell(job: str, made: Any) -> None:
    """Says what a job goes on from: a Recovered, or the like of a job of the service."""
    kind = "savepoint" if made.is_savepoint else "checkpoint"
    print(f"{job} goes on from {kind} {made.record}, which has {made.files} files of {made.bytes} bytes")
    print(f"later records have numbers from {made.next_number} on")
    if made.savepoints:
        print(f"{made.savepoints} other savepoints live on, under new numbers")
    if made.passed:
        print(f"{made.passed} manifests were passed over, since they are damaged or lack files")
