"""A job of the service is made of a record by ordinary calls, as relkvanu_store_recover makes one of the durable coordinator. Until it has all, its settings are
such that no engine can open it, and the service opens a job of these settings without names, so that its first acknowledgements may name the files that are there by
the numbers that they have; then it gets names above all that were told."""
import contextlib
import fcntl
import os
import re
import shutil
from dataclasses import dataclass
from typing import Any, Dict, Iterator, List, Optional, Sequence, Set

from relkvanu import manifests
from relkvanu.errors import Error, Stop
from relkvanu.jobs import LONGEST, lists_of
from relkvanu.manifest import Sums, members
from relkvanu.places import Gone, InBucket, Place
from relkvanu.service_manifests import (
    Below, ServiceFolder, identity_of, imported_marker, lost_of, manifest_of,
)
from relkvanu.storage import NotThere
from relkvanu.store import Carried, Store, StoreError

TRIES = 100  # a record may end while it is carried
LOOK_FIRST = 78  # an exit status
# Of a job that is not whole yet: nothing is due and nothing expires, and no engine has these settings.
MAKING = {"interval": LONGEST - 77, "pause": LONGEST - 77, "at_once": 1, "timeout": LONGEST - 77, "tolerable": 1000, "retained": 1, "keep_on_cancel": True}
MOST_CALLS, MOST_FILES = 1000, 100_000  # of a request
PAYLOAD = re.compile("([0-9a-f]{2}){0,4096}")
OF_FILE = 40  # so many letters of a payload take the room of a file in a request
SOME_NUMBERS, MOST_PASSED = 1024, 1 << 20  # for a manifest that can't be read, as in relkvanu_store_recover


class Refused(Error):
    """The service has refused a call of an import."""


@dataclass(frozen=True)
class Imported:
    """What a job goes on from."""

    record: int
    is_savepoint: bool
    files: int
    bytes: int
    savepoints: int  # others that live on
    passed: int  # manifests that are damaged or lack files
    next_number: int


def state_of(client: Any, job: Any) -> Optional[Dict[str, Any]]:
    """The state of a job, or None if there is none of this name."""
    try:
        found: Dict[str, Any] = job.state()
    except client.Failed as error:
        if error.status != 404:
            raise
        return None
    return found


def is_making(state: Dict[str, Any]) -> bool:
    return bool(state["settings"] == MAKING)


def is_used(state: Dict[str, Any]) -> bool:
    """Whether a job has anything. An engine that starts over an empty database opens one, and ends where it finds another marker."""
    return "id" in state["choice"] or any(state["files"][it] for it in ("in_use", "waiting", "taken")) or state["next_name"] not in (None, "1")


def make_calls(job: Any, calls: Sequence[Dict[str, Any]]) -> List[Dict[str, Any]]:
    """Makes calls of which none may be refused."""
    answers: List[Dict[str, Any]] = []
    for some in lists_of(calls, MOST_CALLS):
        answers += job.calls(some)
    wrong = next((it for it in answers if {"refused", "fenced", "no_memory", "not_made"} & set(it)), None)
    if wrong is not None:
        raise Refused(f"the service refuses a call of the import: {wrong}")
    return answers


def has_order(part: Dict[str, Any]) -> bool:
    """Whether the service was told the order of a subtask's files. A payload says so, though it is empty, and so do figures; otherwise they ascend."""
    files = [int(file) for file in part["files"]]
    return any(part.get(it) for it in ("payload", "bytes", "millis")) or files != sorted(files)


def sizes_of(part: Dict[str, Any], fresh: List[int]) -> Dict[str, Any]:
    """The lengths of its new files, if they are known, and the bytes of the snapshot, if its task told them."""
    sizes = [part["files"][str(file)] for file in fresh]
    told = {"snapshot_bytes": part["bytes"]} if part.get("bytes") else {}
    return {**told, "bytes": sizes} if sizes and None not in sizes else told


class Making:
    """Makes the calls of one job."""

    def __init__(self, client: Any, job: Any) -> None:
        self.client, self.job, self.known = client, job, set()  # type: Any, Any, Set[int]

    def pass_numbers(self, next: int, end: int) -> None:
        """Uses up numbers of records that somebody was told."""
        for begin in range(next, end, MOST_CALLS // 2):
            numbers = range(begin, min(begin + MOST_CALLS // 2, end))
            make_calls(self.job, [call for it in numbers for call in (self.client.savepoint(), self.client.decline(it, "0.0"))])

    def acks(self, record: int, manifest: Dict[str, Any]) -> Iterator[Dict[str, Any]]:
        for it in manifest["subtasks"]:
            files = {int(file): size for file, size in it["files"].items()}
            fresh = [file for file in files if file not in self.known]
            reused = [file for file in files if file in self.known]
            self.known.update(fresh)
            payload = bytes.fromhex(it.get("payload", "")) if has_order(it) else None
            call = self.client.ack(record, f"{it['vertex']}.{it['index']}", fresh, reused, payload=payload, millis=it.get("millis"))
            yield {**call, **sizes_of(it, fresh)}

    def is_mixed(self, manifest: Dict[str, Any]) -> bool:
        """Whether a subtask with an order has files that no record has had behind others. The service keeps new files before others."""
        known, found = set(self.known), False
        for it in manifest["subtasks"]:
            is_known = [int(file) in known for file in it["files"]]
            known.update(map(int, it["files"]))
            found = found or (has_order(it) and is_known != sorted(is_known))
        return found

    def complete(self, record: int, manifest: Dict[str, Any]) -> None:
        """The subtasks of a record acknowledge one that was triggered, with their files in the manifest's order: if need be a savepoint has the files before."""
        before = make_calls(self.job, [self.client.savepoint()]) if self.is_mixed(manifest) else []
        for it in before:
            self.acknowledge(it["id"], manifest)
        self.acknowledge(record, manifest)
        make_calls(self.job, [self.client.dispose(it["id"]) for it in before])

    def acknowledge(self, record: int, manifest: Dict[str, Any]) -> None:
        some: List[Dict[str, Any]] = []
        weight, last = 0, {}
        for ack in self.acks(record, manifest):
            some.append(ack)
            weight += len(ack["fresh"]) + len(ack["reused"]) + len(ack.get("payload", "")) // OF_FILE
            if weight >= MOST_FILES or len(some) == MOST_CALLS:
                last, some, weight = make_calls(self.job, some)[-1], [], 0
        last = make_calls(self.job, some)[-1] if some else last
        if last.get("ack") != "completed":
            raise Refused(f"the manifest of record {record} lacks a subtask of its shape")

    def choice(self, record: int, manifest: Dict[str, Any], below: int) -> None:
        """The record that the job goes on from, under its own number, which is the first one of the new job."""
        is_savepoint = manifest["kind"] == "savepoint"
        (told,) = make_calls(self.job, [self.client.savepoint() if is_savepoint else self.client.trigger()])
        if told["id"] != record:
            raise Refused(f"the next record is {told['id']}, not {record}: another program calls")
        self.pass_numbers(record + 1, below)
        self.complete(record, manifest)
        if is_savepoint:
            make_calls(self.job, [self.client.restore(record)])

    def savepoint(self, manifest: Dict[str, Any]) -> None:
        """Another savepoint lives on, with its own shape."""
        _, told = make_calls(self.job, [self.client.restore("latest", manifest["shape"]), self.client.savepoint()])
        self.complete(told["id"], manifest)

    def names(self, below: Below) -> None:
        """Names, in a term above each that a task was told, and above each name that was given out."""
        self.job.fence(below.name)
        self.job.advance(below.term, below.name)


@dataclass(frozen=True)
class Found:
    """What the manifests of a place say."""

    record: int
    choice: Dict[str, Any]
    savepoints: List[Dict[str, Any]]
    below: Below
    passed: int


def found_in(source: Place, record: int) -> Found:
    """Chooses a record, as relkvanu_store_recover does."""
    with manifests.listed(source) as folder:
        one = manifests.chosen(source, folder, record)
        all = Store.records(folder)
    texts = {id: members(text) for id, text in manifests.manifests_of(source).items()}
    whole = [texts[it.id] for it in all if it.damage is None]
    unread = max((it.id for it in all if it.damage is not None), default=0)
    below = Below(*(max(it["below"][of] for it in whole) for of in Below._fields))
    if unread > one.id:
        is_far = unread > max(below.number, one.id) + MOST_PASSED
        if is_far or not record:
            raise StoreError("Damaged", f"{source.url}: record-{unread}.manifest is damaged or of a later version: " + (
                "its number is far above the others, so move it away if it is none of the job's" if is_far else
                "give the number of a record to go on from an earlier one"), False)
        below = below._replace(number=max(below.number, unread + 1 + SOME_NUMBERS))
    savepoints = [texts[it.id] for it in all if it.is_savepoint and it.id != one.id and it.damage is None and not it.missing]
    check_payloads(source, [texts[one.id], *savepoints])
    return Found(one.id, texts[one.id], savepoints, below, sum(it.damage is not None or it.missing != 0 for it in all))


def is_figure(it: Any) -> bool:
    return type(it) is int and 0 <= it < 1 << 63


def check_payloads(source: Place, found: List[Dict[str, Any]]) -> None:
    """Before anything changes. The library reads them when it makes a job itself."""
    for it in found:
        if not all(PAYLOAD.fullmatch(str(part.get("payload", ""))) for part in it["subtasks"]):
            raise StoreError("Damaged", f"{source.url}: record-{it['record']}.manifest has what can't be a payload", False)
        if not all(is_figure(part.get(name, 0)) for part in it["subtasks"] for name in ("bytes", "millis")):
            raise StoreError("Damaged", f"{source.url}: record-{it['record']}.manifest has what can't be bytes or milliseconds of a snapshot", False)


def forget(source: Any, identity: str) -> None:
    """Removes the manifests of an opening of a job."""
    source.of(identity)
    if isinstance(source, InBucket):
        for it in source.names():
            source.remove(it)
        return
    with contextlib.suppress(FileNotFoundError):
        shutil.rmtree(source.path / source.at)  # also what a process has left there that was killed


@contextlib.contextmanager
def locked(source: Any) -> Iterator[None]:
    """The lock of the marker keeps out discarders, and other commands of this kind. A bucket has no locks."""
    if not isinstance(source, ServiceFolder):
        yield
        return
    try:
        marker = os.open(source.path / source.marker, os.O_RDONLY | os.O_NOFOLLOW)
    except FileNotFoundError:
        raise NotThere(2, "there is no marker of the job", f"{source.url}/{source.marker}") from None
    try:
        fcntl.flock(marker, fcntl.LOCK_EX | fcntl.LOCK_NB)
        yield
    except BlockingIOError:
        raise Stop(LOOK_FIRST, f"{source.url}: a discarder works there, or another command: end it first") from None
    finally:
        os.close(marker)


class Recovery:
    """Makes a job of the service of the manifests in its place."""

    is_copy = False  # whether the old job lives on: then sinks of the new one have a target of their own, and nobody was told its numbers

    def __init__(self, client: Any, service: Any, name: str, source: Any) -> None:
        self.client, self.service, self.name, self.source = client, service, name, source
        self.job = service.job(name)

    def run(self, record: int) -> Imported:
        with locked(self.source):
            owner = identity_of(self.source.marked())
            state = self.check(owner)
            self.source.of(owner)
            found = found_in(self.source, record)
            if state is None or self.identity() != owner:
                self.open(state, owner, found)
                self.make(found)
            return self.end(found)

    def identity(self) -> str:
        return identity_of(self.job.marker()[1].encode())

    def check(self, owner: str) -> Optional[Dict[str, Any]]:
        """The state of a job that is to be made anew, or to be made whole. None: there is no job of this name."""
        state = state_of(self.client, self.job)
        if state is not None and not is_making(state):
            if self.identity() == owner:
                raise StoreError("Present", f"{self.name}: there is a job, and the place is its own", False)
            if is_used(state):
                raise StoreError("Present", f"{self.name}: there is another job of this name", False)
        return state

    def drop(self, state: Optional[Dict[str, Any]]) -> None:
        """A job that an earlier try has begun, which has keep_on_cancel, or one that has nothing. So no discarder gets a file of it."""
        if state is None:
            return
        if is_making(state):
            forget(self.source, self.identity())
        if state["mode"] != "cancelled":
            make_calls(self.job, [self.client.cancel()])
        self.service.delete(self.name, abandon=True)

    def open(self, state: Optional[Dict[str, Any]], owner: str, found: Found) -> None:
        """Opens the new job. An engine that was not ended may open one that has nothing after each drop, until it has looked at the marker and ends."""
        for _ in range(TRIES):
            self.drop(state)
            if not self.service.open(self.name, MAKING, found.choice["shape"], first=found.record).opened.settings_differ:
                return
            state = self.check(owner)
        raise StoreError("Present", f"{self.name}: an engine opens the job again and again: end it first", False)

    def make(self, found: Found) -> None:
        """All but the settings. Once the marker names the new job, an old one is refused."""
        choice = found.choice
        making = Making(self.client, self.job)
        making.choice(found.record, choice, self.next(found))
        for it in found.savepoints:
            making.savepoint(it)
        if found.savepoints:
            make_calls(self.job, [self.client.restore("latest", choice["shape"])])
        making.names(found.below)
        self.keep(found)
        self.source.write(self.source.marker, self.job.marker()[1].encode())

    def keep(self, found: Found) -> None:
        """The manifests of the new job, beside those of the old one."""
        state, sums = self.job.state(), Sums(self.source, reads=False)
        sums.note_all()
        self.source.of(self.identity())
        more = {"settings": found.choice["settings"], "origin": found.choice.get("origin", found.choice["job"])}
        for record in [it["id"] for it in state["live"] if it["done"]]:
            self.source.write(self.source.manifest(record), manifest_of(self.job, self.source, state, record, sums=sums, **more))

    def end(self, found: Found) -> Imported:
        """The manifests of the old job go. With its settings the new one is whole."""
        choice, owner = found.choice, self.identity()
        for it in {choice["job"], choice.get("origin", owner), identity_of(imported_marker(self.source.marker))} - {owner}:
            forget(self.source, it)
        self.job.set(**choice["settings"])
        return Imported(found.record, choice["kind"] == "savepoint", choice["files"], choice["bytes"], len(found.savepoints), found.passed, self.next(found))

    def next(self, found: Found) -> int:
        """Above each number that somebody was told of the job."""
        return found.record + 1 if self.is_copy else max(found.below.number, found.record + 1)


# To carry a record out of a job of the service, and into one.


def export(job: Any, source: Any, target: Place, record: int) -> Carried:
    """Carries a complete record, or that from which a restart would begin, into an empty place. The job may run meanwhile."""
    marker = job.marker()[1].encode()
    source.check_marker(marker)
    if not target.is_empty():
        raise StoreError("Present", f"{target.url}: it is there, and is not empty", False)
    source.of(identity_of(marker))
    sums = Sums(source, reads=False)
    sums.note_all()
    for _ in range(1 if record else TRIES):
        state = job.state()
        id = record or state["choice"].get("id")
        if id is None:
            raise StoreError("Absent", f"{job.name}: no record is complete", False)
        with contextlib.suppress(Gone):
            text = manifest_of(job, source, state, id, sums=sums)
            if lost := lost_of(job, source, id, text):
                raise StoreError("FileLost", f"{job.name}: record {id} is not whole: the files {lost} are not there, or have another length", False)
            size = manifests.carry_to(source, target, id, text, None)
            return Carried(id, members(text)["kind"] == "savepoint", members(text)["files"], size)
    raise StoreError("Absent", f"{job.name}: record {record} has ended, or is not complete" if record else f"{job.name}: its records end too soon", False)


def import_job(recovery: Recovery, source: Place, record: int, claim: bool) -> Imported:
    """Makes a job of a record in `source`, which an export has made, or which is the storage of a durable job. A claim fences that one before it chooses the
    record, whose files leave `source` last of all."""
    target, recovery.is_copy = recovery.source, not claim
    if not claim:
        carry_in(recovery, source, record, claim)
        return recovery.run(0)
    with source.locked():
        fenced = carry_in(recovery, source, record, claim)
        manifests.hold(source, fenced)
        manifests.mark(source, target)
        found = goes_on(recovery, source)
        manifests.leave(source, found.record, target)
    return found


def carry_in(recovery: Recovery, source: Place, record: int, claim: bool) -> Optional[manifests.Fence]:
    """The files, with a manifest of a job that is not there yet, unless an earlier try has left them. Returns the fence of a claim."""
    target = recovery.source
    marker, is_begun = target.text(), isinstance(target, InBucket) and target.read(manifests.PART) is not None
    if marker is not None and not is_begun:
        return go_on_in(target, source, identity_of(marker), claim)
    recovery.check("")
    with manifests.listed(source) as folder:
        one = manifests.chosen(source, folder, record)
    if not target.is_empty() and not is_begun:
        raise StoreError("Present", f"{target.url}: it is there, and is not empty", False)
    if claim:
        manifests.check_claim(source, one.id, target)
    fenced = manifests.fence(source) if claim else None
    owner = identity_of(imported_marker(target.marker))
    target.of(owner)
    manifests.carry(source, target, record, owner)
    return fenced


def go_on_in(target: Any, source: Place, owner: str, claim: bool) -> Optional[manifests.Fence]:
    """The files are there already. An import may have left them, and then the old job runs."""
    target.of(owner)
    record = manifests.imported(source, target)
    if record is None:
        if claim:
            manifests.leave_place(source, target)  # of a claim that was killed behind its last file
        raise StoreError("Present", f"{target.url}: it is there, and is not empty", False)
    if not claim:
        return None
    manifests.check_claim(source, record, target)
    return manifests.fence(source)


def goes_on(recovery: Recovery, source: Place) -> Imported:
    """A claim whose job may be there already, as the same call has left it."""
    try:
        return recovery.run(0)
    except StoreError as error:
        if error.name != "Present":
            raise
        marker = recovery.source.text()
        recovery.source.of(identity_of(marker))
        record = manifests.imported(source, recovery.source)
        if record is None or recovery.identity() != identity_of(marker):
            raise
        it = members(manifests.manifests_of(recovery.source)[record])
        return Imported(record, it["kind"] == "savepoint", it["files"], it["bytes"], 0, 0, it["below"]["number"])
