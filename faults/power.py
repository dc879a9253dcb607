"""power.py: what a loss of power may leave of files, by the journal that faults/shim.c writes of processes (STORE_JOURNAL).

A file has its contents as they are and as they were synced, and the writes between. So has a folder its names. At each place of the
journal a loss may leave many trees: `Loss` names those that are tried. A test starts processes again over such a tree, and looks for what
others had been told. It also leaves out one sync after the other, as if it had not been called, and must notice that."""
import concurrent.futures
import enum
import itertools
import os
import pathlib
import random
import shutil
import struct
from typing import Callable, Dict, Iterable, Iterator, List, NamedTuple, Optional, Sequence, Set, Tuple, Union

SECTOR = 512
HEADER = struct.Struct("<IIQQ")  # struct record of shim.c
Tree = Dict[str, Optional[bytes]]  # files and folders (None), by their paths below the root


class Kind(enum.IntEnum):
    """Those of shim.c."""

    MAKES = 1
    CUTS = 2
    WRITES = 3
    CONTAINS = 4
    SYNCS = 5
    FAILS_TO_SYNC = 6
    SYNCS_FOLDER = 7
    REMOVES = 8
    RENAMES = 9
    MAKES_FOLDER = 10
    TELLS = 11
    LINKS = 12


class Loss(enum.Enum):
    """What is left of what was not synced."""

    SYNCED = "nothing"
    LATER = "later writes and names, and not the earlier ones"
    TORN = "earlier writes, the last of them up to some byte, and earlier names"
    NAMES_LOST = "all writes, and no name"
    CONTENTS_LOST = "all names, and no write"
    MIXED = "some sectors and some names"


class Record(NamedTuple):
    place: int
    kind: Kind
    path: str
    at: int
    bytes: bytes


class Write(NamedTuple):
    """Bytes that were written at a place; None: the file was cut there."""

    place: int
    at: int
    bytes: Optional[bytes]


class File:
    def __init__(self, contents: bytes = b"") -> None:
        self.now, self.kept = bytearray(contents), bytearray(contents)
        self.waiting: List[Write] = []

    def write(self, write: Write) -> None:
        written(self.now, write)
        self.waiting.append(write)

    def sync(self, until: int) -> None:
        for write in self.waiting:
            if write.place < until:
                written(self.kept, write)
        self.forget(until)

    def forget(self, until: int) -> None:
        """No later sync writes these: after a sync that failed Linux takes them as written."""
        self.waiting = [write for write in self.waiting if write.place >= until]

    def left(self, loss: Loss, chance: random.Random) -> bytes:
        if loss in (Loss.SYNCED, Loss.CONTENTS_LOST) or not self.waiting and self.now == self.kept:
            return bytes(self.kept)
        if loss is Loss.NAMES_LOST:
            return bytes(self.now)
        if loss is Loss.MIXED:
            return mixed(self.now, self.kept, chance)
        left = bytearray(self.kept)
        for write in later(self.waiting, chance) if loss is Loss.LATER else torn(self.waiting, chance):
            written(left, write)
        return bytes(left)


def written(contents: bytearray, write: Write) -> None:
    if len(contents) < write.at:
        contents.extend(bytes(write.at - len(contents)))
    if write.bytes is None:
        del contents[write.at:]
    else:
        contents[write.at:write.at + len(write.bytes)] = write.bytes


def later(changes: Sequence, chance: random.Random) -> Sequence:
    return changes[chance.randint(1, len(changes)):] if changes else changes


def torn(writes: Sequence[Write], chance: random.Random) -> Sequence[Write]:
    if not writes:
        return writes
    whole = chance.randrange(len(writes))
    last = writes[whole]
    size = len(last.bytes or b"")
    return [*writes[:whole], *([last._replace(bytes=last.bytes[:chance.randint(1, size)])] if last.bytes else [])]


def mixed(now: bytes, kept: bytes, chance: random.Random) -> bytes:
    """Of a file that was cut, what was there is there still behind the cut. One that grew may have zeros."""
    size = len(chance.choice((now, kept)))
    now, kept = bytes(now) + bytes(kept[len(now):]), bytes(kept).ljust(size, b"\0")
    return b"".join(chance.choice((now, kept))[at:at + SECTOR] for at in range(0, size, SECTOR))[:size]


class Folder:
    """Its names as they are, and as they were synced. Several names may stand for one file."""

    def __init__(self) -> None:
        self.now: Dict[str, Entry] = {}
        self.kept: Dict[str, Entry] = {}

    def begin(self, name: str, entry: "Entry") -> None:
        """A name that is durable."""
        self.now[name] = self.kept[name] = entry


class Gone:
    pass


Entry = Union[File, Folder, Gone]


class Change(NamedTuple):
    """Names of a folder: what each is from then on. One that has nothing is gone."""

    place: int
    folder: Folder
    names: Dict[str, Entry]


def parent(path: str) -> str:
    return path.rpartition("/")[0]


def last(path: str) -> str:
    return path.rpartition("/")[2]


class Disk:
    """The files below a root, which are all durable at first."""

    def __init__(self, start: Tree) -> None:
        self.root = Folder()
        self.waiting: List[Change] = []
        self.gone: Set[str] = set()  # names that were taken away, and not given again
        for path, contents in sorted(start.items()):
            self.folder(parent(path)).begin(last(path), Folder() if contents is None else File(contents))

    def folder(self, path: str) -> Folder:
        """One that is not there is nowhere: nobody finds what is in it."""
        found: Entry = self.root
        for name in path.split("/") if path else ():
            found = found.now.get(name, Gone()) if isinstance(found, Folder) else Gone()
        return found if isinstance(found, Folder) else Folder()

    def entry(self, path: str) -> Optional[Entry]:
        return self.folder(parent(path)).now.get(last(path))

    def rename(self, place: int, names: Dict[str, Entry]) -> None:
        """A folder that gets another name keeps what is in it, as it is on the disk."""
        within = {parent(path) for path in names}
        assert len(within) == 1, f"a rename to another folder: {list(names)}"
        change = Change(place, self.folder(*within), {last(path): entry for path, entry in names.items()})
        apply(change.folder.now, change)
        self.waiting.append(change)
        for path, entry in names.items():
            (self.gone.add if isinstance(entry, Gone) else self.gone.discard)(path)

    def file(self, record: Record) -> File:
        """One whose name another thread took away meanwhile is nobody's."""
        it = self.entry(record.path)
        if isinstance(it, File):
            return it
        it = File()
        if record.path not in self.gone:  # it was made by a call that was not seen
            self.rename(record.place, {record.path: it})
        return it

    def sync_folder(self, path: str, until: int) -> None:
        folder = self.folder(path)
        for change in self.waiting:
            if change.folder is folder and change.place < until:
                apply(folder.kept, change)
        self.waiting = [it for it in self.waiting if it.folder is not folder or it.place >= until]

    def make(self, record: Record) -> None:
        """Does what a record says. A file that has no name any more is nobody's."""
        kind, place = record.kind, record.place
        if kind is Kind.SYNCS_FOLDER:
            self.sync_folder(record.path, record.at)
        elif kind is Kind.MAKES:
            self.rename(place, {record.path: File()})
        elif kind is Kind.MAKES_FOLDER:
            self.rename(place, {record.path: Folder()})
        elif kind is Kind.REMOVES:
            self.rename(place, {record.path: Gone()})
        elif kind is Kind.RENAMES:
            self.rename(place, {record.path: Gone(), record.bytes.decode(): self.named(record)})
        elif kind is Kind.LINKS:
            self.rename(place, {record.bytes.decode(): self.file(record)})
        elif kind is Kind.SYNCS:
            self.file(record).sync(record.at)
        elif kind is Kind.FAILS_TO_SYNC:
            self.file(record).forget(record.at)
        elif kind is not Kind.TELLS:
            self.write(self.file(record), record)

    def named(self, record: Record) -> Entry:
        found = self.entry(record.path)
        return found if isinstance(found, Folder) else self.file(record)

    def write(self, file: File, record: Record) -> None:
        if record.kind is Kind.CONTAINS:
            file.write(Write(record.place, 0, None))
        file.write(Write(record.place, record.at, None if record.kind is Kind.CUTS else record.bytes))

    def changes(self, loss: Loss, chance: random.Random) -> Sequence[Change]:
        """Those of names that the loss leaves, beside what was synced."""
        if loss is Loss.CONTENTS_LOST:
            return self.waiting
        if loss is Loss.LATER:
            return later(self.waiting, chance)
        if loss is Loss.TORN:
            return self.waiting[:chance.randint(0, len(self.waiting))]
        return [it for it in self.waiting if chance.random() < 0.5] if loss is Loss.MIXED else []

    def left(self, loss: Loss, chance: random.Random) -> Tree:
        left: Dict[int, List[Change]] = {}
        for change in self.changes(loss, chance):
            left.setdefault(id(change.folder), []).append(change)

        def names(folder: Folder) -> Dict[str, Entry]:
            found = dict(folder.kept)
            for change in left.get(id(folder), ()):
                apply(found, change)
            return found

        return tree(self.root, names, lambda file: file.left(loss, chance))

    def whole(self) -> Tree:
        """What the end of the processes alone leaves."""
        return tree(self.root, lambda folder: folder.now, lambda file: bytes(file.now))


def apply(names: Dict[str, Entry], change: Change) -> None:
    for name, entry in change.names.items():
        if isinstance(entry, Gone):
            names.pop(name, None)
        else:
            names[name] = entry


def tree(root: Folder, names: Callable[[Folder], Dict[str, Entry]], contents: Callable[[File], bytes]) -> Tree:
    """What is below a folder. A file has one contents, whatever its names are."""
    found: Tree = {}
    known: Dict[int, bytes] = {}

    def add(folder: Folder, before: str) -> None:
        for name, entry in sorted(names(folder).items(), key=lambda it: it[0]):
            if isinstance(entry, Folder):
                found[before + name] = None
                add(entry, f"{before}{name}/")
            elif isinstance(entry, File):
                found[before + name] = known[id(entry)] if id(entry) in known else known.setdefault(id(entry), contents(entry))

    add(root, "")
    return found


class Lost(NamedTuple):
    """A loss of power: what is left of the files, what others had been told before, and what their processes alone had left."""

    loss: Loss
    place: int
    tree: Tree
    told: List[bytes]
    whole: Tree

    @property
    def has_effect(self) -> bool:
        return self.tree != self.whole

    def __str__(self) -> str:
        return f"a loss at byte {self.place} of the journal that leaves {self.loss.value}"


class Point(NamedTuple):
    """Before a record."""

    index: int
    loss: Loss


class Journal:
    """What processes did to the files below a root, which had those of the tree `start` at first."""

    def __init__(self, records: Iterable[Record], start: Optional[Tree] = None) -> None:
        self.records, self.start = list(records), start or {}

    @classmethod
    def read(cls, path: "str | pathlib.Path", root: "str | pathlib.Path", start: Optional[Tree] = None) -> "Journal":
        return cls(records(pathlib.Path(path).read_bytes(), str(root)), start)

    def points(self) -> List[Point]:
        """Each loss at each record. Without what was not synced, the last moment before a sync ends says most."""
        others = [loss for loss in Loss if loss is not Loss.SYNCED]
        found = []
        for index, record in enumerate(self.records):
            if record.kind in (Kind.SYNCS, Kind.SYNCS_FOLDER):
                found.append(Point(index, Loss.SYNCED))
            if record.kind is not Kind.TELLS:
                found += [Point(index, loss) for loss in others]
        return [*found, *(Point(len(self.records), loss) for loss in Loss)]

    def some(self, most: int, chance: random.Random) -> List[Point]:
        """So many of the points, and of each loss as many."""
        found = []
        for loss in Loss:
            of = [it for it in self.points() if it.loss is loss]
            found += chance.sample(of, min(len(of), most // len(Loss)))
        return found

    def losses(self, points: "Points", chance: random.Random, ignored: "Ignored" = lambda path: False) -> Iterator[Lost]:
        """In the order of time. Syncs of `ignored` files and folders were not called, as it were."""
        disk, told = Disk(self.start), []
        wanted = {index: list(of) for index, of in itertools.groupby(sorted(points, key=lambda it: it[0]), lambda it: it[0])}
        for index, record in enumerate([*self.records, None]):
            place = record.place if record is not None else -1
            for _, loss in wanted.get(index, ()):
                yield Lost(loss, place, disk.left(loss, chance), list(told), disk.whole())
            if record is not None and record.kind is Kind.TELLS:
                told.append(record.bytes)
            elif record is not None and not (record.kind in (Kind.SYNCS, Kind.SYNCS_FOLDER) and ignored(record.path)):
                disk.make(record)


def records(journal: bytes, root: str) -> Iterator[Record]:
    """Those of the files below the root, whose paths begin there. One that is cut at the end is left out."""
    for place, end, kind, path, at, size in whole_records(journal):
        if (kind == Kind.TELLS or below(path, root) is not None) and not path.endswith(" (deleted)"):
            given = journal[end - size:end]
            given = below(given.decode(), root).encode() if kind in (Kind.RENAMES, Kind.LINKS) else given
            yield Record(place, Kind(kind), below(path, root) or "", at, given)


def whole_records(journal: bytes) -> Iterator[Tuple[int, int, int, str, int, int]]:
    """The place, end, kind, path, and numbers of each record up to one that is cut: the threads of a process that is killed may each have
    written a part of one. That is little."""
    place = 0
    while place + HEADER.size <= len(journal):
        kind, path_len, at, size = HEADER.unpack_from(journal, place)
        end = place + HEADER.size + path_len + size
        path = journal[place + HEADER.size:place + HEADER.size + path_len].decode(errors="replace")
        if end > len(journal) or kind not in list(Kind) or "\ufffd" in path:
            break
        yield place, end, kind, path, at, size
        place = end
    assert len(journal) - place < max(len(journal) // 4, 1 << 20), f"the journal can't be read from byte {place} of {len(journal)} on"


def cut(path: "str | pathlib.Path") -> None:
    """Leaves the whole records of a journal, so that the next process adds its own behind them."""
    journal = pathlib.Path(path).read_bytes()
    os.truncate(path, max((it[1] for it in whole_records(journal)), default=0))


def settle(path: "str | pathlib.Path", root: "str | pathlib.Path", start: Optional[Tree] = None) -> None:
    """Cuts the journal behind its last whole record, and adds what a process had done, and not told yet, when it was killed. The files tell that
    which are there below the root. The next process goes on from them, so the journal has to, too."""
    cut(path)
    disk = Disk(start or {})
    for record in Journal.read(path, root, start).records:
        disk.make(record)
    told, there = disk.whole(), read_tree(root)
    with open(path, "ab", buffering=0) as to:
        for name in sorted({*told, *there}):
            if not name.endswith("-shm"):  # SQLite maps that one, and nobody sees it written
                for kind, at, given in untold(name in told, told.get(name), name in there, there.get(name)):
                    whole = f"{root}/{name}".encode()
                    to.write(HEADER.pack(kind, len(whole), at, len(given)) + whole + given)


def untold(was_there: bool, was: Optional[bytes], is_there: bool, now: Optional[bytes]) -> Iterator[Tuple[Kind, int, bytes]]:
    """What makes one file or folder of another."""
    if not is_there:
        yield from [(Kind.REMOVES, 0, b"")] if was_there else []
        return
    if not was_there:
        yield Kind.MAKES_FOLDER if now is None else Kind.MAKES, 0, b""
    was, now = was or b"", now or b""
    if len(now) < len(was):
        yield Kind.CUTS, len(now), b""
    if was[:len(now)] != now:
        others = [at for at in range(len(now)) if was[at:at + 1] != now[at:at + 1]]
        yield Kind.WRITES, others[0], now[others[0]:others[-1] + 1]


def below(path: str, root: str) -> Optional[str]:
    return "" if path == root else path[len(root) + 1:] if path.startswith(root + "/") else None


def tell(journal: "str | pathlib.Path", told: bytes) -> None:
    """Notes in the journal what somebody has been told by now."""
    with open(journal, "ab", buffering=0) as to:
        to.write(HEADER.pack(Kind.TELLS, 0, 0, len(told)) + told)


def read_tree(root: "str | pathlib.Path") -> Tree:
    root = pathlib.Path(root)
    return {str(it.relative_to(root)): None if it.is_dir() else it.read_bytes() for it in sorted(root.rglob("*"))}


def write_tree(left: Tree, root: "str | pathlib.Path") -> pathlib.Path:
    """Makes a folder with these files."""
    root = pathlib.Path(root)
    root.mkdir(parents=True, exist_ok=True)
    for path, contents in sorted(left.items()):
        if contents is None:
            (root / path).mkdir()
        else:
            (root / path).write_bytes(contents)
    return root


def lose(journal: "str | pathlib.Path", root: "str | pathlib.Path", start: Optional[Tree], loss: Loss, chance: random.Random) -> Lost:
    """Power is lost at the end of a journal: the folder has what is left."""
    pathlib.Path(journal).touch()
    it = Journal.read(journal, root, start)
    (lost,) = it.losses([(len(it.records), loss)], chance)
    shutil.rmtree(root)
    write_tree(lost.tree, root)
    return lost


Points = Sequence[Tuple[int, Loss]]
Ignored = Callable[[str], bool]


class Trials:
    """Checks what losses of power leave, each in a folder of its own, and counts them."""

    def __init__(self, work: "str | pathlib.Path", check: Callable[[Lost, pathlib.Path], None], workers: int = 3) -> None:
        self.work, self.check, self.workers = pathlib.Path(work), check, workers
        self.numbers = itertools.count(1)
        self.tried = self.with_effect = 0
        self.failed: List[str] = []

    def all(self, journal: Journal, points: Points, chance: random.Random) -> None:
        """Each of these losses does no harm."""
        self.each(journal.losses(points, chance))

    def each(self, losses: Iterable[Lost]) -> None:
        for lost, harm in self.harms(losses):
            self.tried += 1
            self.with_effect += lost.has_effect
            self.failed += [harm] if harm else []

    def control(self, name: str, journal: Journal, points: Points, chance: random.Random, ignored: Ignored) -> None:
        """If a sync is left out, a loss does harm: otherwise this test would not notice it."""
        some, part = list(points), 4 * self.workers
        chance.shuffle(some)
        for begin in range(0, len(some), part):
            if any(harm for _, harm in self.harms(journal.losses(some[begin:begin + part], chance, ignored))):
                return
        self.failed.append(f"no loss does harm without the syncs of {name}")

    def harms(self, losses: Iterable[Lost]) -> Iterator[Tuple[Lost, str]]:
        """Each loss, with what was wrong. No more are in memory than are tried at a time."""
        with concurrent.futures.ThreadPoolExecutor(self.workers) as pool:
            losses = iter(losses)
            while some := list(itertools.islice(losses, 4 * self.workers)):
                yield from zip(some, pool.map(self.attempt, some))

    def attempt(self, lost: Lost) -> str:
        folder = write_tree(lost.tree, self.work / f"lost-{next(self.numbers)}")
        try:
            self.check(lost, folder)
        except Exception as fault:
            return f"{lost}: {fault!r}"
        finally:
            # a connection of the check that is closed late deletes its -shm meanwhile
            shutil.rmtree(folder, ignore_errors=True)
        return ""

    def told(self, least: int) -> str:
        """The counts. Too few losses that took something show nothing."""
        for it in self.failed[:10]:
            print(it)
        assert not self.failed, f"{len(self.failed)} of {self.tried} losses of power did harm, or left a sync unnoticed"
        assert self.with_effect >= least, f"only {self.with_effect} of {self.tried} losses took anything"
        return f"{self.tried} losses of power, {self.with_effect} with an effect, did no harm"
