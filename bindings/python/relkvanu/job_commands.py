"""What the verbs of `python3 -m relkvanu` do with a durable job, whose storage may be in a bucket."""
import argparse
import itertools
import pathlib
import shutil
import tempfile
from typing import Any, Dict, List, Optional, Sequence

from relkvanu import manifests
from relkvanu.coordinator import Settings
from relkvanu.places import MARKER, InFolder
from relkvanu.reads import Kind, Live, Mode
from relkvanu.service_commands import place_of
from relkvanu.store import Store, StoreError


def records(given: argparse.Namespace) -> None:
    if given.backup is None:
        manifests.show_all(place_of(given, given.job), given.whole)
    else:
        show_backup(given.backup, given.job)


def recover(given: argparse.Namespace) -> None:
    manifests.tell(given.job, manifests.recover(given.job, place_of(given, given.storage), given.record))


def export_(given: argparse.Namespace) -> None:
    manifests.tell_carried(given.to, manifests.export(place_of(given, given.job), place_of(given, given.to), given.record))


def import_(given: argparse.Namespace) -> None:
    begins = manifests.claim if given.claim else manifests.import_job
    manifests.tell(given.job, begins(place_of(given, given.source), given.job, place_of(given, given.storage), given.record))


def put_back(given: argparse.Namespace) -> None:
    made, aside = Store.put_back(given.backup, given.job, given.storage)
    print(f"{given.job} goes on from {'savepoint' if made.is_savepoint else 'checkpoint'} {made.record}. {aside} has what was set aside")


# To look at a backup: an opening would change both it and the storage, so a copy of it is opened, over a folder that has a copy of the marker alone.


class Backup:
    """The records of a backup, over the files that are there."""

    def __init__(self, reads: Any, live: Sequence[Live], sizes: Dict[int, int]) -> None:
        self.reads, self.sizes = reads, sizes
        self.records = [it for it in live if it.done]

    def _subtasks(self, id: int, vertex: int) -> List[Sequence[int]]:
        """The files of each subtask of the vertex in a record, which may not have it."""
        found = (self.reads.files_of(id, vertex, index) for index in itertools.count())
        return list(itertools.takewhile(lambda it: it is not None, found))

    def files(self, id: int) -> List[int]:
        vertices = itertools.takewhile(bool, (self._subtasks(id, vertex) for vertex in itertools.count()))
        return [file for subtasks in vertices for files in subtasks for file in files]

    def missing(self, id: int) -> int:
        return sum(file not in self.sizes for file in self.files(id))

    def next(self) -> Optional[int]:
        """As relkvanu_store_put_back chooses: the choice if its files are all there, or else the last savepoint of which they are. A job that was cancelled goes
        on from none."""
        if self.reads.mode() is Mode.CANCELLED:
            return None
        choice = self.reads.choice()
        if choice is not None and not self.missing(choice.id):
            return int(choice.id)
        return max((it.id for it in self.records if it.kind is Kind.SAVEPOINT and not self.missing(it.id)), default=None)

    def show(self) -> None:
        next = self.next()
        if self.records:
            print(f"{'record':<12} {'kind':<10} {'files':>10} {'bytes':>16}  state")
        for it in self.records:
            files, missing = self.files(it.id), self.missing(it.id)
            state = f"{missing} files are missing" if missing else "whole; a put-back begins from it" if it.id == next else "whole"
            kind = "savepoint" if it.kind is Kind.SAVEPOINT else "checkpoint"
            print(f"{it.id:<12} {kind:<10} {len(files):>10} {sum(self.sizes.get(file, 0) for file in files):>16}  {state}")
        if next is None:
            print("no record has all its files there: a put-back would change nothing")


def show_backup(backup: str, storage: str) -> None:
    source = InFolder(storage)
    sizes, marker = source.sizes(), source.read(MARKER)
    if marker is None:
        raise StoreError("Storage", f"{storage}: it has no marker: is the storage mounted?", False)
    with tempfile.TemporaryDirectory(prefix="relkvanu-") as name:
        copy, state = pathlib.Path(name, "copy.db"), pathlib.Path(name, "state")
        state.mkdir()
        shutil.copyfile(backup, copy)
        (state / MARKER).write_bytes(marker)
        # the job keeps its own settings and shape
        with Store(copy, Settings(interval=1000), [1], storage=state, backup=True) as job:
            live = job.live()
            with job.read() as reads:
                Backup(reads, live, sizes).show()
