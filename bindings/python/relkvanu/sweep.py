"""Deletes the garbage of a storage: the files whose names a coordinator gave out, and that nobody will ever use. It may run at any time, beside
tasks, beside another sweeper, or late, since garbage stays garbage for good. For coordinators with names alone."""
from dataclasses import dataclass, field
from typing import Any, Callable, Dict, Iterator, Sequence

from relkvanu.errors import Error
from relkvanu.reads import Garbage
from relkvanu.storage import PAGE, SizedStorage

# Of a list of files: which are garbage, and which have names that were not given out. A coordinator whose calls are durable has to answer.
Ask = Callable[[Sequence[int]], Garbage]


@dataclass(frozen=True)
class Page:
    """What was found on a page of the listing, each with its bytes, and which of the garbage may be there still."""

    listed: int
    garbage: Dict[int, int]
    unissued: Dict[int, int]
    failed: Dict[int, str] = field(default_factory=dict)


@dataclass
class Swept:
    """The sums of a sweep. `deleted` files are gone for good; `failed` may be there still, each with the reason."""

    listed: int = 0
    garbage: int = 0
    garbage_bytes: int = 0
    deleted: int = 0
    unissued: int = 0
    failed: Dict[int, str] = field(default_factory=dict)

    def add(self, page: Page, delete: bool) -> None:
        self.listed += page.listed
        self.garbage += len(page.garbage)
        self.garbage_bytes += sum(page.garbage.values())
        self.deleted += len(page.garbage) - len(page.failed) if delete else 0
        self.unissued += len(page.unissued)
        self.failed.update(page.failed)


def pages(storage: SizedStorage, ask: Ask, delete: bool = False, most: int = PAGE) -> Iterator[Page]:
    """Sweeps page by page. Raises StorageError if the storage is not there, is another job's, or was not listed to its end."""
    storage.check()
    for sizes in storage.sizes(most):
        told = ask(list(sizes))
        strangers = {*told.garbage, *told.unissued} - set(sizes)
        if strangers:
            raise Error(f"the answer has file {min(strangers)}, which was not in the question")
        garbage = {file: sizes[file] for file in told.garbage}
        failed = storage.delete(list(garbage)) if delete and garbage else {}
        yield Page(len(sizes), garbage, {file: sizes[file] for file in told.unissued}, failed)


def sweep(storage: SizedStorage, ask: Ask, delete: bool = False) -> Swept:
    """Finds the garbage of a storage, and deletes it if `delete` says so. Files whose names were never given out are counted, and not
    touched. `ask` is the `garbage` of a coordinator whose calls are durable, or of_service()."""
    swept = Swept()
    for page in pages(storage, ask, delete):
        swept.add(page, delete)
    return swept


def of_service(job: Any) -> Ask:
    """Asks a job of the service (relkvanu_service.Job), which answers from what is committed."""

    def ask(files: Sequence[int]) -> Garbage:
        garbage, unissued = job.garbage(files)
        return Garbage(tuple(garbage), tuple(unissued))

    return ask
