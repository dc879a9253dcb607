"""Threads that delete the files that no record uses any more."""
import contextlib
import threading
import time
from dataclasses import dataclass
from typing import Callable, ContextManager, List, Optional, Protocol, Tuple

from relkvanu.coordinator import Closed, OutOfMemory, Refused
from relkvanu.replies import Taken


class Outbox(Protocol):
    """What a discarder calls: a Coordinator, or an engine's own object that makes each call through one and logs it before it
    returns."""

    def take(self, most: int) -> Taken: ...

    def deleted(self, file: int) -> object: ...

    def undeleted(self, file: int) -> object: ...


@dataclass(frozen=True)
class Patience:
    """How often and how long a discarder tries. Times are seconds."""

    threads: int = 2  # that delete at the same time
    batch: int = 64  # the most files that a thread has fetched and not reported
    attempts: Optional[int] = None  # attempts before a file is given up; None: no file is given up
    first_wait: float = 0.1  # after the first failure of a file; it doubles with each further one
    longest_wait: float = 60.0
    idle: float = 1.0  # how long a thread that found no file sleeps

    def __post_init__(self) -> None:
        if min(self.threads, self.batch, 1 if self.attempts is None else self.attempts) < 1:
            raise ValueError("threads, batch and attempts are at least 1")
        if min(self.first_wait, self.longest_wait, self.idle) < 0:
            raise ValueError("no time is negative")


@dataclass(frozen=True)
class Discarded:
    """What a discarder did. The coordinator holds a file that was given up as taken until the discarder is stopped. Then it
    is reported as not deleted, and waits for the next discarder."""

    deleted: int
    failed: int
    given_up: Tuple[int, ...]


@dataclass
class _Fetched:
    """A file that a thread has fetched, its failed attempts, the wait after the last one, and when the thread tries it again."""

    file: int
    attempts: int = 0
    wait: float = 0.0
    due: float = 0.0


class Discarder(ContextManager["Discarder"]):
    """Threads that fetch files, delete them and report each, until stop().

    `delete` deletes the file with a number, or raises OSError. Several threads call it at once, each with another file, and
    none holds the coordinator's lock. A file that does not exist (FileNotFoundError) counts as deleted, since a repeated
    acknowledgement that comes late may hand out a deleted file again. So for a storage that is not there at all, such as one that
    is not mounted, `delete` has to raise another OSError.

    A file that can't be deleted keeps no other waiting: its thread goes on with other files, and tries it again after a while.
    When its waits have become as long as they get, it is reported as not deleted, and waits behind all others.

    If `delete` raises anything but OSError, its thread ends, and the files that the thread had fetched wait again. If the
    coordinator is closed first, the threads end, and nothing is reported any more.
    """

    def __init__(self, coordinator: Outbox, delete: Callable[[int], object], patience: Patience = Patience()) -> None:
        self._coordinator, self._delete, self._patience = coordinator, delete, patience
        self._over = threading.Event()
        self._lock = threading.Lock()  # of what is counted
        self._deleted = self._failed = 0
        self._given_up: List[int] = []
        self._reported = 0  # of these, so many wait again
        self._threads = [threading.Thread(target=self._run, name="relkvanu-discarder", daemon=True) for _ in range(patience.threads)]
        for thread in self._threads:
            thread.start()

    def told(self) -> Discarded:
        """The counts so far."""
        with self._lock:
            return Discarded(self._deleted, self._failed, tuple(self._given_up))

    def stop(self) -> Discarded:
        """Ends the threads, each after its current attempt. Files that were fetched and not deleted wait again."""
        self._over.set()
        for thread in self._threads:
            thread.join()
        self._threads = []
        with self._lock:
            left, self._reported = self._given_up[self._reported :], len(self._given_up)
        for file in left:
            self._report(self._coordinator.undeleted, file)
        return self.told()

    def __exit__(self, *_: object) -> None:
        self.stop()

    def _run(self) -> None:
        """A thread: fetches and tries files until it is stopped. Those that are left then wait again."""
        files: List[_Fetched] = []
        wait = 0.0
        try:
            while not self._over.wait(wait):
                fetched = self._take(self._patience.batch - len(files))
                files += [_Fetched(file) for file in fetched]
                for it in files[:]:
                    if self._is_settled(it):
                        files.remove(it)
                wait = 0.0 if fetched else self._patience.idle
                wait = min([wait, *(max(it.due - time.monotonic(), 0.0) for it in files)])
        except Closed:
            pass
        finally:
            for it in files:
                self._report(self._coordinator.undeleted, it.file)

    def _take(self, most: int) -> Tuple[int, ...]:
        """Fetches files. A take that runs out of memory has fetched nothing."""
        with contextlib.suppress(OutOfMemory):
            return self._coordinator.take(most).files if most > 0 else ()
        return ()

    def _report(self, report: Callable[[int], object], file: int) -> None:
        """Reports a file that was fetched here. It is refused only if somebody else has reported it, and then there is nothing to
        do."""
        with contextlib.suppress(Closed, Refused):
            report(file)

    def _is_settled(self, it: _Fetched) -> bool:
        """Tries a file if it is due. Returns whether the thread has no more to do with it: it is deleted, given up, or waits behind
        all others."""
        if time.monotonic() < it.due:
            return False
        if self._is_deleted(it.file):
            return True
        it.attempts += 1
        if it.attempts == self._patience.attempts:
            with self._lock:
                self._given_up.append(it.file)
            return True
        if self._patience.attempts is None and it.attempts > 1 and it.wait >= self._patience.longest_wait:
            self._report(self._coordinator.undeleted, it.file)
            return True
        it.wait = min(max(2 * it.wait, self._patience.first_wait), self._patience.longest_wait)
        it.due = time.monotonic() + it.wait
        return False

    def _is_deleted(self, file: int) -> bool:
        """Tries a file, and reports it if it is deleted."""
        try:
            self._delete(file)
        except FileNotFoundError:
            pass
        except OSError:
            with self._lock:
                self._failed += 1
            return False
        self._report(self._coordinator.deleted, file)
        with self._lock:
            self._deleted += 1
        return True
