"""Waits that a signal can interrupt. Python runs the handlers of signals in the main thread, between two of its own steps, and so not while that thread
waits in C. So what may wait there is done by another thread, and the main thread waits for it in Python."""
import _thread
import threading
from sys import is_finalizing
from typing import Any, Callable, Optional

PART = 0.1  # seconds: a signal that another thread has received is looked for so often


class Task:
    """Work that is done once, in a thread of its own, whoever waits for it. If the wait is interrupted, it goes on to its end."""

    def __init__(self, work: Callable[[], Any]) -> None:
        self._work = work
        self._claim = [None]  # whoever removes the item does the work, or lets nobody do it
        self._is_done = threading.Event()
        self._result: Any = None
        self._fault: Optional[BaseException] = None

    def _run(self) -> None:
        try:
            self._claim.pop()
        except IndexError:
            return
        try:
            self._result = self._work()
        except BaseException as fault:
            self._fault = fault
        self._is_done.set()

    def start(self) -> None:
        """Begins it, if it was not begun. Where no thread can begin any more, it is done here."""
        try:
            if not is_finalizing():
                _thread.start_new_thread(self._run, ())
                return
        except RuntimeError:
            pass
        self._run()

    def is_taken_back(self) -> bool:
        """Whether it was not begun. Then it never will be."""
        try:
            self._claim.pop()
        except IndexError:
            return False
        return True

    def wait(self) -> Any:
        """Returns what the work has returned, or raises what it has raised."""
        while not self._is_done.wait(PART):
            pass
        if self._fault is not None:
            raise self._fault
        return self._result


def is_main() -> bool:
    """Whether this thread runs the handlers of signals."""
    return threading.get_ident() == threading.main_thread().ident


class Once:
    """A function of C with one argument, which is called once, however often end() is called and by whom, and however it is interrupted: map()
    takes its only item and calls the function within one step of the interpreter."""

    def __init__(self, function: Callable[[Any], Any], argument: Any) -> None:
        self._calls = map(function, iter([argument]))

    def end(self) -> None:
        next(self._calls, None)
