"""The exceptions of calls. It needs no library."""
from typing import Optional, Sequence


class Error(Exception):
    """What all exceptions of this package are. The call that raised it has changed nothing."""


class Stop(Exception):
    """Why a command ends, and its exit status."""

    def __init__(self, status: int, why: str) -> None:
        super().__init__(why)
        self.status = status


class _Answered(Error):
    def __init__(self, name: str, file: Optional[int]) -> None:
        super().__init__(name, file)  # with these it is made again where it is copied or unpickled
        self.name = name
        self.file = file
        self.about = ""  # of a call of a Store: its record, subtask and term, and both terms

    def __str__(self) -> str:
        text = self.name if self.file is None else f"{self.name} {self.file}"
        return f"{text} ({self.about})" if self.about else text


class Refused(_Answered):
    """The coordinator refused the call, and nothing has changed. `name` says why, such as "NotRunning". `file` is the
    file that is to blame, if there is one."""


class Fenced(_Answered):
    """The term or the names refuse the call, and nothing has changed. `name` says why, such as "OldTerm". `file` is the file that is to
    blame, if there is one: after "Spent" and "NeverReserved". After "Spent" a task deletes no file: an accepted acknowledgement
    may have named it."""


class _Named(Error, ValueError):
    def __init__(self, name: str) -> None:
        super().__init__(name)
        self.name = name


class BadArgument(_Named):
    """A value is outside its limits, and nothing has changed. `name` says which, such as "BadShape"."""


class BadLine(_Named):
    """A line of a script can't be read, or the line of a call would be too long. Nothing has changed. `name` is the fault,
    such as "Missing". "NoCall" says that the line was read and makes no call."""


class TooShort(Error, ValueError):
    """A take line would fetch `places` files, more than it may. Nothing has changed."""

    def __init__(self, places: int) -> None:
        super().__init__(places)
        self.places = places

    def __str__(self) -> str:
        return f"the line would fetch {self.places} files"


def check_restore(savepoint: Optional[int], shape: Optional[Sequence[int]]) -> None:
    """A savepoint 0 and an empty shape are none to the library."""
    if savepoint == 0:
        raise BadArgument("no savepoint has the number 0")
    if shape is not None and len(shape) == 0:
        raise BadArgument("BadShape")


class OutOfRange(Error, OverflowError):
    """A number does not fit into the bits that the call has for it. Nothing has changed."""


class OutOfMemory(Error, MemoryError):
    """Memory ran out, and nothing has changed: make the same call again."""


class Closed(Error):
    """The coordinator was closed."""
