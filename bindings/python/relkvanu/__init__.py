"""The coordinator of a stream processor's checkpoints, over the shared library.

librelkvanu.so.0 comes from the folder that RELKVANU_LIB names. Otherwise it is beside this file, where an installation puts it, or
the system's loader finds it. It is loaded with the first name that needs it, as by `from relkvanu import Coordinator`, which raises
ImportError if there is none. relkvanu.storage, relkvanu.s3 and relkvanu.parts need none. docs/RULES.md says what each call does, and when it is
refused. All exceptions of the package are an Error.
"""
import importlib
from typing import TYPE_CHECKING, Any

from relkvanu.errors import Error
from relkvanu.keys import group_of
from relkvanu.reads import Chosen, FileCounts, Garbage, Kind, Live, Mode, RunningTerm, Standing
from relkvanu.replies import Forfeited, Named, Reply, Reserved, Shown, Taken
# bindings/generate makes the import of replies
from relkvanu.replies import (
    AckCompleted, AckLate, AckPending, Cancelled, Configured, Counted, DeclineAborted, DeclineFailed, DeclineLate, Deleted,
    Disposed, Failed, HeldAtOnce, HeldInterval, HeldPause, RestoredCheckpoint, RestoredFresh, RestoredSavepoint,
    SavepointTriggered, Triggered, Undeleted,
)
# bindings/generate: end

if TYPE_CHECKING:
    from relkvanu import calls, lines
    from relkvanu.aligner import Abandon, Aligner, BadStep, Cut, Step
    from relkvanu.coordinator import (
        BadArgument, BadLine, Closed, Coordinator, Fenced, OutOfMemory, OutOfRange, Refused, Settings, TooShort, Unknown, version,
    )
    from relkvanu.discarder import Discarded, Discarder, Outbox, Patience
else:
    def __getattr__(name: str) -> Any:
        """What needs the library, at its first use."""
        if name in ("aligner", "calls", "coordinator", "discarder", "lines"):
            return importlib.import_module(f"relkvanu.{name}")
        if name not in __all__:
            raise AttributeError(f"module 'relkvanu' has no attribute {name!r}")
        for module in ("coordinator", "discarder", "aligner"):
            found = getattr(importlib.import_module(f"relkvanu.{module}"), name, None)
            if found is not None:
                globals()[name] = found
                return found
        raise AttributeError(f"module 'relkvanu' has no attribute {name!r}")

    def __dir__() -> "list[str]":
        return sorted({*globals(), *__all__})

__all__ = [
    "Abandon", "Aligner", "BadArgument", "BadLine", "BadStep", "Chosen", "Closed", "Coordinator", "Cut", "Discarded", "Discarder",
    "Error", "Fenced", "FileCounts", "Forfeited", "Garbage", "Kind", "Live", "Mode", "Named", "OutOfMemory", "OutOfRange", "Outbox",
    "Patience", "Refused", "Reply", "Reserved", "RunningTerm", "Settings", "Shown", "Standing", "Step", "Taken", "TooShort", "Unknown",
    "calls", "group_of", "lines", "version",
]
# bindings/generate makes the names of replies
__all__ += [
    "AckCompleted", "AckLate", "AckPending", "Cancelled", "Configured", "Counted", "DeclineAborted", "DeclineFailed",
    "DeclineLate", "Deleted", "Disposed", "Failed", "HeldAtOnce", "HeldInterval", "HeldPause", "RestoredCheckpoint",
    "RestoredFresh", "RestoredSavepoint", "SavepointTriggered", "Triggered", "Undeleted",
]
# bindings/generate: end
