"""Libraries that are loaded into a process before its own: faults of a disk, and clocks that are set."""
import mmap
import os
import signal
import struct
import subprocess
import time

from harness import TOP, made_once

SHIM = "shim"


def built(at, name):
    """Compiles faults/NAME.c, and returns the library's path."""

    def compiled(library):
        subprocess.run(["cc", "-std=gnu11", "-O1", "-shared", "-fPIC", "-o", library, f"{TOP}/faults/{name}.c", "-ldl"], check=True)
        os.chmod(library, 0o755)

    return made_once(at, f"{name}.so", compiled)


def shim(library, below, **given):
    """Words before those of a process, whose files below a path meet what faults/shim.c says."""
    named = {"IN": os.path.realpath(below), **given}
    return ["env", f"LD_PRELOAD={library}", *(f"STORE_{name.upper()}={value}" for name, value in named.items())]


class Clocks:
    """Clocks of processes whose words begin with `prefix`, or whose environment has `environment`."""

    def __init__(self, at, name="clocks"):
        path = f"{at}/{name}-set"
        with open(path, "wb") as it:
            it.write(bytes(16))
        os.chmod(path, 0o644)
        with open(path, "r+b") as it:
            self.map = mmap.mmap(it.fileno(), 16)
        self.environment = {"LD_PRELOAD": built(at, "clocks"), "CLOCKS": path}
        self.prefix = ["env", *(f"{name}={value}" for name, value in self.environment.items())]
        self.set()

    def set(self, day=0, start=0):
        """Adds seconds to the time of day, and to the time since the machine's start without suspensions."""
        self.map[:] = struct.pack("qq", int(day), int(start))


class Suspended:
    """Stops a process as a suspension of its machine does: its clock stops too, but for the one that counts suspensions. A process goes on
    when its time is a whole number of seconds."""

    def __init__(self, server, clocks):
        self.server, self.clocks, self.since = server, clocks, time.monotonic()
        server.process.send_signal(signal.SIGSTOP)

    def over(self):
        slept = int(time.monotonic() - self.since) + 1
        time.sleep(max(0.0, self.since + slept - time.monotonic()))
        self.clocks.set(start=-slept)
        self.server.process.send_signal(signal.SIGCONT)
        return slept
