"""How busy the machine is, which tests of the durable coordinator and of the service wait by."""
import contextlib
import os


def processors():
    """How many there are, or for how many a control group gives time, if these are less: as in .ci/gate.bash."""
    count = len(os.sched_getaffinity(0))
    with contextlib.suppress(OSError), open("/sys/fs/cgroup/cpu.max", encoding="ascii") as it:
        quota, period = it.read().split()
        return count if quota == "max" else min(count, -(-int(quota) // int(period)))
    return count


def slowed():
    """How many times as long things may take as on an idle machine: twice as many as there are processes for each processor, in the last minute
    or now. So a limit that tells two things apart by their time does so where the machine is idle."""
    with open("/proc/loadavg", encoding="ascii") as it:
        load, _, _, tasks, _ = it.read().split()
    wanted = max(float(load), int(tasks.partition("/")[0]))
    return max(1.0, 2 * wanted / processors())
