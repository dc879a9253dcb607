"""small_log.py LOG: a coordinator that goes on from its log. Each run makes a checkpoint of one subtask, which has no files."""
import os
import sys

from relkvanu import Coordinator, Settings, lines

log = open(sys.argv[1], "ab+", buffering=0)
log.seek(0)
old = log.read().splitlines() or lines.opening_lines(Settings(interval=1000), [1], 0).encode().splitlines()
settings, job, start = (lines.line_says(it) for it in old[:3])  # how the coordinator was opened
core = Coordinator(settings, job.shape, start.now)
for line in old[3:]:
    core.line(line)  # the call again: the state is that of the last process
if log.tell() == 0:
    log.write(b"\n".join(old) + b"\n")


def call(line):
    answer = core.line(line.encode())  # raises if the call is refused: then it needs no line
    log.write(line.encode() + b"\n")
    os.fsync(log.fileno())
    return answer  # only now may anybody act on it


call(lines.restore_line(core.due()))  # a record that was pending when the last process ended would never complete
now = core.due()  # the moment of the next tick, in ms: an engine has a clock
record = call(lines.tick_line(now)).id
call(lines.ack_line(now + 100, record, 0, 0, []))
print(f"{len(old) - 3} calls were made again, and record {record} is complete")
