import sys
from threading import Thread
from relkvanu import AckCompleted, Settings, Triggered
from relkvanu.store import Store

folder, is_new = sys.argv[1], "new" in sys.argv[2:]
job = Store(f"{folder}/job.db", Settings(interval=100), [1], storage=f"{folder}/state", create=is_new)  # 100 ms; one subtask
term, count = job.report.term, 0  # a new job has its first term; the count is the state
if job.report.is_recovered:  # all tasks begin again, in a new term; calls of earlier tasks are refused
    term, record = job.restore_whole()
    if record:  # the checkpoint that the job begins from: load its files before the sweep; sinks publish what they list
        [name] = record.files_of(0, 0)
        count = int(open(f"{folder}/state/{name}", "rb").read())
        print("begins from checkpoint", record.id, "with", count)
job.sweep()  # deletes files that no checkpoint uses
Thread(target=job.discard, daemon=True).start()  # deletes released files
for _ in range(3):
    made = job.await_tick(60_000)  # a due checkpoint; None after 60 s, or if the job has failed
    if not made or not isinstance(made.reply, Triggered):
        sys.exit("no checkpoint was due")
    [name] = job.reserve(term, 1)  # a name that no file had before
    count += 1
    job.put(name, b"%d" % count)  # durable when it returns
    if isinstance(job.ack_in(term, made.reply.id, 0, 0, [name]).reply, AckCompleted):
        print("complete:", made.reply.id)  # a checkpoint: tell sinks to publish
job.stop()
