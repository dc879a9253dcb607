"""back_up.py FOLDER COPY: a savepoint and a backup of the job of stored.py, which does not run now."""
import os
import sys

from relkvanu import RestoredFresh, Settings
from relkvanu.store import Store, StoreError

TASKS = 3

folder, copy = os.path.abspath(sys.argv[1]), os.path.abspath(sys.argv[2])
os.chdir(folder)
with Store("job.db", Settings(interval=10), [TASKS], storage="state") as job:
    made = job.restore()  # no task runs, so the savepoint has the files of the record that this returns
    if isinstance(made.reply, RestoredFresh):
        raise SystemExit("no record is complete yet")
    with job.read() as reads:
        files = [reads.files_of(made.reply.id, 0, index) for index in range(TASKS)]
    savepoint = job.savepoint().reply.id
    for index in range(TASKS):
        job.ack_in(made.term, savepoint, 0, index, [], files[index])
    print(f"dispose of savepoint {savepoint} when {copy} is deleted, and not before", flush=True)
    try:
        job.backup(copy)
    except StoreError:
        job.dispose(savepoint)
        raise
