"""stopped.py SCHEDULER [new|begin]: first.py with a stop: SIGTERM stops the job with a savepoint, and `begin` begins it again."""
import signal
import sys

from distributed import Client

from first import init, step
from relkvanu.dask import Checkpoints, Stopped

if __name__ == "__main__":
    try:
        with Checkpoints(Client(sys.argv[1]), "state", "first.db", create="new" in sys.argv, begin="begin" in sys.argv) as checkpoints:
            signal.signal(signal.SIGTERM, lambda *_: checkpoints.ask_to_stop())
            number, found = checkpoints.run(step, init)
            print(number, found["x"].sum().compute())
    except Stopped as stopped:
        print(stopped)
