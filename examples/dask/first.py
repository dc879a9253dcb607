"""first.py SCHEDULER [new]: an iteration over arrays of Dask, with a checkpoint after each step."""
import sys

import dask.array as da
from distributed import Client

from relkvanu.dask import Checkpoints


def init():
    return 0, {"x": da.zeros(1_000_000, chunks=100_000)}


def step(number, x):
    return (number + 1, {"x": x + number}) if number < 50 else None


if __name__ == "__main__":
    with Checkpoints(Client(sys.argv[1]), "state", "first.db", create="new" in sys.argv) as checkpoints:
        number, found = checkpoints.run(step, init)
        print(number, found["x"].sum().compute())
