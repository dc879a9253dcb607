"""A driver over Dask in the current folder, by the installed packages alone: three steps of an array, with a cluster of its own."""
import dask.array as da
from distributed import Client

import relkvanu.daskstream
import relkvanu.outputs
import relkvanu_service
from relkvanu.dask import Checkpoints

NEEDED = (relkvanu.daskstream.keyed, relkvanu.outputs.Table, relkvanu_service.Service)


def init():
    return 0, {"x": da.zeros(4, chunks=2)}


def step(number, x):
    return (number + 1, {"x": x + 1}) if number < 2 else None


if __name__ == "__main__":
    with Client(n_workers=1, threads_per_worker=1, dashboard_address=None) as client, Checkpoints(client, "state", "job.db", create=True) as checkpoints:
        checkpoints.run(step, init)
        number, found = checkpoints.load()
        print(number, found["x"].sum().compute())
