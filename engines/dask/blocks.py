"""blocks.py FOLDER PLACE STEPS SCHEDULER [new] [begin]: an iteration over an array, a dataframe, a bag, a delayed value and a list. A step changes a
quarter. SIGTERM stops the job, and `begin` begins one that has stopped."""
import os
import signal
import sys
import time

import dask
import dask.array as da
import dask.bag as db
import dask.dataframe as dd
import numpy
import pandas
from distributed import Client

from relkvanu.dask import Checkpoints, Stopped
from where import CONNECT, coordinator_of, place_of

BLOCKS = 16
SIZE = 20000  # numbers in a block
PACE = float(os.environ.get("PACE", "0"))


def first(it):
    return numpy.full(SIZE, it, dtype=numpy.int64)


def more(it, by):
    return it + by


def init():
    array = da.concatenate([da.full((SIZE,), it, dtype=numpy.int64, chunks=SIZE) for it in range(BLOCKS)])
    frame = dd.from_pandas(pandas.DataFrame({"a": range(100)}), npartitions=4)
    bag = db.from_sequence(range(100), npartitions=4)
    blocks = [dask.delayed(first)(it) for it in range(BLOCKS)]
    return 0, {"x": array, "frame": frame, "bag": bag, "sum": dask.delayed(more)(0, 0), "blocks": blocks}


def step(number, x, frame, bag, sum, blocks):
    if number == LAST:
        return None
    time.sleep(PACE)
    number += 1
    parts = [x.blocks[it] + number if it % 4 == number % 4 else x.blocks[it] for it in range(BLOCKS)]
    blocks = [dask.delayed(more)(it, number) if place % 4 == number % 4 else it for place, it in enumerate(blocks)]
    if number % 10 == 0:
        frame, bag = frame.assign(a=frame.a + 1), bag.map(more, 1)
    return number, {"x": da.concatenate(parts), "frame": frame, "bag": bag, "sum": dask.delayed(more)(sum, number), "blocks": blocks}


def check(steps, x, frame, bag, sum, blocks):
    want = [place + builtin_sum(by for by in range(1, steps + 1) if by % 4 == place % 4) for place in range(BLOCKS)]
    whole = x.compute()
    assert [{*whole[place * SIZE:(place + 1) * SIZE]} for place in range(BLOCKS)] == [{it} for it in want]
    assert [{*it.result()} for it in blocks] == [{it} for it in want]
    assert list(frame.a.compute()) == [it + steps // 10 for it in range(100)]
    assert bag.compute() == [it + steps // 10 for it in range(100)]
    assert sum.compute() == steps * (steps + 1) // 2


builtin_sum = sum


def main(folder, url, scheduler, *options):
    client = Client(scheduler, timeout=CONNECT)
    with Checkpoints(client, place_of(url, "blocks"), coordinator_of(folder, "blocks"), create="new" in options, begin="begin" in options) as checkpoints:
        signal.signal(signal.SIGTERM, lambda *_: checkpoints.ask_to_stop())
        taken = checkpoints._taken

        def told(meta, collections):
            saved = taken(meta, collections)
            print(f"step {meta}: record {saved.id}, {saved.written} of {saved.written + saved.reused} parts written", flush=True)
            return saved

        checkpoints._taken = told
        number, found = checkpoints.run(step, init)
        check(number, **found)
    print("exact", number, flush=True)


if __name__ == "__main__":
    folder, url, steps, *words = sys.argv[1:]
    LAST = int(steps)
    try:
        main(folder, url, *words)
    except Stopped as stopped:
        print(stopped, flush=True)
