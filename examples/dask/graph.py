"""graph.py SCHEDULER TEXT [new]: counts the words of a text on a cluster of Dask, and puts the number of words of each line into a table, each line once."""
import sqlite3
import sys

import streamz
from distributed import Client

from relkvanu.daskstream import Checkpoints, keyed
from relkvanu.outputs import Table

LINES = 20  # of an element: an element costs some 36 tasks of Dask


def words(numbered):
    return [word for _, line in numbered for word in line.split()]


def lengths(numbered):
    return [(number, len(line.split())) for number, line in numbered]


def count(counts, word):
    counts[word] = counts.get(word, 0) + 1
    return counts


def connect():
    return sqlite3.connect("lines.db", 60)


def batches(text, position):
    """Lines with their numbers, from a position on, and the position after them."""
    offset, number = position or (0, 0)
    with open(text, "rb") as lines:
        lines.seek(offset)
        while batch := [it for it in (lines.readline() for _ in range(LINES)) if it]:
            numbered = [(number + place, line.decode()) for place, line in enumerate(batch)]
            number += len(batch)
            yield numbered, (lines.tell(), number)


def run(client, text, is_new):
    source = streamz.Stream()  # behind the client: the graph takes its event loop
    elements = source.scatter()  # from here on it runs on the workers
    counts = keyed(elements.map(words), count, start={}, parts=8, name="words")  # a state for each eighth of the keys
    table = Table(connect, "INSERT INTO lines VALUES (?, ?)")
    elements.map(lengths).buffer(8).gather().flatten().sink(table)  # each row is there once
    with Checkpoints(source, "state", "words.db", client=client, create=is_new, outputs=[table]) as checkpoints:
        checkpoints.run(lambda position: batches(text, position))
    return counts


def main(scheduler, text, *options):
    with connect() as database:
        database.execute("CREATE TABLE IF NOT EXISTS lines (number INTEGER, words INTEGER)")
    counts = run(Client(scheduler), text, "new" in options)
    print(sum(sum(it.state.result().value.values()) for it in counts), "words")


if __name__ == "__main__":
    main(*sys.argv[1:])
