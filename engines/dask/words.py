"""words.py FOLDER PLACE TEXT SCHEDULER [new] [begin]: counts the words of a text on a Dask cluster, and puts the words of each line into a table. The driver's own
files are in FOLDER. PACE: so many seconds between two elements. SIGTERM stops the job, and `begin` begins one that has stopped."""
import logging
import os
import signal
import sqlite3
import sys
import time

import streamz
from distributed import Client

from relkvanu.daskstream import Checkpoints, Stopped, keyed
from relkvanu.outputs import Table
from where import CONNECT, coordinator_of, place_of

PARTS, LINES = 8, 20  # of the counts; of an element
PACE = float(os.environ.get("PACE", "0"))
EVERY = 1  # seconds between two checkpoints


def words(numbered):
    return [word for _, line in numbered for word in line.split()]


def lengths(numbered):
    return [(number, len(line.split())) for number, line in numbered]


def count(counts, word):
    counts[word] = counts.get(word, 0) + 1
    return counts


def letter(letters, numbered):
    """In place, too: the letters of all lines, by their sum alone."""
    letters[0] += sum(len(line) for _, line in numbered)
    return letters


def batches(text):
    def read(position):
        offset, number = position or (0, 0)
        with open(text, "rb") as lines:
            lines.seek(offset)
            while batch := [it for it in (lines.readline() for _ in range(LINES)) if it]:
                numbered = [(number + place, line.decode()) for place, line in enumerate(batch)]
                number += len(batch)
                yield numbered, (lines.tell(), number)
                time.sleep(PACE)
    return read


def database(folder):
    """How to reach the table, and how its database writes a value: SQLite's, or that of PostgreSQL at the address TABLE."""
    address = os.environ.get("TABLE", "")
    if address:
        import psycopg2
        return lambda: psycopg2.connect(address), "%s"
    return lambda: sqlite3.connect(f"{folder}/lines.db", 60), "?"


def table(folder):
    connect, mark = database(folder)
    it = connect()
    it.cursor().execute("CREATE TABLE IF NOT EXISTS lines (number BIGINT, words BIGINT)")
    it.commit()
    it.close()
    return Table(connect, f"INSERT INTO lines VALUES ({mark}, {mark})", name="lines", mark=mark)


def main(folder, url, text, scheduler, *options):
    lines, client, source = table(folder), Client(scheduler, timeout=CONNECT), streamz.Stream()
    on_workers = source.scatter()
    kept = [keyed(on_workers.map(words), count, start={}, parts=PARTS, name="words"),
            on_workers.accumulate(letter, start=[0], stream_name="letters"),
            on_workers.map(lengths).buffer(8).gather().flatten().sink(lines)]
    with Checkpoints(source, place_of(url, "words"), coordinator_of(folder, "words"), client=client, create="new" in options, every=EVERY,
                     outputs=[lines], begin="begin" in options) as checkpoints:
        signal.signal(signal.SIGTERM, lambda *_: checkpoints.ask_to_stop())
        print("begins at", checkpoints.position, flush=True)
        checkpoints.run(batches(text))
        found = [checkpoints.state(f"words-{it}") for it in range(PARTS)]
        print(f"{sum(map(len, found))} words, {sum(sum(it.values()) for it in found)} of the text, {checkpoints.state('letters')[0]} letters", flush=True)
    return kept


if __name__ == "__main__":
    logging.basicConfig(format="%(asctime)s %(message)s")
    logging.getLogger("relkvanu.daskstream").setLevel(logging.INFO)
    try:
        main(*sys.argv[1:])
    except Stopped as stopped:
        print(stopped, flush=True)
