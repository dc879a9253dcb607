"""runner_engine.py COORDINATOR FILES SINK [SOCKET]: the engine of examples/python/count.py. COORDINATOR is the addresses of a service, or the file of a durable coordinator,
FILES a folder or s3://BUCKET/PREFIX, SINK a folder for files, or the database of SQLite or PostgreSQL with a table `lines`."""
import os
import sqlite3
import sys

from count import Engine
from relkvanu import Settings, runner
from relkvanu.outputs import Files, Table
from relkvanu.state import storage_of

INTERVAL, SHAPE = 60, [1, 1, 1]


def s3_of(url):
    if not url.startswith("s3://"):
        return None
    from relkvanu.s3 import client

    return client(os.environ["S3_ENDPOINT"], os.environ["S3_REGION"])


def job_of(coordinator, files):
    """The job, and its files if they are not the folder of a store."""
    if coordinator.startswith("http"):
        from relkvanu.job_of_service import ServiceJob
        from relkvanu_service import Service

        job = ServiceJob(Service(*coordinator.split(","), patience=600).open("count", {"interval": INTERVAL, "tolerable": 100}, SHAPE))
        return job, storage_of(job, files, s3_of(files))
    from relkvanu.store import Store

    settings, folder = Settings(interval=INTERVAL, tolerable=100), None if files.startswith(("s3:", "foreign:")) else files
    job = Store(coordinator, settings, SHAPE, storage=folder, create=not os.path.exists(coordinator), patience=5000)
    return job, None if folder else storage_of(job, files.removeprefix("foreign:"), s3_of(files))


def sink_of(to):
    if os.path.isdir(to):
        return Files(to)
    if not to.startswith("postgres:"):
        return Table(lambda: sqlite3.connect(to, 60), "INSERT INTO lines VALUES (?, ?)")
    import psycopg2

    return Table(lambda: psycopg2.connect(to), "INSERT INTO lines VALUES (%s, %s)", mark="%s")


if __name__ == "__main__":
    job, files = job_of(*sys.argv[1:3])
    engine = Engine(job, sink_of(sys.argv[3]), files)
    if sys.argv[4:]:
        engine.runner.commands, engine.runner.waits = sys.argv[4], True
        runner.MOST_PAYLOAD = 0  # each state is a file: operators look for these
    engine.runner.patience = float(os.environ.get("RELKVANU_PATIENCE", "600"))
    engine.runner.begin_job()
    engine.runner.stop_at_signals()
    print(engine.runner.run().name)
