"""Jobs that are deleted, with what was kept of them; and logs that are cut by their bytes. `relkvanu end`: a job goes
with all its files, and whatever moment it is killed at, the same command goes on."""
import math
import os
import pathlib
import random
import signal
import subprocess
import time

from harness import COMMAND, PROGRAM, Server, Service, beside, caught_up, configured, folder, lease_of, needed, raised, served, served_job, sqlite, told_by, until
from postgres import postgres
from relkvanu_service import Failed, ack, cancel, deleted, dispose, savepoint
from test_images import SETTINGS, worked
from test_metrics import scraped

TABLES = ("call", "ack_size", "subtask_state", "figure", "request", "image", "summary", "past", "size", "storage", "job")
HISTORY = ("record", "file", "queue", "place", "sample", "progress")


def refused(service, name, reason, abandon=False):
    failed = raised(Failed, lambda: service.delete(name, abandon))
    assert failed.status == 409 and reason in str(failed), failed


def emptied(job):
    """Disposes of all savepoints, takes all files, and reports them."""
    job.calls([dispose(record["id"]) for record in job.state()["live"]])
    job.calls([deleted(int(row["file"])) for row in job.files(1000)["taken"]])
    while files := job.take(64):
        job.calls([deleted(file) for file in files])


def rows(path, tables, number):
    told = {table: sqlite(path, f"select count(*) from {table} where job = ?", number)[0][0] for table in tables}
    return {table: count for table, count in told.items() if count}


def ended(server, service, name):
    """A job with much in its log, its history and its metrics, that has ended; its number."""
    job = service.open(name, SETTINGS, [2], 620, storage={"folder": "/srv"})
    worked(job, 60)
    job.calls([savepoint(), ack(61, "0.0", [620], sizes=[5])])
    caught_up(job)
    until(lambda: f'job_name="{name}"' in server.get("/metrics")[2])
    refused(service, name, "the job runs")
    refused(service, name, "the job runs", abandon=True)
    job.call(cancel())
    refused(service, name, "files of the job are left")
    return job


def test_a_job_is_deleted_with_what_was_kept_of_it():
    with served(args=["--image-calls", "20", "--keep-calls", "60"]) as server:
        other = server.service.open("users", SETTINGS, [2])
        worked(other, 5)
        job = ended(server, server.service, "orders")
        emptied(job)
        until(lambda: {"call", "request", "image", "summary", "past", "job"} <= set(rows(server.database, TABLES, 2)), told=lambda: rows(server.database, TABLES, 2))
        caught_up(job)
        until(lambda: rows(f"{server.folder}/history-{server.port}", ("sample", "record"), 2))
        after, told = job.state()["seq"], []
        waits = beside(lambda: told.append(server.get(f"/v1/jobs/orders/events?after={after}&wait=60")[0]))
        assert server.service.delete("orders") and not server.service.delete("orders")
        waits.join(50)  # the poll waits for a minute
        assert told == [404], told
        assert server.get("/v1/jobs/orders")[0] == 404 and [it["name"] for it in server.service.jobs()] == ["users"]
        until(lambda: not rows(server.database, TABLES, 2), told=lambda: rows(server.database, TABLES, 2))
        until(lambda: not rows(f"{server.folder}/history-{server.port}", HISTORY, 2))
        until(lambda: 'job_name="orders"' not in server.get("/metrics")[2])
        # the same name is another job then, after a start too: no number is given twice
        for _ in range(2):
            server.again()
            assert server.get("/v1/jobs/orders")[0] == 404
        new = server.service.open("orders", SETTINGS, [2])
        assert new.state()["seq"] == len(list(new.log())) == 2 and new.file(10)["history"] is None
        worked(new, 2)
        assert sqlite(server.database, "select job, name from job order by job") == [(1, "users"), (3, "orders")]
        assert sqlite(server.database, "select job, name, is_empty from gone_job") == [(2, "orders", 1)]
        assert other.state()["seq"] > 20 and len(other.records()) == 5


def test_a_deletion_waits_for_one_sync():
    """Of SQLite's log: that of its commit. What it leaves is deleted in pieces that wait for none, so no call of another job does."""
    with folder() as at:
        trace, count = f"{at}/trace", 10
        strace = ["strace", "-D", "-f", "-y", "-o", trace, "-e", "trace=fsync,fdatasync"]  # signals go to the service
        needed("strace")
        server = Server(at, prefix=strace).start()
        jobs = [server.service.open(f"j{number}", SETTINGS, [2]) for number in range(count)]
        for job in jobs:
            job.calls([savepoint(), ack(1, "0.0", [1], sizes=[5]), ack(1, "0.1", [2]), cancel()], key="once")
            caught_up(job)

        def synced():
            with open(trace, encoding="utf-8", errors="replace") as it:
                return sum("sync(" in line and "relkvanu.db-wal>" in line for line in it)

        before = synced()
        for number in range(count):
            assert server.service.delete(f"j{number}", abandon=True)
        until(lambda: server.log().count("nothing is left of it") == count)
        wanted = synced() - before
        assert count <= wanted <= count + 1, wanted
        assert not [row for number in range(1, count + 1) for row in rows(server.database, TABLES, number)]
        return f"{wanted} for {count} deletions"


def test_a_kill_leaves_nothing_behind():
    with served_job("orders", SETTINGS, [1], args=["--image-calls", "0"]) as (server, job):
        for _ in range(8):
            job.calls([{"call": "tick"}] * 1000)
        job.call(cancel())
        caught_up(job)
        assert server.service.delete("orders")
        server.kill()
        left = rows(server.database, TABLES, 1)
        server.start()
        until(lambda: not rows(server.database, TABLES, 1))
        until(lambda: not rows(f"{server.folder}/history-{server.port}", HISTORY, 1))
        return f"it was killed with {left} left"


def test_a_standby_forgets_a_job_that_it_has():
    with postgres() as database, folder() as at:
        args = configured(at, f"lease_seconds = {lease_of(3)}\nimage_calls = 20\nkeep_calls = 0\n")
        leader, standby = Server(at, database.url, args).start(), Server(at, database.url, args)
        service = Service(leader.url)
        users, jobs = service.open("users", SETTINGS, [2]), [service.open(f"orders{number}", SETTINGS, [2]) for number in range(3)]
        for job in jobs:
            worked(job, 2)
        standby.stand_by()
        standby.process.send_signal(signal.SIGSTOP)  # it has not read what comes
        for job in jobs:
            worked(job, 20, 3)
            job.call(cancel())
            emptied(job)
            assert service.delete(job.name)
        worked(users, 3)
        until(lambda: database.sql("select min(is_empty) from gone_job") == "1")
        assert database.sql("select count(*) from call where job > 1") == "0"
        standby.process.send_signal(signal.SIGCONT)
        leader.kill()
        standby.wait_ready()
        service = Service(standby.url)
        users = service.job("users")
        assert [job["name"] for job in service.jobs()] == ["users"] and users.state()["seq"] == len(list(users.log())) + users.state()["first"] - 1
        worked(service.open("orders1", SETTINGS, [2]), 1)
        assert database.sql("select max(job) from job") == "5"


def test_the_command_deletes():
    with served_job("orders", {**SETTINGS, "keep_on_cancel": True}, [1]) as (server, job):
        job.calls([savepoint(), ack(1, "0.0", [1])])
        assert "cancel it first" in server.ask("delete", "orders", status=1)
        job.call(cancel())
        assert "1 in use, 0 waiting for deletion, 0 taken" in server.ask("delete", "orders", status=1)
        assert server.ask("delete", "orders", "--abandon", "--json") == '{"deleted":"orders"}\n'
        assert "there is no job orders" in server.ask("delete", "orders", status=1)


def test_logs_are_cut_by_their_bytes():
    text = "image_calls = 50\nkeep_calls = 1000000\nkeep_bytes = 100000\n"
    with served(text) as server:
        jobs = [server.service.open(name, SETTINGS, [1], 0) for name in ("large", "larger", "small")]
        jobs[2].calls([{"call": "tick"}] * 200)
        for round_number in range(20):
            jobs[0].calls([{"call": "tick"}] * 100)
            jobs[1].calls([{"call": "tick"}] * 200)
            if round_number % 4 == 0:
                caught_up(jobs[1])

        def kept():
            values = scraped(server)[1]
            # a job has none until the writer has answered a scrape within a second
            return [values.get(f'relkvanu_log_kept_calls{{job_name="{job.name}"}}', math.inf) for job in jobs]

        # a tick and its answer have some 50 bytes, and count as 120
        until(lambda: sum(kept()) * 120 < 160_000, 20, told=kept)
        large, larger, small = kept()
        assert small == 201 and large > 200 and larger > 200, kept()
        server.again()
        assert [job.state()["seq"] for job in jobs] == [2001, 4001, 201]
        for _ in range(5):
            jobs[0].calls([{"call": "tick"}] * 100)
            caught_up(jobs[0])
        until(lambda: sum(kept()) * 120 < 160_000, 20, told=kept)
        return f"{[int(count) for count in (large, larger, small)]} calls kept of 2000, 4000 and 200"


KILLS = int(os.environ.get("RELKVANU_ENDS", "9"))
RECORDS = 40


def state_file(at, name):
    (at / f"s-{name}.bin").write_text("state")


def has_a_job(server, at, **settings):
    """A job with savepoints, with files that wait, with garbage, and with manifests; and a file of somebody else."""
    job = Service(server.url).open("orders", {"interval": 1 << 40, "retained": 2, **settings}, [1], 0)
    at.mkdir()
    job.claim(at)
    task = job.begin().session(block=10)
    for nth in range(RECORDS):
        record, name = (job.call({"call": "savepoint"}) if nth % 10 == 0 else job.checkpoint())["id"], task.name()
        state_file(at, name)
        task.ack(record, "0.0", [name])
    state_file(at, task.name())
    (at / "note").write_text("of another program")
    told = told_by("keep", "orders", *place_of(server, at))
    assert told[0] == 0 and len(list((at / ".relkvanu.records").glob("*/*"))) == RECORDS // 10 + 2, told
    return job


def place_of(server, at):
    return ["--url", server.url, "--folder", str(at), "--prefix", "s-", "--suffix", ".bin"]


def ends(server, at):
    return subprocess.run([PROGRAM, "end", "orders", *place_of(server, at)], stdout=subprocess.PIPE, stderr=subprocess.STDOUT, text=True, timeout=COMMAND, check=False)


def is_gone(server, at):
    assert server.get("/v1/jobs/orders")[0] == 404 and [it.name for it in at.iterdir()] == ["note"], list(at.iterdir())


def test_an_end():
    with served() as server:
        at = pathlib.Path(server.folder) / "state"
        has_a_job(server, at, keep_on_cancel=True)
        told = ends(server, at)
        assert told.returncode == 0 and "job orders has ended" in told.stdout, told
        is_gone(server, at)
        told = ends(server, at)
        assert told.returncode == 0, told  # there is nothing more
        # the name and the folder are free
        (at / "note").unlink()
        at.rmdir()
        job = has_a_job(server, at, keep_on_cancel=True)
        job.call(cancel())
        told = ends(server, at)
        assert told.returncode == 1 and "keeps its checkpoints" in told.stdout and job.state()["files"]["in_use"] > 0, told


def test_an_end_with_a_file_that_nobody_knows():
    with served() as server:
        at = pathlib.Path(server.folder) / "state"
        job = has_a_job(server, at)
        state_file(at, 1 << 40)
        told = ends(server, at)
        assert told.returncode == 3 and "unissued" in told.stdout and job.state()["mode"] == "cancelled", told
        (at / f"s-{1 << 40}.bin").unlink()
        assert ends(server, at).returncode == 0
        is_gone(server, at)


def test_an_end_that_is_killed():
    chance, kills = random.Random(os.environ.get("SEED", "1")), 0
    with served() as server:
        at = pathlib.Path(server.folder) / "state"
        for _ in range(3):
            has_a_job(server, at)
            for nth in range(KILLS // 3):
                # its commands go with it
                with subprocess.Popen([PROGRAM, "end", "orders", *place_of(server, at)], stdout=subprocess.DEVNULL, stderr=subprocess.DEVNULL, start_new_session=True) as it:
                    time.sleep(chance.random() * 0.04 * (nth + 1))
                    os.killpg(it.pid, signal.SIGKILL)
                kills += it.returncode == -signal.SIGKILL
                try:
                    Service(server.url).job("orders").state()
                except Failed:
                    break
            told = ends(server, at)
            assert told.returncode == 0, told
            is_gone(server, at)
            (at / "note").unlink()
            at.rmdir()
        assert kills, "each came to its end"
        return f"{kills} kills"
