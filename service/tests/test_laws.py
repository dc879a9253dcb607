"""`relkvanu check --against laws`: the logs of a service and of durable jobs, and such with a changed answer, a missing call and one that stands twice."""
import json
import os
import sqlite3
import subprocess

from harness import COMMAND, PROGRAM, TOP, Server, Service, beside, folder, made_once, needed, until
from postgres import postgres
from relkvanu import SavepointTriggered, Settings
from relkvanu.store import Store
from relkvanu_service import ack, decline, deleted, dispose, forfeit, restore, savepoint, trigger, undeleted
from test_commands import KEEPING, SETTINGS
from test_damaged import Sqlite

SERVED = ("call", "seq", "job, {place}, at, record, line, what, a, b, files, ended, waiting")
DURABLE = ("log", "place", "{place}, line, what, a, b, files, chain")


def laws(at):
    """The folder of the program, built of the laws."""
    needed("coqc", "ocamlopt")
    return made_once(at, "laws", lambda path: subprocess.run([f"{TOP}/laws/program/build", path], check=True, stdout=subprocess.DEVNULL))


def checked(path, database, *more, status=0):
    environment = {**os.environ, "PATH": f"{path}:{os.environ['PATH']}"}
    words = [PROGRAM, "check", "--database", database, "--against", "laws", *more]
    told = subprocess.run(words, env=environment, stdout=subprocess.PIPE, stderr=subprocess.STDOUT, text=True, timeout=COMMAND, check=False)
    assert told.returncode == status, told
    return told.stdout


class Damages:
    """What is done to the rows of one job, and undone."""

    def __init__(self, path, database, url, kind):
        self.path, self.database, self.url = path, database, url
        self.table, self.place, self.columns = kind
        self.of = "job = 1 and " if self.table == "call" else ""

    def sql(self, *texts):
        for text in texts:
            found = self.database.sql(text.format(table=self.table, place=self.place, of=self.of))
        return found

    def move(self, above, by):
        """Two statements: no place is another one's meanwhile."""
        self.sql(f"update {{table}} set {{place}} = -{{place}} where {{of}} {{place}} > {above}", f"update {{table}} set {{place}} = {by} - {{place}} where {{place}} < 0")

    def are_told(self, at):
        """Each with its place, which has a complete acknowledgement."""
        line = self.sql(f"select line from {{table}} where {{of}} {{place}} = {at}")
        self.sql(f"update {{table}} set b = b + 3 where {{of}} {{place}} = {at}")
        told = checked(self.path, self.url, status=1)
        assert f": call {at}, {line}: the log has `ack completed " in told and ", and the definitions answer `ack completed " in told, told
        self.sql(f"update {{table}} set b = b - 3 where {{of}} {{place}} = {at}")
        self.move(at, 1)
        copied = [self.columns.format(place=it) for it in (self.place, str(at + 1))]
        self.sql(f"insert into {{table}}({copied[0]}) select {copied[1]} from {{table}} where {{of}} {{place}} = {at}")
        told = checked(self.path, self.url, status=1)
        assert f": call {at + 1}, {line}: the log has `ack completed " in told and ", and the definitions answer `fenced Spent" in told, told
        self.sql(f"delete from {{table}} where {{of}} {{place}} = {at + 1}")
        self.move(at, -1)
        assert "are as the laws have them" in checked(self.path, self.url)
        self.sql(f"delete from {{table}} where {{of}} {{place}} = {at}")
        told = checked(self.path, self.url, status=1)
        assert f": call {at} is missing" in told, told
        # the last calls, which an image has
        last = self.sql("select max({place}) from image where job = 1" if self.of else "select max({place}) from image")
        self.sql(f"delete from {{table}} where {{of}} {{place}} >= {at}")
        told = checked(self.path, self.url, status=1)
        assert f": call {at} is missing" in told and int(last) >= at, (told, last)

    def last_completed(self, upto):
        return int(self.sql(f"select max({{place}}) from {{table}} where {{of}} what = 8 and {{place}} < {upto}"))


def worked(job, rounds, first=1):
    """Records that become complete, are declined and are disposed of, and files that go."""
    for number in range(first, first + 2 * rounds, 2):
        job.calls([savepoint(), ack(number, "0.0", [number]), ack(number, "0.1", [100 + number]), trigger(), ack(number + 1, "0.1", [200 + number])])
        assert job.call(decline(number + 1, "0.0"))["decline"] == "aborted", number
        if number > 1:
            job.call(dispose(number - 2))
        for file in job.take(2):
            job.calls([undeleted(file) if file % 5 == 0 else deleted(file)])


def two_terms(job):
    """Two terms, and another shape."""
    for shape in ([1], [2]):
        names, record = job.reserve(5), job.call(savepoint())["id"]
        for index in range(shape[0]):
            job.call(ack(record, f"0.{index}", [names[index]]))
        job.call(forfeit(job.term()["term"], [names[3]]))
        job.call(restore(shape=[2]))
        job.set(interval=5000)
    job.call({"call": "cancel"})


def audited(path, database, url, args):
    """A service's log is right, while it runs too, and with each damage it is not."""
    server = Server(*args, args=KEEPING).start()
    orders = server.service.open("orders", {**SETTINGS, "tolerable": 1000}, [2])
    two_terms(server.service.open("users", SETTINGS, [1], 0, first=69))  # as one that is recovered
    worked(orders, 30)
    until(lambda: orders.state()["first"] > 1)
    told = checked(path, url).splitlines()
    assert len(told) == 2 and all(line.endswith(" images are as the laws have them") and " 0 calls" not in line for line in told), told
    assert server.stop() == 0
    [orders, users] = [json.loads(line) for line in checked(path, url, "--json").splitlines()]
    assert orders["alike"] and users["alike"] and users["job"] == "users" and orders["images"] >= 1, (orders, users)
    assert orders["calls"] > 20 and users["calls"] == int(database.sql("select count(*) from call where job = 2")), (orders, users)
    damages = Damages(path, database, url, SERVED)
    damages.are_told(damages.last_completed(database.sql("select max(seq) from image where job = 1")))
    assert checked(path, url, "--job", "users").startswith("job users: ")
    return f"{orders['calls']} and {users['calls']} calls"


def test_a_log_in_sqlite():
    with folder() as at:
        return audited(laws(at), Sqlite(f"{at}/relkvanu.db"), f"{at}/relkvanu.db", [at])


def test_a_log_in_postgresql():
    with postgres() as database, folder() as at:
        return audited(laws(at), database, database.url, [at, database.url])


def saved(job, rounds):
    """A durable job, of which a discarder deletes files."""
    term, gone = job.term().term, []
    discarder = beside(job.discard, lambda file: gone.append(file) is None)
    for number in range(1, rounds + 1):
        names = job.reserve(term, 3)
        assert job.savepoint().reply == SavepointTriggered(number)
        for index in range(2):
            job.ack_in(term, number, 0, index, [names[index]])
        job.forfeit(term, names[2:])
        if number > 1:
            job.dispose(number - 1)
    until(lambda: len(gone) == 2 * (rounds - 1), told=lambda: gone)
    job.restore(shape=[2])
    job.stop()
    discarder.join()


def test_the_log_of_a_durable_job():
    with folder() as at:
        path, job = laws(at), f"{at}/job.db"
        with Store(job, Settings(interval=1000), [2], create=True, image_calls=50) as store:
            saved(store, 40)
            assert "check its backup" in checked(path, job, status=75)
            store.backup(f"{at}/backup.db")
        told = [checked(path, it) for it in (job, f"{at}/backup.db")]
        assert all(" images are as the laws have them" in it and " 0 calls" not in it for it in told) and told[0].startswith(f"job {job}: "), told
        # a job that was looked at is opened as before
        with Store(job, Settings(interval=1000), [2]) as store:
            assert store.report.is_recovered and store.savepoint().reply == SavepointTriggered(41)
        assert "there is no job orders" in checked(path, job, "--job", "orders", status=78)
        damages = Damages(path, Sqlite(f"{at}/backup.db"), f"{at}/backup.db", DURABLE)
        damages.are_told(damages.last_completed(damages.sql("select max(place) from image")))
        return told[1].strip()


def test_the_program_of_the_laws():
    """It may not be there, or be another one; and the database may be none."""
    with folder() as at:
        sqlite3.connect(f"{at}/other").executescript("create table t(x)")
        assert "relkvanu-laws is not installed: it is the program of the package relkvanu-laws" in checked(at, f"{at}/other", status=2)
        for text, said in (("exit 3", "status: 3: "), ("echo 5 answers", "status: 0: "), ("echo no >&2; exit 2", "status: 2: no")):
            with open(f"{at}/relkvanu-laws", "w", encoding="utf-8") as it:
                it.write(f"#!/bin/sh\n{text}\n")
            os.chmod(it.name, 0o755)
            server = Server(at).start()
            Service(server.url).open("orders", SETTINGS, [1]).call(savepoint())
            assert server.stop() == 0
            assert said in checked(at, server.database, status=78)
        assert "no tables of a service" in checked(at, f"{at}/other", status=78)
        checked(at, f"{at}/none", status=75)
