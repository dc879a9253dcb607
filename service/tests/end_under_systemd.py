"""What test_unit.py does inside the container: the procedures of the pages, on a machine that was set up as they say. Prints what
it found as JSON, or an error."""
import json
import os
import re
import shutil
import sqlite3

from harness import ENVIRONMENT, Service, save
from relkvanu_service import cancel, dispose, savepoint
from under_systemd import JOB, SERVER, SERVICE, WRITE, given, install, is_ready, procedure, property_of, run, until

FOLDER, MARKER = "/srv/orders", ".relkvanu-orders"
UNIT, TOKEN = "relkvanu-clean", "/srv/token-orders"
# How many records a job has here. The pages carry the last one out, and one before it is savepoint 12.
RECORDS = 40


def files():
    return sorted(name for name in os.listdir(FOLDER) if not name.startswith("."))


def write(name):
    save(f"{FOLDER}/state-{name}.bin", "state")


def pending(job):
    return [it["id"] for it in job.state()["live"] if not it["done"]]


def acknowledge(task, record):
    name = task.name()
    write(name)
    task.ack(record, "0.0", [name])


def worked(**settings):
    """A job beside the cleaner. Its records are 40, each with a file: savepoint 12, and checkpoints, of which
    the second waits until the savepoint is there. One more file is begun, and its task ends before it is acknowledged. Returns the job."""
    job = SERVICE.open("orders", {"interval": 10, **settings}, [1], 0)
    job.set_storage({"folder": FOLDER, "prefix": "state-", "suffix": ".bin"})
    until(lambda: os.path.exists(f"{FOLDER}/{MARKER}"))
    task, last = job.begin().session(block=100), 0
    while last < RECORDS:
        until(lambda: pending(job))
        [last] = pending(job)
        if last == 11:
            assert job.call(savepoint())["id"] == 12
            acknowledge(task, 12)
        acknowledge(task, last)
    write(task.name())
    assert property_of("ActiveState", UNIT) == "active", run("systemctl", "status", UNIT, check=False)
    return job


def is_gone():
    return SERVER.get("/v1/jobs/orders")[0] == 404


def check_the_end_of_a_job():
    worked()
    assert "job orders has ended" in given("relkvanu end orders $FILES")
    assert is_gone() and not os.listdir(FOLDER), os.listdir(FOLDER)
    return RECORDS + 1


def by_its_user(command, *words):
    """What the engine does, as the user whose files they are, who can't read what is root's."""
    told = run("setpriv", "--reuid=orders", "--clear-groups", "relkvanu", command, "orders", *words, "--folder", FOLDER, "--prefix", "state-", "--suffix", ".bin", "--token-file", TOKEN)
    return int(re.search(r"record (\d+) has a manifest", told)[1])


def check_a_lost_database():
    """The job goes on from the record that has a manifest. Its engine's user writes the next one, and the discarder deletes what that releases."""
    job = worked(retained=2)
    last = by_its_user("keep")
    given(*procedure("lost"))
    until(is_ready)
    assert is_gone() and "relkvanu.db" in os.listdir("/var/lib/relkvanu/aside")
    assert f"orders goes on from checkpoint {last}" in given(*procedure("recover"))
    assert job.state()["storage"] == {"folder": FOLDER, "prefix": "state-", "suffix": ".bin"}
    job.claim(FOLDER)
    task, before = job.begin().session(block=10), files()
    for _ in range(3):
        until(lambda: pending(job))
        [record] = pending(job)
        acknowledge(task, record)
        assert by_its_user("keep") >= record > last, (record, last)
    until(lambda: len(set(before) & set(files())) == 1)  # that of the savepoint
    shutil.rmtree("/var/lib/relkvanu/aside")
    given("relkvanu end orders $FILES")
    return last


def check_another_machine():
    """The disk of the first one is below /mnt. Then the job is made again of its manifests, over an older state."""
    job = worked(retained=2)
    last = by_its_user("keep")
    run("systemctl", "disable", "--now", "relkvanu", UNIT)
    shutil.move("/var/lib/private/relkvanu", "/mnt/var/lib/relkvanu")
    given(*procedure("other-machine"))
    until(is_ready)
    assert job.state()["choice"]["id"] == last, job.state()
    run("systemctl", "stop", UNIT)
    assert f"orders goes on from checkpoint {last}" in given(*procedure("older"))
    end("orders", FOLDER)
    run("systemctl", "start", UNIT)


def check_a_damaged_job():
    """The row of one of two jobs is damaged. It goes on from its manifest in a second service, and the first one keeps it out."""
    SERVICE.open("bills", {"interval": 1 << 40}, [1])
    worked(retained=2)
    last = by_its_user("keep")
    run("systemctl", "stop", "relkvanu")
    with sqlite3.connect("/var/lib/relkvanu/relkvanu.db") as base:
        base.execute("update job set config = 'x' || config where name = 'orders'")
    base.close()
    run("systemctl", "start", "relkvanu")
    until(is_ready)
    told = given(*procedure("look"))
    assert "a row of job has" in told and "relkvanu.db" in told and re.search(rf"^{last} ", told, re.MULTILINE), told
    assert f"orders goes on from checkpoint {last}" in given(*procedure("damaged"))
    run("systemctl", "start", UNIT)
    second = Service("http://127.0.0.1:7781", token=WRITE).job("orders")
    assert second.state()["choice"]["id"] == last and SERVER.get("/v1/jobs/orders")[2]["reason"] == "damaged"
    run("systemctl", "restart", "relkvanu-second")
    assert second.state()["choice"]["id"] == last and property_of("ActiveState", UNIT) == "active"
    end("orders", FOLDER, "--url", "http://127.0.0.1:7781")
    run("systemctl", "disable", "--now", "relkvanu-second")
    given(*procedure("lost"))
    shutil.rmtree("/var/lib/relkvanu/aside")
    run("systemctl", "start", UNIT)


def check_missing_files():
    """The file of the last checkpoint is lost. The job goes back to its savepoint, and then begins from an export of that checkpoint."""
    worked()
    given("mkdir /srv/export", "relkvanu export orders /srv/export/orders $FILES")
    number = sorted(int(re.sub(r"\D", "", name)) for name in files())[-2]  # the last one is of no record
    os.remove(f"{FOLDER}/state-{number}.bin")
    assert re.search(rf"^{RECORDS} +checkpoint.* 1: {number}$", given(*procedure("missing")), re.MULTILINE)
    assert JOB.state()["choice"] == {"kind": "savepoint", "id": 12}
    given("relkvanu cancel orders", "relkvanu delete orders --abandon", *procedure("from-export"))
    assert JOB.state()["choice"] == {"kind": "checkpoint", "id": RECORDS}
    end("orders", "/srv/new/orders")
    for path in ("/srv/export", FOLDER):
        shutil.rmtree(path)
    os.mkdir(FOLDER)
    shutil.chown(FOLDER, "orders")


def end(name, folder, *more):
    run("relkvanu", "end", name, "--folder", folder, "--prefix", "state-", "--suffix", ".bin", "--token-file", "/etc/relkvanu/write-token", *more)
    assert not os.listdir(folder), os.listdir(folder)


def check_a_job_that_keeps_its_checkpoints():
    """The end of a job is refused once it was cancelled so. Its record is carried out, and the job goes without its file, which stays until somebody deletes it."""
    job = worked(keep_on_cancel=True)
    job.call(cancel())
    given(*procedure("cancelled"))
    assert SERVICE.job("orders-2").state()["choice"]["id"] == 12
    end("orders-2", "/srv/orders-2")
    assert "so it keeps its checkpoints" in given("relkvanu end orders $FILES", status=1)
    run("systemctl", "stop", UNIT)
    given("relkvanu export orders /srv/kept/orders-40 --record 40 $FILES")
    job.call(dispose(12))
    place = ("--folder", FOLDER, "--prefix", "state-", "--suffix", ".bin", "--token-file", "/etc/relkvanu/write-token")
    run("relkvanu", "clean", "--once", "--job", "orders", *place)
    kept = files()
    assert len(kept) == 1 and sorted(os.listdir("/srv/kept/orders-40")) == sorted([kept[0][len("state-"):-len(".bin")], "record-40.manifest"]), kept
    assert "files of the job are left" in run("relkvanu", "delete", "orders", "--token-file", "/etc/relkvanu/write-token", check=False)
    given("relkvanu delete orders --abandon")
    assert is_gone() and kept == files()
    for name in os.listdir(FOLDER):
        os.remove(f"{FOLDER}/{name}")
    return len(kept)


def main():
    install()
    until(is_ready)
    run("useradd", "--system", "orders")
    for path in (FOLDER, "/srv/kept", "/mnt/var/lib"):
        os.makedirs(path)
    shutil.chown(FOLDER, "orders")
    os.environ["PYTHONPATH"] = ENVIRONMENT["PYTHONPATH"]
    save(TOKEN, f"{WRITE}\n")
    given(*procedure("clean"))
    check_another_machine()
    check_a_damaged_job()
    check_missing_files()
    told = {"recovered": check_a_lost_database(), "ended": check_the_end_of_a_job(), "kept": check_a_job_that_keeps_its_checkpoints()}
    print(json.dumps(told))


main()
