"""Images of jobs: a start begins with the last one, the log is cut behind it, and nothing that was promised is lost. Also damaged
images, and databases of other versions."""
import hashlib
import re
import signal
import sqlite3
import time

from harness import (
    ACK_PENDING, SETTINGS, Archive, PgArchive, Server, Service, caught_up, check_log, configured, folder, how_ended, lease_of, raised, served, served_job, until
)
from postgres import postgres
from relkvanu_service import Gone, ack, decline, deleted, dispose, savepoint
from writers import check_kept

KEEPING = ["--image-calls", "20", "--keep-calls", "30"]


def worked(job, rounds, first=1):
    """Savepoints with three files each, of which the last two stay; of those that go one file stays taken. Six calls a round."""
    for number in range(first, first + rounds):
        job.calls([savepoint(), ack(number, "0.0", [number * 10, number * 10 + 1]), ack(number, "0.1", [number * 10 + 2])])
        if number > 2:
            job.call(dispose(number - 2))
            files = job.take(3)
            job.calls([deleted(file) for file in files[:2]])


def seen(job, files):
    """The state of a job and its history, without the current time and the log's identity, which is new after each start."""
    state = {name: value for name, value in job.state().items() if name not in ("now", "log")}
    return state, job.files(1000), job.records(), [job.record(it["id"]) for it in state["live"]], [job.file(file) for file in files]


def read_and_cut(job, least, each=20):
    """Waits until the history has read all calls, the log is cut so far, and no image or cut is under way, which a busy machine makes late. Images are
    made after so many calls, by default as often as by `KEEPING`."""
    seen_since, still = [None, time.monotonic()], lease_of(1) / 2

    def is_settled():
        it = job.state()
        image = it["image"] or {"seq": 0, "bytes": 0}
        kept = it["first"], image["seq"]
        if kept != seen_since[0]:
            seen_since[:] = kept, time.monotonic()
        is_due = it["seq"] - image["seq"] >= max(each, image["bytes"] // 100)
        return it["first"] > least and not is_due and job.files()["upto"] == it["seq"] and time.monotonic() - seen_since[1] > still

    until(is_settled)


def test_a_start_goes_from_the_last_image():
    with served(args=KEEPING) as server:
        archive, job = Archive(server.database), Service(server.url).open("orders", SETTINGS, [2])
        path, body, key = "/v1/jobs/orders/calls", {"calls": [{"call": "savepoint"}]}, [("Idempotency-Key", "early")]
        early = server.request("POST", path, body, headers=key)
        job.calls([ack(1, "0.0", [10, 11]), ack(1, "0.1", [12])])
        worked(job, 40, 2)
        job.calls([savepoint(), ack(42, "0.0", [420])])  # stays pending
        read_and_cut(job, 150)
        # written, deleted, taken, in use; the first was deleted before the log's first call
        files = [10, 350, 391, 392, 402, 412, 420]
        before, term = seen(job, files), job.term()
        assert before[4][0]["history"] is None and before[4][1]["history"]["why"] == "savepoint 35 was disposed of", before[4]
        for _ in range(2):
            server.again()
            caught_up(job)
            assert seen(job, files) == before
            assert server.replayed()[-1] <= 30 and before[0]["seq"] > 200 and job.term() == term, (server.replayed(), before[0], job.term())
        assert server.request("POST", path, body, headers=key)[2] == early[2]
        first, events = before[0]["first"], server.get("/v1/jobs/orders/events")[2]
        assert events["first"] == first and events["events"][0]["seq"] >= first, (first, events["events"][:1])
        job.call(ack(42, "0.1"))
        until(lambda: how_ended(job.record(42)) == "completed" and job.record(42)["history"]["acks"] == 2)
        read_and_cut(job, 150)  # by this call an image may be due
        whole = check_kept(archive.log("orders"), list(job.log()), job.state()["first"])
        check_log(job.state(), [2], whole)
        return f"{server.replayed()[-1]} of {len(whole)} calls made again, {first - 1} cut; a key from before the cut is answered"


def digest(row):
    """The digest of an image, by its columns."""
    job, seq, at, shape, completed, event, text = row
    completed = "None" if completed is None else f"Some({completed})"
    return hashlib.sha256(f"{job} {seq} {at} {shape} {completed} {event} {text}".encode()).hexdigest()


def test_an_image_that_is_damaged_stops_the_start():
    with served_job("orders", SETTINGS, [2], args=KEEPING) as (server, job):
        worked(job, 20)
        read_and_cut(job, 30)
        before = seen(job, [200])
        server.stop()
        base = sqlite3.connect(server.database, isolation_level=None)
        columns = "job, seq, at, shape, completed, event, text"
        row = base.execute(f"select {columns} from image order by seq desc limit 1").fetchone()
        seq, text = row[1], row[6]
        named = f"job orders, the image after call {seq}: "
        base.execute("update image set text = ? where seq = ?", (re.sub("[1-8]", lambda digit: str(int(digit[0]) + 1), text, count=1), seq))
        server.refuses(named + "its digest is not that of what it says")
        base.execute("update image set text = ?, event = event + 1 where seq = ?", (text, seq))
        server.refuses(named + "its digest is not that of what it says")
        for other in ("{}", text[:-1], text.replace('"shape":[2]', '"shape":[1]')):
            base.execute("update image set text = ?, event = ?, digest = ? where seq = ?", (other, row[5], digest((*row[:6], other)), seq))
            server.refuses(named + "the library refuses it: BadImage")
        # by the remedy that the message names
        base.execute("delete from image where seq = ?", (seq,))
        server.start()
        read_and_cut(job, 30)  # and one is made in its place
        after = seen(job, [200])
        # this image is later, and with it the cut, so files that were deleted long ago may be forgotten
        was = {**before[1], "deleted": before[1]["deleted"][:len(after[1]["deleted"])]}
        assert after[0]["image"] is not None and after[1:] == (was, *before[2:]), (before, after)
        job.calls([savepoint(), ack(21, "0.0")])
        server.stop()
        image = base.execute("select max(seq) from image").fetchone()[0]
        # calls after the image are made again, and compared
        place, was = base.execute("select seq, a from call where seq > ? and what = ? order by seq limit 1", (image, ACK_PENDING)).fetchone()
        base.execute("update call set a = 7 where seq = ?", (place,))
        server.refuses(f'job orders, call {place} ')
        base.execute("update call set a = ? where seq = ?", (was, place))
        base.execute("delete from call where seq = ?", (place - 1,))
        server.refuses(f"call {place - 1} is missing")


def test_databases_of_other_versions():
    """Those of a newer program are refused, and stay as they are. Those of an older one are read."""
    with served(args=KEEPING) as server:
        Service(server.url).open("orders", SETTINGS, [2], 0).call(savepoint())
        server.stop()
        base = sqlite3.connect(server.database, isolation_level=None)
        for version in (3, 99):
            base.executescript(f"pragma user_version = {version};")
            server.refuses(f"the tables of the database have version {version}, and this program knows those up to 2")
        base.executescript("drop table storage; pragma user_version = 1;")  # of a program before that table
        server.start()
        assert Service(server.url).job("orders").state()["seq"] == 2
    with postgres() as database, served(database=database.url, args=KEEPING) as server:
        Service(server.url).open("orders", SETTINGS, [2], 0).call(savepoint())
        server.stop()
        assert database.sql("select number from schema_version") == "2"
        database.sql("update schema_version set number = 3")
        server.refuses("the tables of the database have version 3")
        database.sql("drop table storage; update schema_version set number = 1")
        server.start()
        assert Service(server.url).job("orders").state()["seq"] == 2


def test_a_standby_that_is_slower_than_the_cuts():
    with postgres() as database, folder() as at:
        servers = [Server(at, database.url, configured(at, f"lease_seconds = {lease_of(3)}\nimage_calls = 20\nkeep_calls = 0\n")) for _ in range(2)]
        leader, standby = servers[0].start(), servers[1].start(ready=False)
        archive, job = PgArchive(database), Service(leader.url).open("orders", SETTINGS, [2])
        worked(job, 2)
        until(lambda: "follows jobs=" in standby.log())
        standby.process.send_signal(signal.SIGSTOP)
        worked(job, 30, 3)
        read_and_cut(job, 100)
        before = {name: value for name, value in job.state().items() if name not in ("now", "log", "first", "image")}
        standby.process.send_signal(signal.SIGCONT)
        leader.kill()
        standby.wait_ready()
        job = Service(standby.url).job("orders")
        after = {name: value for name, value in job.state().items() if name not in ("now", "log", "first", "image")}
        assert after == before, (before, after)
        worked(job, 3, 33)
        read_and_cut(job, 100)
        whole = check_kept(archive.log("orders"), list(job.log()), job.state()["first"])
        check_log(job.state(), [2], whole)
        return f"{len(whole)} calls; it went on from an image"


def late(job, calls):
    """Makes so many calls that change nothing. The log has each."""
    for _ in range(0, calls, 500):
        job.calls([ack(1, "0.0", [])] * 500)


def test_a_log_that_is_cut_while_it_is_read():
    """A reader has the first page. What is cut before it asks for the next one is missed with an error, and not in silence."""
    with served_job("orders", SETTINGS, [1], args=["--image-calls", "2000", "--keep-calls", "100"]) as (server, job):
        job.calls([savepoint(), decline(1, "0.0")])
        late(job, 1500)
        reader = job.log()
        read = [next(reader)["seq"] for _ in range(1000)]
        late(job, 5000)
        first = until(lambda: max(job.state()["first"] - 1001, 0)) + 1001
        missed = raised(Gone, lambda: next(reader))
        assert read == list(range(1, 1001)), (read[-1], missed, first)
        assert (missed.reason, missed.first >= first) == ("cut", True), (missed.reason, missed.first, first)
        until(lambda: reads_whole(job))
        return f"the log began with call {missed.first} when call 1001 was asked for"


def reads_whole(job):
    """Whether a reader gets each call that the log has. While it is still cut, a page may be gone, or the first call another."""
    try:
        return [entry["seq"] for entry in job.log()] == list(range(job.state()["first"], job.state()["seq"] + 1))
    except Gone:
        return False
