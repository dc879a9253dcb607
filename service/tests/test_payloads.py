"""What records have beside their files: payloads, figures and reasons, and the sizes that acknowledgements say: over starts, take-overs, cuts, the
ends of records and a lost history."""
import base64
import os
import time

from harness import CALL, Server, Service, caught_up, folder, lose_history, raised, served, served_job, sqlite, until
from relkvanu_service import Failed, ack, cancel, decline, deleted, dispose, restore, savepoint, trigger, undeleted
from test_images import KEEPING, read_and_cut
from test_metrics import scraped

SETTINGS = {"interval": 1 << 40, "timeout": 1 << 39, "retained": 3}
PAYLOAD = bytes(range(256)) * 16  # 4096 bytes


def rows(server, table="subtask_state"):
    """The records that have rows, each as often as it has some."""
    return [row[0] for row in sqlite(server.database, f"select {'record' if table == 'subtask_state' else 'seq'} from {table} order by 1")]


def whole(job, id):
    """The files, the payload and the figures of each subtask."""
    told = job.load(id)
    return {name: (it["files"], it["payload"], it["bytes"], it["millis"]) for name, it in told["subtasks"].items()}


def both(id, payload, first=0):
    """Both subtasks acknowledge, with a file each if there is a first one."""
    files = [[first], [first + 1]] if first else [[], []]
    return [ack(id, f"0.{index}", files[index], payload=payload + b"%d" % index) for index in range(2)]


def gone(job, id):
    return raised(Failed, lambda: job.load(id)).status == 404


def test_a_payload_is_there_as_long_as_its_record():
    with served_job("orders", SETTINGS, [2]) as (server, job):
        job.calls([savepoint(), ack(1, "0.0", [12, 11], payload=PAYLOAD, size=5, millis=7)])
        assert gone(job, 1), "it is not complete"
        job.calls([ack(1, "0.1", [14, 13], [11])])
        wanted = {"0.0": ([12, 11], PAYLOAD, 5, 7), "0.1": ([11, 13, 14], b"", 0, 0)}
        assert whole(job, 1) == wanted, whole(job, 1)
        told = job.load(1)
        assert (told["id"], told["kind"], told["shape"]) == (1, "savepoint", [2]), told
        job.call(ack(1, "0.0", [99], payload=b"late"))
        server.again()
        assert whole(job, 1) == wanted and rows(server) == [1]
        # a savepoint whose files are all in memory: the order without a payload too
        job.calls([savepoint(), ack(2, "0.0", [22, 21], payload=b""), ack(2, "0.1", payload=b"x")])
        assert whole(job, 2) == {"0.0": ([22, 21], b"", 0, 0), "0.1": ([], b"x", 0, 0)}, whole(job, 2)
        job.call(dispose(1))
        assert gone(job, 1) and rows(server) == [2, 2]
        start = job.begin(2)
        assert start.load()["subtasks"]["0.1"]["payload"] == b"x"


def test_a_load_looks_at_the_files():
    with served() as server, folder() as at:
        start = Service(server.url).open("orders", SETTINGS, [1]).begin()
        task = start.session()
        name = task.name()
        start_of = start._job.call(trigger())["id"]
        with open(f"{at}/{name}", "xb"):
            pass
        task.ack(start_of, "0.0", [name], payload=b"a state", size=3, millis=4)
        begun = start._job.begin()
        assert begun.load(at)["subtasks"]["0.0"] == {"files": [name], "sizes": [None], "payload": b"a state", "bytes": 3, "millis": 4}
        os.remove(f"{at}/{name}")
        raised(FileNotFoundError, lambda: begun.load(at))


def test_what_is_too_long_is_refused():
    with served_job("orders", SETTINGS, [2]) as (server, job):
        job.call(savepoint())
        before = job.state()["seq"]
        good = ack(1, "0.0", payload=PAYLOAD)
        for call, field in [
            (ack(1, "0.1", payload=PAYLOAD + b"x"), "payload"), ({**good, "payload": "x"}, "payload"), ({**good, "payload": 7}, "payload"),
            ({**good, "payload": base64.b64encode(b"x").decode() + "\n"}, "payload"), ({**good, "millis": -1}, "millis"), ({**good, "bytes": "7"}, "bytes"),
            ({**good, "reason": "x"}, "reason"), (decline(1, "0.0", reason="x" * 201), "reason"), (decline(1, "0.0", reason="a\0b"), "reason"),
            ({**decline(1, "0.0"), "payload": ""}, "payload"),
        ]:
            refused = raised(Failed, lambda: job.calls([good, call]))
            assert (refused.status, refused.field) == (400, f"calls[1].{field}"), refused
        assert job.state()["seq"] == before and rows(server) == [], "a request with a bad call makes none"
        assert job.calls([{"call": "ack", "id": 1, "subtask": "0.7", "payload": "eA=="}]) == [{"refused": "UnknownSubtask"}]
        assert rows(server) == []
        job.call(good)
        assert rows(server) == [1]
        raised(ValueError, lambda: ack(1, "0.1", sizes=[1], size=1))


def test_rows_go_however_a_record_ends():
    with served_job("orders", {**SETTINGS, "retained": 1, "at_once": 2, "tolerable": 9}, [2]) as (server, job):
        job.calls([trigger(), *both(1, b"a")])
        assert rows(server) == [1, 1]
        # a later checkpoint completes while an earlier one is pending
        job.calls([trigger(), trigger(), both(2, b"b")[0], *both(3, b"c")])
        assert rows(server) == [3, 3], rows(server)
        job.calls([trigger(), both(4, b"d")[0]])
        assert rows(server) == [3, 3, 4]
        job.call(decline(4, "0.1", reason="no disk"))
        assert rows(server) == [3, 3]
        job.calls([savepoint(), both(5, b"e")[0], restore()])
        assert rows(server) == [3, 3]
        # what comes and goes in one request
        job.calls([savepoint(), *both(6, b"f"), dispose(6), savepoint(), *both(7, b"g")])
        assert rows(server) == [3, 3, 7, 7]
        job.call(cancel())
        assert rows(server) == [7, 7], "savepoints stay"
        job.call(dispose(7))
        assert rows(server) == []
        other = server.service.open("other", SETTINGS, [2])
        other.calls([savepoint(), both(1, b"a")[0]])
        assert rows(server) == [1]
        other.set(timeout=1)
        until(lambda: not rows(server))  # it expires


def test_a_savepoint_of_an_older_checkpoint_has_its_payloads():
    back = {**restore({"checkpoint": 1}), "accept_published": True}
    with served() as server:
        checkpoints = [trigger(), *both(1, b"a", 10), trigger(), *both(2, b"b", 20)]
        for name, requests in ("apart", [checkpoints, [back]]), ("at-once", [[*checkpoints, back]]):
            job = server.service.open(name, SETTINGS, [2])
            answers = [answer for request in requests for answer in job.calls(request)]
            assert (answers[-1]["restore"], answers[-1]["id"]) == ("savepoint", 3), (name, answers)
            wanted = {"0.0": ([10], b"a0", 0, 0), "0.1": ([11], b"a1", 0, 0)}
            assert whole(job, 3) == wanted and gone(job, 1), (name, whole(job, 3))
            server.again()
            assert whole(job, 3) == wanted, name
            job.call(cancel())
            job.call(dispose(3))
            assert gone(job, 3)
        assert rows(server) == []


def test_a_deleted_job_leaves_no_rows():
    with served_job("orders", SETTINGS, [2]) as (server, job):
        job.calls([savepoint(), *both(1, b"a"), savepoint(), decline(2, "0.0", reason="no disk"), ack(1, "0.0", size=5), cancel()])
        assert rows(server) == [1, 1] and rows(server, "figure") == [7], rows(server, "figure")
        assert server.service.delete("orders")
        until(lambda: not rows(server) and not rows(server, "figure"))


def figures(job):
    caught_up(job)
    return job.history(10)


def figured(job):
    """A checkpoint of four subtasks with pauses, a declined savepoint, and what the history has to say of both: by the log's moments."""
    job.call(trigger())
    for index, (size, millis) in enumerate([(100, 9), (20, 30), (3, 1)]):
        time.sleep(0.02 * (index + 1))
        job.call(ack(1, f"0.{index}", size=size, millis=millis))
    job.calls([savepoint(), ack(2, "0.3", payload=b"x"), decline(2, "0.1", reason="the disk of host 7 is full: ä"), decline(2, "0.0", reason="late")])
    time.sleep(0.02)
    job.calls([ack(1, "0.3", [31, 30], sizes=[5, 6]), trigger()])
    at = [entry["at"] for entry in job.log(2)]
    first = {
        "id": 1, "kind": "checkpoint", "how": "completed", "triggered": at[0], "ended": at[8], "acks": 4, "first": at[1] - at[0], "median": at[2] - at[0],
        "p99": at[8] - at[0], "slowest": at[8] - at[0], "bytes": 123, "millis": 30, "reason": None,
    }
    second = {
        "id": 2, "kind": "savepoint", "how": "declined", "triggered": at[4], "ended": at[6], "acks": 1, "first": at[5] - at[4], "median": at[5] - at[4],
        "p99": at[5] - at[4], "slowest": at[5] - at[4], "bytes": None, "millis": None, "reason": "the disk of host 7 is full: ä",
    }
    assert first["first"] < first["median"] < first["slowest"], first
    return [second, first]


def test_the_history_has_figures_and_reasons():
    with served_job("orders", SETTINGS, [4]) as (server, job):
        wanted = figured(job)
        assert figures(job) == wanted, (figures(job), wanted)
        for begin_anew in (Server.again, lose_history):
            begin_anew(server)
            assert figures(job) == wanted, (begin_anew, figures(job))
        assert job.history(1) == wanted[:1] and job.history(0) == []
        refused = raised(Failed, lambda: job.history(1001))
        assert (refused.status, refused.field) == (400, "last"), refused
        job.call(ack(3, "0.0", size=7, millis=8))
        server.kill()  # while a record is pending
        server.start()
        job.calls([ack(3, f"0.{index}", size=7, millis=index) for index in range(1, 4)])
        told = figures(job)[0]
        assert (told["id"], told["acks"], told["bytes"], told["millis"]) == (3, 4, 28, 8), told
        at = [entry["at"] for entry in job.log() if entry["record"] == 3]
        assert (told["first"], told["median"]) == (at[1] - at[0], at[2] - at[0]), (told, at)


def test_the_history_says_nothing_that_nobody_told():
    """Of a record whose tasks told one of both figures alone, the other is null; a 0 that a task told is one. What its new files have stands for the bytes."""
    with served_job("orders", SETTINGS, [2]) as (server, job):
        told = [({"millis": 9}, {"millis": 4}), ({"size": 6}, {"size": 8}), ({"size": 0}, {"millis": 0}), ({"payload": b"x"}, {}), ({"millis": 3}, {"size": 2, "millis": 1})]
        for record, (first, second) in enumerate(told, 1):
            job.calls([savepoint(), ack(record, "0.0", **first), ack(record, "0.1", **second)])
        job.calls([savepoint(), ack(6, "0.0", [61], sizes=[40]), ack(6, "0.1", millis=7)])
        wanted = [(None, 9), (14, None), (0, 0), (None, None), (2, 3), (40, 7)]
        for _ in range(2):
            found = [(it["bytes"], it["millis"]) for it in reversed(figures(job))]
            assert found == wanted, found
            lose_history(server)


def over_a_take_over(service, database):
    """Where the generator waits another process takes over."""
    job = service.open("paid", SETTINGS, [2])
    job.calls([trigger(), *both(1, b"a", 10), trigger(), ack(2, "0.0", [21, 20], payload=PAYLOAD, size=1, millis=2), ack(2, "0.1")])
    job.calls([savepoint(), *both(3, b"c"), savepoint(), both(4, b"d")[0], decline(4, "0.1", reason="no disk")])
    wanted = {"0.0": ([21, 20], PAYLOAD, 1, 2), "0.1": ([], b"", 0, 0)}
    number = database.sql("select job from job where name = 'paid'")
    counted = f"select string_agg(record::text, ' ' order by record) from subtask_state where job = {number}"
    assert whole(job, 2) == wanted and database.sql(counted) == "1 1 2 3 3", database.sql(counted)
    before = figures(job)
    yield
    assert whole(job, 2) == wanted and figures(job) == before and before[0]["reason"] == "no disk", (figures(job), before)
    answer = job.call({**restore({"checkpoint": 1}), "accept_published": True})
    assert whole(job, answer["id"]) == {"0.0": ([10], b"a0", 0, 0), "0.1": ([11], b"a1", 0, 0)}
    assert database.sql(counted) == f"3 3 {answer['id']} {answer['id']}", database.sql(counted)
    # all of it in one commit
    more = [trigger(), *both(6, b"f"), trigger(), *both(7, b"g"), {**restore({"checkpoint": 6}), "accept_published": True}]
    answer = job.calls(more)[-1]
    assert whole(job, answer["id"]) == {"0.0": ([], b"f0", 0, 0), "0.1": ([], b"f1", 0, 0)}, answer
    for id in (3, 5, answer["id"]):
        job.calls([cancel(), dispose(id)])
    assert not database.sql(counted)


def sized(job):
    """Files in use, waiting, taken and deleted. Returns what the API has to say of their bytes, and of the records'."""
    job.calls([savepoint(), ack(1, "0.0", [12, 11], sizes=[20, 100]), ack(1, "0.1", [13], sizes=[3])])
    job.calls([savepoint(), ack(2, "0.0", [21], [11], sizes=[7]), ack(2, "0.1", [14], [13])])  # nobody says how large 14 is
    job.calls([dispose(1), savepoint(), ack(3, "0.0", [31], sizes=[1 << 52])])
    assert job.take(1) == [12]
    job.calls([ack(1, "0.0", [41], sizes=[50])])  # late: it is handed out
    return {"in_use": 110 + (1 << 52), "waiting": 50, "taken": 20, "files": 6}, {1: (123, 123), 2: (7, 110), 3: (1 << 52, 1 << 52)}


def said(job):
    """What the API says."""
    caught_up(job)
    records = {record["id"]: (record["fresh_bytes"], record["full_bytes"]) for record in job.records()}
    return job.state()["bytes"], records


def file_bytes(job):
    return [job.file(number)["bytes"] for number in (11, 12, 13, 14, 21, 31, 41, 99)]


def test_sizes_outlive_starts_and_a_lost_history():
    with served_job("orders", SETTINGS, [2]) as (server, job):
        wanted = sized(job)
        files = [100, 20, 3, None, 7, 1 << 52, 50, None]
        assert said(job) == wanted and file_bytes(job) == files, (said(job), wanted)
        for begin_anew in (Server.again, lose_history):
            begin_anew(server)
            assert said(job) == wanted and file_bytes(job) == files, (begin_anew, said(job), file_bytes(job))
        assert [row["bytes"] for row in job.files()["taken"]] == [20]
        job.call(undeleted(12))
        assert job.state()["bytes"] == {**wanted[0], "waiting": 70, "taken": 0}, job.state()["bytes"]
        assert sorted(job.take(9)) == [12, 41]
        job.calls([deleted(12), deleted(41)])
        assert said(job)[0] == {**wanted[0], "waiting": 0, "taken": 0, "files": 4}
        assert job.file(12)["bytes"] == 20  # the history has it
        assert sqlite(server.database, "select count(*) from size") == [(4,)]
        values = scraped(server)[1]
        assert values['relkvanu_file_bytes{job_name="orders",state="in_use"}'] == wanted[0]["in_use"]
        assert values['relkvanu_sized_files{job_name="orders"}'] == 4
        job.call(ack(3, "0.1", [], [13]))
        until(lambda: scraped(server)[1].get('relkvanu_record_bytes{job_name="orders",kind="savepoint",of="all"}') == (1 << 52) + 3)
        assert scraped(server)[1]['relkvanu_record_bytes{job_name="orders",kind="savepoint",of="new"}'] == 1 << 52


def test_sizes_outlive_cuts():
    with served_job("orders", SETTINGS, [2], args=KEEPING) as (server, job):
        sized(job)
        for number in range(4, 44):
            job.calls([savepoint(), ack(number, "0.0", [number * 10], sizes=[number]), ack(number, "0.1", [], [13])])
            job.call(dispose(number))
            job.calls([deleted(file) for file in job.take(9)])
        job.calls([deleted(12)])
        read_and_cut(job, 150)
        before = said(job)
        assert before[0] == {"in_use": 110 + (1 << 52), "waiting": 0, "taken": 0, "files": 4}, before
        assert before[1][20] == (20, 23) and before[1][3] == (1 << 52, 1 << 52), before
        assert sqlite(server.database, "select min(seq) >= ? from ack_size", job.state()["first"]) == [(1,)]
        lose_history(server)
        assert said(job) == before and job.file(11)["bytes"] == 100, said(job)


def sizes_over_a_take_over(service, database):
    """Where the generator waits another process takes over."""
    wanted = sized(service.open("sized", SETTINGS, [2]))
    number = database.sql("select job from job where name = 'sized'")
    # the size of a file that is not there
    database.sql(f"insert into size values ({number}, 77, 5)")
    yield
    job = service.job("sized")
    assert said(job) == wanted, said(job)
    job.calls([deleted(12)])
    assert database.sql(f"select string_agg(file::text, ' ' order by file) from size where job = {number}") == "11 13 21 31 41 77"
    # what archives rely on
    columns = "select string_agg(column_name, ', ' order by ordinal_position) from information_schema.columns where table_name = 'call'"
    assert database.sql(columns) == CALL


def test_jobs_without_sizes_have_none():
    with served_job("orders", SETTINGS, [2]) as (server, job):
        job.calls([savepoint(), ack(1, "0.0", [1]), ack(1, "0.1", [2])])
        assert said(job) == ({"in_use": 0, "waiting": 0, "taken": 0, "files": 0}, {1: (None, None)})
        refused = raised(Failed, lambda: job.call(ack(1, "0.0", [5], sizes=[1, 2])))
        assert (refused.status, refused.field) == (400, "calls[0].bytes"), refused
