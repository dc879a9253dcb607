"""What an operator does to a job that runs: a checkpoint now, and other settings, over the API, the client and the commands."""
import json

from harness import Service, caught_up, raised, ran, served, served_job, until
from relkvanu_service import Failed, Fenced, Refused, ack, cancel
from test_api import DEFAULTS

NEVER = 1 << 40


def refused(make):
    return raised(Refused, make).name


def completed(job, file):
    """The number of a checkpoint that was triggered now and completed with this file."""
    made = job.checkpoint()["id"]
    job.call(ack(made, "0.0", [file]))
    return made


def test_a_changed_interval_holds_without_a_restart():
    with served_job("orders", {"interval": NEVER}, [1]) as (server, job):
        assert job.state()["due"] > NEVER and not job.state()["live"]
        told = job.set(interval=50)
        assert told["settings"] == {**DEFAULTS, "interval": 50} == job.state()["settings"], told
        assert (told["configure"], told["dropped"], told["released"], told["seq"]) == ("configured", 0, 0, 3), told
        # the timer of the service triggers by it, again and again
        for made in (1, 2, 3):
            until(lambda: [one["id"] for one in job.state()["live"] if not one["done"]] == [made])
            job.call(ack(made, "0.0", [10 + made]))
        first = list(job.log())[2]
        assert first["line"].split() == ["configure", str(first["at"]), "50", "0", "1", "600000", "0", "1", "delete"], first
        assert "configure interval=50" in server.log(), server.log()


def test_a_refused_change_changes_nothing():
    with served_job("orders", {"interval": NEVER}, [1]) as (server, job):
        bad = {"interval": 9, "pause": -1, "at_once": 65, "timeout": 0, "tolerable": 1001, "retained": 0, "keep_on_cancel": 1, "speed": 1}
        for name, value in bad.items():
            for body in ({name: value}, {"interval": 1000, name: value}):
                status, _, told = server.request("PATCH", "/v1/jobs/orders/settings", body)
                assert status == 400 and told["field"] == name and told["error"].startswith(name), (body, told)
        for body, field in (({}, "body"), ([], "body"), ({"interval": None}, "interval"), ({"interval": "30000"}, "interval")):
            status, _, told = server.request("PATCH", "/v1/jobs/orders/settings", body)
            assert (status, told["field"]) == (400, field), (body, told)
        assert server.request("PATCH", "/v1/jobs/users/settings", {"interval": 1000})[0] == 404
        assert server.request("POST", "/v1/jobs/orders/settings", {"interval": 1000})[0] == 405
        assert server.request("POST", "/v1/jobs/orders/checkpoints", {"most": 1})[0] == 400
        job.set(at_once=2)
        assert [job.checkpoint()["id"], job.checkpoint()["id"], refused(job.checkpoint)] == [1, 2, "AtOnce"]
        before = job.state()
        status, _, told = server.request("PATCH", "/v1/jobs/orders/settings", {"at_once": 1})
        assert (status, told["refused"]) == (409, "AtOnce"), told
        assert refused(lambda: job.set(interval=1000, pause=1)) == "AtOnce"
        after = job.state()
        assert {**after, "now": 0} == {**before, "now": 0} and after["settings"]["at_once"] == 2, (before, after)
        job.call(cancel())
        assert [refused(lambda: job.set(interval=1000)), refused(job.checkpoint)] == ["NotRunning", "NotRunning"]


def restarted(args):
    """Settings that were changed before and after an image, and a service that is killed and started again."""
    with served_job("orders", {"interval": NEVER}, [1], args=args) as (server, job):
        job.set(retained=3, tolerable=7)
        for file in range(1, 41):
            completed(job, file)
        job.set(interval=NEVER - 1, keep_on_cancel=True)
        wanted = {**DEFAULTS, "interval": NEVER - 1, "retained": 3, "tolerable": 7, "keep_on_cancel": True}
        until(lambda: job.state()["image"] or not args)
        before = job.state()
        for _ in range(2):
            server.again()
            after = job.state()
            assert after["settings"] == wanted == before["settings"], after
            assert (after["seq"], after["due"], after["live"]) == (before["seq"], before["due"], before["live"]), (before, after)
        made = job.checkpoint()["id"]
        assert refused(job.checkpoint) == "AtOnce"
        return made, after["image"]


def test_a_restart_keeps_the_settings():
    made, image = restarted([])
    assert (made, image) == (41, None), (made, image)
    made, image = restarted(["--image-calls", "20", "--keep-calls", "20"])
    assert made == 41 and image, (made, image)


def test_a_smaller_number_retained_drops_checkpoints():
    with served_job("orders", {"interval": NEVER, "retained": 3}, [1]) as (server, job):
        assert [completed(job, file) for file in (11, 12, 13)] == [1, 2, 3]
        told = job.set(retained=1)
        assert (told["dropped"], told["released"]) == (2, 2), told
        assert [one["id"] for one in job.state()["live"]] == [3] and sorted(job.take()) == [11, 12]
        caught_up(job)
        assert [job.record(made)["history"]["why"] for made in (1, 2)] == ["not retained"] * 2, job.record(1)


def test_a_checkpoint_under_a_key_is_triggered_once():
    with served_job("orders", {"interval": NEVER, "at_once": 9}, [1]) as (server, job):
        told = [job.checkpoint("k"), job.checkpoint("k"), job.checkpoint("l")]
        assert [one["id"] for one in told] == [1, 1, 2] and len(job.state()["live"]) == 2, told
        assert server.request("POST", "/v1/jobs/orders/calls", {"calls": [{"call": "tick"}]}, headers={"Idempotency-Key": "k"})[0] == 422


def test_the_commands():
    with served_job("orders", {"interval": NEVER}, [1]) as (server, job):
        assert server.ask("checkpoint", "orders") == "checkpoint 1 is triggered\n"
        assert "the coordinator refuses it: AtOnce" in server.ask("checkpoint", "orders", status=1)
        job.call(ack(1, "0.0", [11]))
        told = server.ask("checkpoint", "orders", "--wait", 1, status=75)
        assert told.startswith("checkpoint 2 is triggered\n") and "checkpoint 2 is not complete yet" in told, told
        told = server.ask("set", "orders", "interval=30000", "keep_on_cancel=true")
        assert "interval 30000" in told and "keep_on_cancel true" in told and "retained 1" in told, told
        assert json.loads(server.ask("set", "orders", "retained=2", "--json"))["settings"] == {**DEFAULTS, "interval": 30_000, "retained": 2, "keep_on_cancel": True}
        assert "interval is no whole number from 10 to" in server.ask("set", "orders", "interval=9", status=2)
        assert "speed is no field here" in server.ask("set", "orders", "speed=9", status=2)
        assert "is no number" in server.ask("set", "orders", "interval=30s", status=2)
        server.ask("set", "orders", status=2)
        assert "there is no job" in server.ask("set", "users", "interval=30000", status=1)
        assert server.folder in server.ask("set", "orders", "--folder", server.folder, "--prefix", "state-")
        assert job.state()["storage"] == {"folder": server.folder, "prefix": "state-", "suffix": ""}, job.state()
        for words in (["--folder", "/srv", "interval=30000"], ["--bucket", "a/b"], ["--folder", "/srv", "--bucket", "a"], ["--prefix", "state-"]):
            server.ask("set", "orders", *words, status=2)
        failed = raised(Failed, lambda: job.set(interval=9))
        assert (failed.status, failed.field) == (400, "interval")


def test_a_full_checkpoint_has_no_base():
    """So its tasks write everything anew. A service that starts later does not know which one was full, and tells no base of those before."""
    with served_job("orders", {"interval": NEVER}, [1]) as (server, job):

        def bases():
            return [it.get("base") for it in server.get("/v1/jobs/orders/events")[2]["events"] if it["event"] == "triggered"]

        completed(job, 11)
        completed(job, 12)
        assert server.ask("checkpoint", "orders", "--full") == "checkpoint 3 is triggered\n"
        told = [{"kind": "fresh"}, {"kind": "checkpoint", "id": 1}, {"kind": "fresh"}]
        assert bases() == told, bases()
        job.call(ack(3, "0.0", [13]))
        assert job.checkpoint(full=True)["id"] == 4 and bases() == [*told, {"kind": "fresh"}], bases()
        assert refused(lambda: job.checkpoint(full=True)) == "AtOnce"
        server.again()
        assert bases() == [None] * 4, bases()
        job.call(ack(4, "0.0", [14]))
        completed(job, 15)
        assert bases() == [None] * 4 + [{"kind": "checkpoint", "id": 4}], bases()
        assert server.request("POST", "/v1/jobs/orders/checkpoints", {"full": 1})[0] == 400


class Tasks:
    """The two subtasks of a job whose timer triggers at once. Each checkpoint has a new file of each, and that of the first one."""

    def __init__(self, server, name="orders", **settings):
        self.job = Service(server.url).open(name, {"interval": 10, "retained": 3, "tolerable": 1000, **settings}, [2], 0)
        self.files = {}
        self.take_over(self.job.begin())

    def take_over(self, start):
        """The tasks that were started with what a restore tells."""
        self.start, self.task = start, start.session()

    def pending(self):
        return [one["id"] for one in self.job.state()["live"] if not one["done"] and one["kind"] == "checkpoint"]

    def complete(self, first=None):
        """Completes the checkpoint that is pending next, and returns its number."""
        until(self.pending)
        [made] = self.pending()
        fresh = [self.task.name(), self.task.name()]
        reused = [] if first is None else [first]
        acks = [ack(made, "0.0", [fresh[0]], reused, term=self.start.term), ack(made, "0.1", [fresh[1]], term=self.start.term)]
        self.files[made] = {"0.0": sorted([fresh[0], *reused]), "0.1": [fresh[1]]}
        assert [list(one)[0] for one in self.job.calls(acks)] == ["ack", "ack"], made
        return made

    def held(self, record):
        live = self.job.record(record)["live"]
        return {part["subtask"]: sorted(int(file) for file in part["files"]) for part in live["acks"]}


def test_back_to_an_older_checkpoint():
    with served() as server:
        tasks = Tasks(server)
        job, made = tasks.job, [tasks.complete()]
        first = tasks.files[made[0]]["0.0"][0]
        made += [tasks.complete(first), tasks.complete(first)]
        old = tasks.start
        told = server.request("POST", "/v1/jobs/orders/calls", {"calls": [{"call": "restore", "from": {"checkpoint": made[1]}}]})
        assert told[0] == 400 and told[2]["field"] == "calls[0].accept_published" and "not taken back" in told[2]["error"], told
        assert "--accept-published" in server.ask("restore", "orders", "--checkpoint", made[1], status=2)
        assert "NoSuchCheckpoint" in server.ask("restore", "orders", "--checkpoint", 99, "--accept-published", status=1)
        assert [one["id"] for one in job.state()["live"] if one["done"]] == made
        tasks.take_over(job.go_back(made[1], accept_published=True))
        assert (tasks.start.kind, tasks.start.term) == ("savepoint", old.term + 1), tasks.start
        copy = tasks.start.id
        # a savepoint with the files of that checkpoint, and nothing else is left
        assert tasks.held(copy) == tasks.files[made[1]] and [one["id"] for one in job.state()["live"] if one["done"]] == [copy]
        kept = {file for files in tasks.files[made[1]].values() for file in files}
        every = {file for files in tasks.files.values() for part in files.values() for file in part}
        assert set(job.take(1000)) == every - kept, (every, kept)
        assert job.calls([ack(copy + 1, "0.0", term=old.term)])[0] == {"fenced": "OldTerm"}
        server.again()
        assert tasks.held(copy) == tasks.files[made[1]] and job.state()["choice"] == {"kind": "savepoint", "id": copy}
        # the job goes on from there
        assert tasks.complete(first) > copy and refused(lambda: job.go_back(made[0], True)) == refused(lambda: job.go_back(copy, True)) == "NoSuchCheckpoint"
        last = tasks.complete(first)
        # the latest needs no savepoint
        assert job.go_back(last, True).kind == "checkpoint"
        tasks.take_over(job.begin(shape=[1]))
        assert refused(lambda: job.go_back(last - 1, True)) == "OtherShape"
        job.call(cancel())
        assert refused(lambda: job.go_back(last, True)) in ("NoSuchCheckpoint", "NotRunning")
        assert server.stop() == 0
        ran("check", "--database", server.database)


def test_an_advance():
    """The job goes on above all terms and names that were given out: as after a restored backup, which lacks some."""
    with served_job("orders", {"interval": NEVER}, [1], 0) as (server, job):
        task, made = job.begin().session(), job.checkpoint()["id"]
        task.ack(made, "0.0", [task.name()])
        told = job.advance(100, 5000)
        assert (told["restore"], told["id"], told["term"]) == ("checkpoint", made, 101) and job.term() == {"term": 101, "next_name": 5000}, told
        late = [lambda: task.ack(made, "0.0"), lambda: job.session(100).name()]
        assert [raised(Fenced, make).name for make in late] == ["OldTerm"] * 2 and job.session(101).name() == 5000
        # a file of the lost part is garbage, and one of a record is not
        assert job.garbage([1, 4000, 9000]) == ([4000], [9000])
        # smaller ones lower nothing, and one under a key is made once
        assert [job.advance(0, 1, "k")["term"] for _ in range(2)] == [102, 102] and job.term() == {"term": 102, "next_name": 6000}
        [first, *_] = [entry for entry in job.log(terms=False) if entry["line"].startswith("advance")]
        assert first["line"].split()[2:] == ["*", "5000"] and next(entry for entry in job.log(terms=True) if entry["seq"] == first["seq"])["line"].split()[2:] == ["100", "5000"], first
        told = server.ask("advance", "orders")
        assert told == f"the job begins again, from checkpoint {made}; files that wait for deletion now: 0 more; the term is {102 + 2**32 + 1}\n", told
        assert job.term()["next_name"] == 6000 + 2**40
        server.ask("advance", "orders", "--term", 2**33, "--name", 2**41)
        before = job.term()
        assert before == {"term": 2**33 + 1, "next_name": 2**41} and server.log().count("calls=advance") == 5, before
        server.again()
        assert job.term() == before and job.session(before["term"]).name() == 2**41
        for body, field in (({"term": 1}, "first_name"), ({"first_name": "1"}, "term"), ({"term": -1, "first_name": 1}, "term"), ({"term": 1, "first_name": 0}, "first_name")):
            status, _, told = server.request("POST", "/v1/jobs/orders/advance", body)
            assert (status, told["field"]) == (400, field), told
        # one that has stopped stays so, in a later term
        savepoint = job.stop_job()["id"]
        job.call(ack(savepoint, "0.0", term=before["term"]))
        assert job.advance(0, 1)["id"] == savepoint and job.state()["phase"] == "stopped"
        job.begin_job()
        job.call(cancel())
        assert refused(lambda: job.advance(0, 1)) == "NotRunning"
        assert server.stop() == 0
        ran("check", "--database", server.database)
