"""A job that stops with a savepoint and begins again, over the API, the client and the commands; and what an operator does, while the service is
killed at each of its writes."""
import json
import os
import shutil
import sqlite3
import subprocess
import threading
import time
from contextlib import closing

import requests

from described import description
from harness import BUSY, COMMAND, PROGRAM, Server, Service, beside, caught_up, folder, raised, ran, served, served_job, sqlite, until
from postgres import postgres
from preloaded import SHIM, Clocks, built, shim
from relkvanu_service import Failed, OtherLog, ack, cancel, decline, restore, savepoint
from slow import Proxy
from test_events import Copy
from test_operate import NEVER, Tasks, refused

HOUR = 3600


def stop_of(job):
    state = job.state()
    return state["phase"], state["stop"]


def stops(tasks):
    """Stops the job, whose two subtasks take part. Returns the savepoint."""
    savepoint = tasks.job.stop_job()["id"]
    take_part(tasks, savepoint)
    return savepoint


def take_part(tasks, savepoint, subtasks=("0.0", "0.1")):
    term = tasks.start.term
    answers = tasks.job.calls([ack(savepoint, subtask, [tasks.task.name()], term=term) for subtask in subtasks])
    assert all("ack" in one for one in answers), answers
    return answers


def test_a_key_is_of_its_path():
    """The bodies of a stop, a begin and a checkpoint are the same. A script that gives one key to all is told so."""
    with served() as server:
        tasks = Tasks(server)
        tasks.job.stop_job(key="deploy-42")
        take_part(tasks, tasks.job.state()["stop"]["savepoint"])
        for call in (tasks.job.begin_job, tasks.job.checkpoint):
            assert raised(Failed, lambda: call(key="deploy-42")).status == 422
        assert stop_of(tasks.job)[0] == "stopped"
        tasks.job.begin_job(key="deploy-43")


def test_who_waits_for_a_begin_hears_of_a_backup():
    """An engine waits where its job has stopped. The service goes on from a copy of before the stop: the engine may not go on by itself."""
    with served() as server:
        tasks, told = Tasks(server), []
        tasks.complete()
        copy = Copy(server, None)
        copy.make()
        stops(tasks)

        waits = threading.Thread(target=lambda: told.append(raised(OtherLog, tasks.job.until_begun)), daemon=True)
        follows, follower = threading.Event(), tasks.job.follower
        tasks.job.follower = lambda *given: follows.set() or follower(*given)
        waits.start()
        # it has seen that the job has stopped, and polls
        assert follows.wait(COMMAND)
        time.sleep(0.5)
        copy.restore()
        waits.join(BUSY * 120)
        assert len(told) == 1, told


def test_a_job_stops_and_begins():
    with served() as server:
        tasks = Tasks(server)
        job, done = tasks.job, tasks.complete()
        assert stop_of(job) == ("running", None)
        told = job.stop_job()
        savepoint, before = told["id"], job.state()
        assert told["savepoint"] == "triggered" and savepoint > done and before["phase"] == "stopping", told
        assert before["stop"] == {"savepoint": savepoint, "at": before["stop"]["at"], "failed": None}, before
        assert refused(job.stop_job) == refused(job.checkpoint) == "Stopping" and refused(job.begin_job) == "NotStopped"
        said = description()["paths"]["/v1/jobs/{job}/checkpoints"]["post"]["responses"]["409"]["description"]
        assert all(word in said for word in ("Stopping", "Stopped", "NotRunning")), said
        take_part(tasks, savepoint, ["0.0"])
        assert stop_of(job)[0] == "stopping"
        # the timer, which triggers each 10 ms, rests
        seq = job.state()["seq"]
        time.sleep(0.1)
        assert job.state()["seq"] == seq
        [answer] = take_part(tasks, savepoint, ["0.1"])
        assert answer["ack"] == "completed", answer
        # the last acknowledgement and the restore are one commit
        acknowledged, restored = list(job.log(answer["seq"] - 1))
        assert restored["line"].split()[0::2] == ["restore", str(savepoint)] and restored["at"] == acknowledged["at"], restored
        state = job.state()
        assert (state["phase"], state["stop"]) == ("stopped", before["stop"]) and state["choice"] == {"kind": "savepoint", "id": savepoint}, state
        assert job.calls([ack(savepoint, "0.0", term=tasks.start.term)]) == [{"fenced": "OldTerm"}], "the term of the tasks goes on"
        assert all(refused(make) == "Stopped" for make in (job.stop_job, job.checkpoint, job.begin, lambda: job.call({"call": "tick"}), lambda: job.go_back(done, True)))
        seq = job.state()["seq"]
        time.sleep(0.1)
        assert job.state()["seq"] == seq == restored["seq"]
        # settings and files change meanwhile, and an engine that starts waits
        job.set(retained=2)
        job.take()
        waits = beside(lambda: tasks.take_over(job.until_begun() and job.begin()))
        time.sleep(0.05)
        assert waits.is_alive()
        told = job.begin_job()
        assert (told["restore"], told["id"], "term" in told) == ("savepoint", savepoint, True), told
        waits.join(BUSY * 20)
        assert stop_of(job) == ("running", None) and tasks.start.id == savepoint
        assert tasks.complete() > savepoint


def test_a_stop_that_fails_says_why_and_the_timer_goes_on():
    ends = {
        "expired": lambda job, it: None,
        "declined": lambda job, it: job.call(decline(it, "0.0")),
        "restored": lambda job, it: job.call(restore()),
        "failed": lambda job, it: job.call(decline(it - 1, "0.0")),
    }
    with served() as server:
        for why, end in ends.items():
            timeout = 300 if why == "expired" else 600_000
            job = Service(server.url).open(why, {"interval": NEVER, "timeout": timeout, "tolerable": 0}, [1])
            if why == "failed":
                job.checkpoint()
            savepoint = job.stop_job()["id"]
            end(job, savepoint)
            until(lambda: stop_of(job)[0] == "running", told=job.state)
            state = job.state()
            assert state["stop"]["savepoint"] == savepoint and state["stop"]["failed"] == why and not state["live"], (why, state)
            if why == "failed":
                assert state["mode"] == "failed" and refused(job.stop_job) == "NotRunning"
                job.begin()
                assert stop_of(job)[1]["failed"] == "failed"
            job.set(interval=10, timeout=600_000)
            until(lambda: job.state()["live"])
            # the next stop takes the reason away
            job.stop_job()
            assert stop_of(job)[1]["failed"] is None
            job.call(cancel())
            assert stop_of(job)[1]["failed"] == "cancelled" and job.state()["mode"] == "cancelled"
        caught_up(job)


def test_a_stopped_job_is_cancelled_and_deleted():
    with served() as server:
        tasks = Tasks(server)
        stops(tasks)
        tasks.job.call(cancel())
        assert stop_of(tasks.job) == ("running", None) and tasks.job.state()["mode"] == "cancelled"
        assert Service(server.url).delete("orders", abandon=True)
        job = Service(server.url).open("orders", {"interval": NEVER}, [1])
        assert stop_of(job) == ("running", None)


def test_the_commands_of_a_stop():
    with served_job("orders", {"interval": NEVER}, [1]) as (server, job):
        assert server.ask("stop", "orders") == "the job stops: savepoint 1 is triggered\n"
        told = server.ask("stop", "orders", "--wait", 1, status=75)
        assert "savepoint 1 is not complete yet" in told, told
        assert "stopping, savepoint 1" in server.ask("show", "orders") and "stopping" in server.ask("jobs")
        waits = subprocess.Popen([PROGRAM, "stop", "orders", "--wait", "600", "--url", server.url], stdout=subprocess.PIPE, text=True)
        job.call(ack(1, "0.0", [11]))
        assert waits.communicate(timeout=COMMAND)[0] == "the job has stopped at savepoint 1\n" and waits.returncode == 0
        assert json.loads(server.ask("stop", "orders", "--wait", 1, "--json")) == {"stopped": 1}
        assert "Stopped" in server.ask("checkpoint", "orders", status=1)
        # another shape for a job that has stopped: it stays stopped, and begins in it
        told = server.ask("restore", "orders", "--shape", "1,2")
        assert told.startswith("the job stays stopped, and begins from savepoint 1") and job.state()["phase"] == "stopped", told
        told = server.ask("begin", "orders")
        assert told.startswith("the job begins again, from savepoint 1") and job.state()["shape"] == [1, 2], told
        server.ask("restore", "orders", "--shape", "1")
        assert "NotStopped" in server.ask("begin", "orders", status=1)
        server.ask("stop", "orders")
        job.call(decline(2, "0.0"))
        server.ask("stop", "orders")
        asked = server.log().count("calls=stop")
        waits = subprocess.Popen([PROGRAM, "stop", "orders", "--wait", "600", "--url", server.url], stderr=subprocess.PIPE, text=True)
        until(lambda: server.log().count("calls=stop") > asked)
        job.call(decline(3, "0.0"))
        assert "has not stopped at savepoint 3: declined" in waits.communicate(timeout=COMMAND)[1] and waits.returncode == 1
        assert "its last stop failed: declined" in server.ask("show", "orders")
        assert "there is no job" in server.ask("begin", "users", status=1)
        done = [line.rpartition("calls=")[2] for line in server.log().splitlines() if "status=200" in line and "calls=" in line]
        assert done == ["stop", "restore", "begin", "restore", "stop", "stop"], done


def test_a_stop_under_a_key_is_asked_for_once():
    with served_job("orders", {"interval": NEVER}, [1]) as (server, job):
        assert [job.stop_job("k")["id"] for _ in range(2)] == [1, 1] and len(list(job.log())) == 3
        job.call(ack(1, "0.0"))
        # its repeat after the job has begun again stops nothing
        assert [job.begin_job("b")["id"] for _ in range(2)] == [1, 1] and job.stop_job("k")["id"] == 1 and stop_of(job)[0] == "running"
        for path in ("stop", "begin"):
            assert server.request("GET", f"/v1/jobs/orders/{path}")[0] == 405
            assert server.request("POST", f"/v1/jobs/orders/{path}", {"wait": 1})[0] == 400
            assert server.request("POST", f"/v1/jobs/users/{path}", {})[0] == 404
        for call in ("stop", "begin"):
            assert server.request("POST", "/v1/jobs/orders/calls", {"calls": [{"call": call}]})[0] == 400


def test_an_hour_of_a_stop():
    """Nothing expires, no call is made and no alert fires, while the same hour expires the record of a job that runs."""
    with folder() as at:
        clocks = Clocks(at)
        server = Server(at, prefix=clocks.prefix).start()
        settings = {"interval": 10, "timeout": 60_000, "tolerable": 1000}
        job, other = server.service.open("orders", settings, [1]), server.service.open("users", settings, [1])
        until(lambda: other.state()["live"] and job.state()["live"])
        savepoint = job.stop_job()["id"]
        job.call(ack(savepoint, "0.0", [1]))
        seq = job.state()["seq"]
        assert server.stop() == 0
        clocks.set(day=HOUR)
        server.start()
        until(lambda: any(entry["answer"].startswith("tick expired 1") for entry in other.log()))
        state = job.state()
        assert (state["phase"], state["seq"]) == ("stopped", seq) and state["now"] > state["stop"]["at"] + (HOUR - 60) * 1000, state
        text = server.get("/metrics")[2]
        assert 'relkvanu_phase{job_name="orders"} 3' in text and 'relkvanu_phase{job_name="users"} 1' in text
        job.begin_job()
        until(lambda: job.state()["live"])
        caught_up(job)
        assert not [one for one in job.records() if one["how"] == "expired"], job.records()


def over_a_take_over(service, database):
    """Where the generator waits another process takes over."""
    stopping, stopped, failed = jobs = [service.open(name, {"interval": NEVER}, [1]) for name in ("stopping", "stopped", "failed")]
    for job in jobs:
        assert job.stop_job()["id"] == 1
    stopped.call(ack(1, "0.0", [1]))
    failed.call(decline(1, "0.0"))
    told = [stop_of(job) for job in jobs]
    assert [phase for phase, _ in told] == ["stopping", "stopped", "running"], told
    yield
    assert [stop_of(job) for job in jobs] == told
    assert stopped.begin_job()["id"] == 1 and stopping.call(ack(1, "0.0", [1]))["ack"] == "completed"
    assert [stop_of(job)[0] for job in jobs] == ["stopped", "running", "running"]
    assert database.sql("select phase, record, failed from phase order by job").split() == ["stopped|1|", "running||", "running|1|declined"]


class Steps:
    """A job before a step of an operator. Each trial makes the step over a copy of its files."""

    def __init__(self, at, prepared, step):
        self.at, self.step, self.library, self.trials = at, step, built(at, SHIM), 0
        os.mkdir(f"{at}/base")
        server = Server(f"{at}/base", args=["--history", f"{at}/base/history"]).start()
        tasks = Tasks(server, interval=NEVER)
        self.given = prepared(tasks)
        caught_up(tasks.job)
        # what the history saves in the database comes at any time: a trial shall have nothing to save
        with closing(sqlite3.connect(f"{at}/base/history")) as history:
            until(lambda: history.execute("select count(*) from record where gone is not null and saved = 0").fetchone() == (0,))
        assert server.stop() == 0
        self.before = found(f"{at}/base")

    def trial(self, die):
        """Makes the step while the service ends at a write. Returns when it has ended, and what the database has."""
        self.trials += 1
        at = f"{self.at}/{self.trials}"
        shutil.copytree(f"{self.at}/base", at)
        prefix = shim(self.library, f"{at}/relkvanu.db", die=die)
        server = Server(at, args=["--history", f"{at}/history"], prefix=prefix).start(ready=False)
        until(lambda: server.process.poll() is not None or server.get("/readyz")[0] == 200, each=0.005)
        if server.process.poll() is not None:
            return "at the start", found(at)
        try:
            self.step(Service(server.url).noticing(ends).job("orders"), self.given)
        except (Failed, requests.RequestException):
            server.ended()
            return "in the step", found(at)
        server.kill()
        return "never", found(at)


def found(at):
    """The calls without their moments, and the phase of the job."""
    with closing(sqlite3.connect(f"{at}/relkvanu.db")) as base:
        calls = list(base.execute("select seq, record, substr(line, 1, instr(line || ' ', ' ')), ended, waiting from call order by seq"))
        return calls, list(base.execute("select phase, record, failed from phase"))


def at_each_write(prepared, step):
    """Ends the service at each write of a step, and at some before it. Returns what the step leaves, and how many trials that ended in it found
    nothing of the step, and how many all of it."""
    with folder() as at:
        steps = Steps(at, prepared, step)
        # the writes of a start are before those of the step
        first, last = 1, 256
        while first < last:
            middle = (first + last) // 2
            first, last = (middle + 1, last) if steps.trial(middle)[0] == "at the start" else (first, middle)
        counts, wanted, over = {"nothing": 0, "all": 0}, None, 0
        # a start has some writes more or less
        for write in range(max(1, first - 4), first + 64):
            when, told = steps.trial(write)
            is_all = told != steps.before
            assert is_all == (when == "never") or when == "in the step", (write, when, told)
            assert not is_all or wanted in (None, told), (write, told, wanted)
            wanted = told if is_all else wanted
            counts["all" if is_all else "nothing"] += when == "in the step"
            over += when == "never"
            if over == 2:
                return wanted, counts
        raise AssertionError(f"no end after write {first}: {counts}")


def half_stopped(tasks):
    """The acknowledgement that lacks."""
    savepoint = tasks.job.stop_job()["id"]
    take_part(tasks, savepoint, ["0.0"])
    return ack(savepoint, "0.1", [tasks.task.name()], term=tasks.start.term)


def with_three(tasks):
    for _ in range(3):
        tasks.job.checkpoint()
        tasks.complete()
    return min(tasks.files)


STEPS = {
    "stop": (with_three, lambda job, _: job.stop_job(), [("stopping", 4, None)]),
    "its last acknowledgement": (half_stopped, lambda job, it: job.call(it), [("stopped", 1, None)]),
    "begin": (stops, lambda job, _: job.begin_job(), [("running", None, None)]),
    "set": (with_three, lambda job, _: job.set(retained=1, interval=NEVER - 1), []),
    "the way back": (with_three, lambda job, it: job.go_back(it, True), []),
    "an advance": (with_three, lambda job, _: job.advance(1 << 32, 1 << 40), []),
}


def test_a_step_is_made_whole_or_not_at_all_at_each_write():
    told, ends = [], {"nothing": 0, "all": 0}
    for name, (prepared, step, phase) in STEPS.items():
        (_, phases), counts = at_each_write(prepared, step)
        assert phases == phase, (name, phases)
        ends = {found: ends[found] + count for found, count in counts.items()}
        told.append(f"{name} {counts['nothing']} times not and {counts['all']} times")
    assert ends["nothing"] >= len(STEPS) and ends["all"] > 1, told
    return ", ".join(told)


def ends(error):
    """No request is made again."""
    raise error


class Between(Proxy):
    """Passes on what a service and its PostgreSQL send to each other. From `arm` on it counts what the service sends, and ends the service at one of
    these messages: in the midst of it, or after it."""

    def __init__(self, database):
        self.lock, self.left, self.how, self.server, self.has_ended = threading.Lock(), 0, None, None, False
        super().__init__(database.port)
        self.url = database.url.replace(str(database.port), str(self.port))

    def arm(self, server, message, how):
        with self.lock:
            self.server, self.left, self.how, self.has_ended = server, message, how, False

    def disarm(self):
        """Returns whether the service was ended."""
        with self.lock:
            self.left = 0
            return self.has_ended

    async def passed(self, data, link, answers):
        with self.lock:
            is_last = not answers and self.left == 1
            self.left -= not answers and self.left > 0
            if not is_last:
                return data
            self.has_ended = True
            self.server.kill()  # it hears of no answer
            return data if self.how == "after a message" else data[: len(data) // 2]


def rows(database, name):
    """The calls of a job without their moments, and its phase."""
    job = f"(select job from job where name = '{name}')"
    calls = database.sql(f"select seq, record, split_part(line, ' ', 1), ended, waiting from call where job = {job} order by seq")
    return calls.splitlines(), database.sql(f"select phase, record, failed from phase where job = {job}")


# What the job is before the step, the step, the first words of the calls that it makes, and the phase that it leaves.
COMMITS = {
    "stop": (lambda tasks: None, lambda job, _: job.stop_job(), ["savepoint"], "stopping|{}|"),
    "its last acknowledgement": (half_stopped, lambda job, it: job.call(it), ["in", "restore"], "stopped|{}|"),
    "begin": (stops, lambda job, _: job.begin_job(), ["restore"], "running||"),
}


def a_trial(database, between, server, name, message, how):
    """Makes the steps, each of a new job, while the service ends at a message. Returns of which jobs all is there, and how many steps were answered;
    None if no step sent so many messages."""
    jobs, answered = {}, 0
    for step, (prepared, *_) in COMMITS.items():
        tasks = Tasks(server, f"{step} {name} {how}".replace(" ", "-"), interval=NEVER)
        jobs[step] = (tasks.job, prepared(tasks))
    before = {step: rows(database, job.name) for step, (job, _) in jobs.items()}
    between.arm(server, message, how)
    try:
        for step, (job, given) in jobs.items():
            COMMITS[step][1](Service(server.url).noticing(ends).job(job.name), given)
            answered += 1
    except (Failed, requests.RequestException):
        pass
    if not between.disarm():
        return None
    database.quiet()
    database.sql("update leader set name = ''")  # nobody waits for the lease of the process that was killed
    made = [is_made(step, before[step], rows(database, job.name)) for step, (job, _) in jobs.items()]
    server.start()
    for (step, (job, given)), is_all in zip(jobs.items(), made):
        if not is_all:
            COMMITS[step][1](job, given)
        assert stop_of(job)[0] == COMMITS[step][3].partition("|")[0], (step, message, how, job.state())
    return made, answered


def is_made(step, before, after):
    """Whether the rows of a job have all of a step. Otherwise they have nothing of it."""
    _, _, words, phase = COMMITS[step]
    (calls, _), (found, left) = before, after
    if found == calls:
        assert before == after, (step, before, after)
        return False
    more = found[len(calls):]
    assert found[: len(calls)] == calls and [row.split("|")[2] for row in more] == words, (step, before, after)
    assert left == phase.format(more[0].split("|")[1]), (step, before, after)
    return True


def test_a_stop_and_a_begin_at_each_message_to_postgresql():
    with postgres() as database, folder() as at:
        between, told = Between(database), {"after a message": 0, "in the midst of one": 0}
        server = Server(at, between.url).start()
        for how in told:
            # (a message that is none of the steps' may have come before one of theirs: then the next turn has that one)
            wanted, turns = {(step, how == "after a message") for step in range(len(COMMITS))}, 0
            while wanted and (turns := turns + 1) < 9:
                for message in range(1, 100):
                    if (left := a_trial(database, between, server, f"{turns}-{message}", message, how)) is None:
                        break
                    made, answered = left
                    # what was answered is there, and what was not asked for is not; of the step between the two all is there, or nothing
                    assert all(made[:answered]) and not any(made[answered + 1:]), (how, message, left)
                    wanted -= set(enumerate(made[answered:], answered))
                    told[how] += 1
            assert not wanted, (how, wanted)
        ran("check", "--database", database.url)
        return ", ".join(f"{count} ends {how}" for how, count in told.items())


def checked(server, status):
    return ran("check", "--database", server.database, status=status)


class Phase:
    """The row of a job's phase in a database whose service does not run."""

    def __init__(self, server, job):
        self.server, self.job = server, job

    def told(self, row, words):
        """Puts another row in its place, and none for None: `check` names the job, and says what its log says. Then the row is as it was."""
        with closing(sqlite3.connect(self.server.database)) as base:
            number = base.execute("select job from job where name = ?", (self.job,)).fetchone()
            before = base.execute("select * from phase where job = ?", number).fetchall()
            put(base, number, [row] if row else [])
        said = checked(self.server, 1)
        assert f"job {self.job}: the table phase says " in said and words in said, said
        # the others are as their logs say
        assert said.count("are as this program has them") == 4, said
        with closing(sqlite3.connect(self.server.database)) as base:
            put(base, number, [it[1:] for it in before])
        checked(self.server, 0)


def put(base, number, phases):
    base.execute("delete from phase where job = ?", number)
    base.executemany("insert into phase values(?, ?, ?, ?, ?, ?)", [(*number, *row) for row in phases])
    base.commit()


def test_a_check_compares_phases_with_the_log():
    with served(args=["--image-calls", "10", "--keep-calls", "10"]) as server:
        jobs = {name: Tasks(server, name, interval=NEVER) for name in ("runs", "stops", "stopped", "begun", "back")}
        for tasks in jobs.values():
            tasks.job.checkpoint()
            tasks.complete()
        stopping = jobs["stops"].job.stop_job()["id"]
        stopped, begun = stops(jobs["stopped"]), stops(jobs["begun"])
        term = jobs["begun"].job.begin_job()["term"]
        jobs["back"].job.checkpoint()
        jobs["back"].complete()
        jobs["back"].job.go_back(min(jobs["back"].files), True)
        terms = {name: tasks.job.state()["phase"] for name, tasks in jobs.items()}
        assert terms == {"runs": "running", "stops": "stopping", "stopped": "stopped", "begun": "running", "back": "running"}, terms
        moment = jobs["stopped"].job.state()["stop"]["at"]
        assert server.stop() == 0
        assert checked(server, 0).count("are as this program has them") == 5
        # the log went on, and the row says that the job has stopped; and the reverse
        Phase(server, "begun").told(("stopped", begun, moment, term - 1, None), f"says \"stopped\", and its log says that the job has gone on since savepoint {begun}")
        Phase(server, "runs").told(("stopped", 1, moment, 1, None), "the job has gone on since savepoint 1")
        Phase(server, "stopped").told(("running", None, None, None, None), f"says \"running\", and its log says that the job has stopped with savepoint {stopped}")
        Phase(server, "stopped").told(None, f"the job has stopped with savepoint {stopped}")
        Phase(server, "stopped").told(("stopping", stopped, moment, None, None), f"the job has stopped with savepoint {stopped}")
        Phase(server, "stopped").told(("stopped", stopped, moment, 99, None), "another term has begun since")
        Phase(server, "stops").told(("stopped", stopping, moment, 2, None), f"the job has gone on since savepoint {stopping}")
        Phase(server, "stops").told(("running", stopping, moment, None, "expired"), f"savepoint {stopping} is pending")
        Phase(server, "runs").told(("stopping", 9, moment, None, None), "the job runs without savepoint 9")
        sqlite(server.database, "update phase set phase = 'ended' where record = ?", stopped)
        assert "a row of phase has" in checked(server, 1)


def test_a_check_of_a_restore_that_is_no_stop():
    """Somebody restores a job to a savepoint that is complete, after some time."""
    with served_job("orders", {"interval": NEVER}, [1]) as (server, job):
        made = job.call(savepoint())["id"]
        job.call(ack(made, "0.0", [1]))
        until(lambda: job.state()["now"] > next(job.log(3))["at"])
        job.call(restore(made))
        assert server.stop() == 0
        checked(server, 0)
