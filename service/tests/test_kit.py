"""The runner in Rust over both coordinators (examples/kit.rs of the client), killed at any moment, while the service's leader is killed too: each number is
put out once, with its sum, and no file is left but the last savepoint's. RELKVANU_KIT_KILLS is how often each combination is killed."""
import glob
import http.client
import json
import os
import random
import re
import socket
import stat
import subprocess

from described import description, fits, route_of
from harness import COMMAND, PROGRAM, Server, folder, folders, how_ended, needed, served, until
from postgres import postgres
from relkvanu.job_of_service import ServiceJob
from relkvanu.service_manifests import Manifests, service_folder
from relkvanu.state import StorageFiles, storage_of
from relkvanu_service import Service
from test_commands import running_job
from test_portable import did
from test_runner import Lines, Run

KIT = f"{os.path.dirname(PROGRAM)}/examples/kit"
KILLS = int(os.environ.get("RELKVANU_KIT_KILLS", "6"))
NUMBERS = 4000


def started(at, *words, numbers=NUMBERS, patience=60):
    needed(KIT)
    around = {**os.environ, "RELKVANU_PATIENCE": str(patience)}
    return subprocess.Popen([KIT, at, str(numbers), *words], stdout=subprocess.PIPE, stderr=subprocess.PIPE, text=True, env=around)


def killed(at, kills, words, meanwhile=lambda: None):
    """Runs the engine until its job is finished, and kills it at most so often. Returns how often."""
    for kill in range(kills + 1):
        run = started(at, *words)
        try:
            told, why = run.communicate(timeout=random.uniform(0.05, 1.2) if kill < kills else COMMAND)
            assert run.returncode == 0 and told.strip() in ("Finished", "Cancelled"), (told, why)
            return kill
        except subprocess.TimeoutExpired:
            assert kill < kills, "the job does not end"
            run.kill()
            run.communicate()
            meanwhile()
    raise AssertionError("not reached")


def expected():
    """By what the engine is to do, and not by the engine."""
    return sorted([source, number, number * (number + 1) // 2] for source, most in ((0, NUMBERS // 2), (1, NUMBERS)) for number in range(most))


def lines_of(at):
    return [json.loads(line) for path in glob.glob(f"{at}/target/*.jsonl") for line in open(path, encoding="utf-8")]


def assert_exact(at, lines):
    assert sorted(lines) == expected(), f"{len(lines)} lines"
    assert not glob.glob(f"{at}/target/*.prepared")
    assert len([it for it in os.listdir(f"{at}/state") if not it.startswith(".")]) <= 2, os.listdir(f"{at}/state")  # of savepoints of stops


def jobs(run):
    """Jobs, until they were killed often enough. Returns how many these were."""
    kills, count = 0, 0
    while kills < KILLS:
        with folder() as at:
            folders(at, "state", "target")
            kills += run(at, KILLS - kills)
            count += 1
    return f"{kills} kills in {count} jobs"


def test_a_durable_coordinator():
    def run(at, kills):
        done = killed(at, kills, ())
        assert_exact(at, lines_of(at))
        return done
    return jobs(run)


def test_a_service_over_sqlite():
    """Which is killed too, now and then."""
    def run(at, kills):
        with served() as server:
            def meanwhile():
                if random.random() < 0.3:
                    server.again()
            done = killed(at, kills, (server.url,), meanwhile)
        assert_exact(at, lines_of(at))
        return done
    return jobs(run)


def test_a_service_over_postgresql_whose_standby_takes_over():
    """The output is in a table of the same database."""
    def run(at, kills):
        with postgres() as database, folder() as place:
            database.sql("create table lines (line text)")
            leader, other = Server(place, database.url).start(), Server(place, database.url).stand_by()
            lead = [leader, other]

            def meanwhile():
                if random.random() < 0.2:
                    lead[0].kill()
                    until(lambda: lead[1].get("/readyz")[0] == 200, 60)
                    lead.append(lead.pop(0).stand_by())
            done = killed(at, kills, (f"{leader.url},{other.url}", database.url), meanwhile)
            assert_exact(at, [json.loads(line) for line in database.sql("select line from lines").split("\n")])
            return done
    return jobs(run)


def test_a_second_process_takes_the_job():
    """The first one ends, and says why."""
    with folder() as at, served() as server:
        folders(at, "state", "target")
        first = started(at, server.url)
        until(lambda: lines_of(at))
        second = started(at, server.url)
        _, why = first.communicate(timeout=COMMAND)
        assert first.returncode == 1 and "another process has begun the job" in why, why
        told, why = second.communicate(timeout=COMMAND)
        assert told.strip() == "Finished", (told, why)
        assert_exact(at, lines_of(at))


def test_a_job_whose_records_all_expire():
    """The runner gives it up, in either language, and says which tasks did not acknowledge."""
    with folder() as at, served() as server:
        folders(at, "state", "target", "files", "out")
        run = Run(at, server.url, f"{at}/files", f"{at}/out", RELKVANU_PATIENCE="1")
        run.start()
        for name, process in ("count", run.process), ("kit", started(at, server.url, numbers=1000000, patience=1)):
            job = Service(server.url).job(name)
            until(lambda: server.get(f"/v1/jobs/{name}")[0] == 200 and job.state()["choice"]["kind"] == "checkpoint", told=run.told)
            job.set(timeout=1, tolerable=0)
            told = process.communicate(timeout=COMMAND)[1] or run.told()
            assert process.returncode == 1 and re.search(r"Stuck\b.*\d(\.|, )\d", told), told


def carried(at, *table):
    """A job that is stopped, and begins in another service from the record of its stop, which has an origin: so it looks for nothing in its target that is in the
    first one's, and a table that has the lines gets none twice. Returns the two folders."""
    one, two = f"{at}/one", f"{at}/two"
    for it in ("one/state", "one/target", "two/target"):
        os.makedirs(f"{at}/{it}")
    with served() as first, served() as second:
        run, job = started(one, first.url, *table), Service(first.url).job("kit")
        until(lambda: first.get("/v1/jobs/kit")[0] == 200 and len(job.history(3)) == 3)
        job.stop_job()
        told, why = run.communicate(timeout=COMMAND)
        assert told.strip() == "Stopped", (told, why)
        did([PROGRAM, "export", "kit", f"{one}/carried", "--url", first.url, "--folder", f"{one}/state"])
        did([PROGRAM, "import", f"{one}/carried", "kit", "--url", second.url, "--folder", f"{two}/state"])
        assert_origin(first, second, f"{two}/state")
        killed(two, 2, (second.url, *table))
    return one, two


def assert_origin(first, second, folder):
    """The package for Python reads it too, and an engine that keeps manifests keeps it."""
    source, target = (ServiceJob(Service(it.url).job("kit")) for it in (first, second))
    files = StorageFiles(target, storage_of(target, folder))
    found = files.load()
    assert found.origin == (source.identity, found.id), found
    job = Service(second.url).job("kit")
    job.set(retained=3)
    assert Manifests(job, service_folder("kit", folder)).keep() == found.id and files.load() == found


def test_a_job_that_is_carried_to_another_service():
    with folder() as at:
        one, two = carried(at)
        assert lines_of(one) and lines_of(two) and sorted(lines_of(one) + lines_of(two)) == expected()
    with folder() as at, postgres() as database:
        database.sql("create table lines (line text)")
        _, two = carried(at, database.url)
        assert_exact(two, [json.loads(line) for line in database.sql("select line from lines").split("\n")])


class Asked(http.client.HTTPConnection):
    """The socket of a running job, whose answers are compared with the service's description. `done` are the routes that did what was asked."""

    def __init__(self, path, job):
        super().__init__("job", timeout=COMMAND)
        self.path, self.job, self.done = path, f"/v1/jobs/{job}", set()
        self.routes = {(word.upper(), route) for route, it in description()["paths"].items() for word, operation in it.items()
                       if isinstance(operation, dict) and operation.get("x-running-job")}

    def connect(self):
        self.sock = socket.socket(socket.AF_UNIX)
        self.sock.settimeout(self.timeout)
        self.sock.connect(self.path)

    def ask(self, method, path, body=None, key=None, kind="application/json"):
        """A path without a version is one of the job."""
        path = path if path.startswith("/v") else self.job + path
        headers = {"Content-Type": kind, **({"Idempotency-Key": key} if key else {})} if body is not None else {}
        self.request(method, path, None if body is None else body if isinstance(body, str) else json.dumps(body), headers)
        answer = self.getresponse()
        told = json.loads(answer.read())
        self.check(method, path, answer.status, told)
        return answer.status, told

    def check(self, method, path, status, told):
        route = method, route_of(path)
        if route not in self.routes:
            assert status in (404, 405), (route, status)
            return
        fits(*route, status, told)
        self.done.update([route] if status == 200 else [])


def refused(at):
    """What the socket does not do, with the status and what the answer has."""
    for method, path, body, more, status, word in (
            ("GET", "/v1/jobs/other", None, {}, 404, "other"), ("GET", "/v2", None, {}, 404, "path"), ("PUT", "/stop", {}, {}, 405, "method|POST alone"),
            ("GET", "/stop", None, {}, 405, "GET|no such path"), ("POST", "/stop", {}, {"kind": "text/plain"}, 415, "Content-Type"), ("GET", "/x", None, {}, 404, "path"),
            ("POST", "/stop", "{", {}, 400, "JSON"), ("POST", "/stop", [], {}, 400, "object"), ("POST", "/stop", {"x": 1}, {}, 400, "x is no field"),
            ("PATCH", "/settings", {"interval": 5}, {}, 400, '"field": "interval"'), ("PATCH", "/settings", {"interval": "50"}, {}, 400, '"field": "interval"'),
            ("PATCH", "/settings", {"x": 1}, {}, 400, '"field": "x"'), ("PATCH", "/settings", {}, {}, 400, 'no setting.*"field": "body"'),
            ("POST", "/calls", {"calls": [{"call": "savepoint"}]}, {}, 400, "Idempotency-Key"), ("POST", "/calls", {"calls": [{"call": "ack", "id": 1, "subtask": "0.0"}]}, {}, 400, r"calls\[0].call"),
            ("POST", "/calls", {"calls": [{"call": "tick"}]}, {}, 400, r"calls\[0].call"), ("POST", "/calls", {"calls": []}, {}, 400, "1 to 1000"),
            ("POST", "/begin", {}, {}, 409, "NotStopped"), ("GET", "/records/x", None, {}, 400, "id"), ("GET", "/records/99999999", None, {}, 404, "no record"),
            ("GET", "/records?limit=z", None, {}, 400, "limit"),
            ("GET", "/records/99999999/states", None, {}, 404, "99999999"), ("POST", "/calls", {"calls": [{"call": "dispose", "id": 0}]}, {}, 400, r"calls\[0].id")):
        told = at.ask(method, path, body, **more)
        assert told[0] == status and re.search(word, json.dumps(told[1], sort_keys=True)), (method, path, told)


def operated(at):
    """The commands of an operator."""
    def called(*calls):
        return at.ask("POST", "/calls", {"calls": calls})[1]["answers"]

    full = None
    while full is None:  # as many checkpoints may be pending as may be
        status, told = at.ask("POST", "/checkpoints", {"full": True})
        assert status == 200 or told["refused"] == "AtOnce", told
        full = told.get("id")
    asked = {"calls": [{"call": "savepoint"}, {"call": "dispose", "id": 1 << 40}]}
    first = at.ask("POST", "/calls", asked, "k")[1]
    assert first == at.ask("POST", "/calls", asked, "k")[1] and first["answers"][1] == {"refused": "NoSuchSavepoint"}
    assert at.ask("POST", "/calls", {"calls": [{"call": "trigger"}]}, "k")[0] == 422
    savepoint = first["answers"][0]["id"]
    assert savepoint > full
    until(lambda: how_ended(at.ask("GET", f"/records/{savepoint}")[1]) == "completed")
    states = at.ask("GET", f"/records/{savepoint}/states")[1]["subtasks"]
    assert len(at.ask("GET", f"/records/{savepoint}")[1]["live"]["acks"]) == len(states)
    part = next(it for it in states if it["files"])
    told = at.ask("GET", f"/files/{part['files'][0]}")[1]
    assert {"record": savepoint, "subtask": part["subtask"]} in told["used_by"] and told["uses"] > 0, told
    assert at.ask("PATCH", "/settings", {"interval": 30})[1]["settings"]["interval"] == 30
    assert called({"call": "dispose", "id": savepoint})[0]["dispose"] == "disposed"
    for path in ("", "/history?last=3", "/records?limit=3&how=completed", "/files"):
        assert at.ask("GET", path)[0] == 200
    assert len(at.ask("GET", "/records?limit=2&kind=checkpoint")[1]["records"]) == 2
    [state] = at.ask("GET", "/v1/jobs")[1]["jobs"]
    assert (at.job, state["mode"], state["phase"], state["settings"]["interval"]) == (f"/v1/jobs/{state['name']}", "running", "running", 30), state
    assert called({"call": "restore", "from": "latest"}, {"call": "trigger"})[0]["restore"] == "checkpoint"
    until(lambda: at.ask("GET", "/history?last=1")[1]["records"][0]["id"] > savepoint + 2)
    stop = at.ask("POST", "/stop", {})[1]["id"]
    until(lambda: at.ask("GET", "")[1]["phase"] == "stopped")
    assert at.ask("POST", "/stop", {})[1]["refused"] == "Stopped" and called({"call": "restore", "from": stop}) == [{"refused": "Stopped"}]
    assert called({"call": "restore", "from": stop, "stopped": True})[0]["restore"] == "savepoint" and at.ask("POST", "/begin", {})[1]["id"] == stop
    until(lambda: at.ask("GET", "/history?last=1")[1]["records"][0]["id"] > stop)
    assert called({"call": "cancel"})[0]["cancel"] == "cancelled"


def listens(run, path, job):
    """A job of either language does what is asked at its socket, by each route that the description marks, and ends with that."""
    at = Asked(path, job)
    until(lambda: stat.S_IMODE(os.stat(path).st_mode) == 0o600)  # and what a killed process has left is gone
    until(lambda: at.ask("GET", "")[1]["choice"]["kind"] == "checkpoint")
    refused(at)
    operated(at)
    assert at.done == at.routes, at.routes - at.done
    told, why = run.communicate(timeout=COMMAND)
    assert told.strip().lower() == "cancelled" and not os.path.exists(path), (told, why)


def test_a_running_job_in_python_listens():
    with folder() as at, running_job(at, f"{at}/state") as run:
        listens(run, f"{at}/job.sock", "count")
        return f"{Lines(f'{at}/out').check()} lines"


def test_a_running_job_listens():
    with folder() as at:
        folders(at, "state", "target")
        path = f"{at}/commands"
        with socket.socket(socket.AF_UNIX) as left:
            left.bind(path)  # by a process that was killed
        run = started(at, numbers=1000000)
        until(lambda: os.path.exists(f"{at}/job.db"))
        listens(run, path, "kit")
        lines = lines_of(at)
        assert sorted(lines) == [[source, number, number * (number + 1) // 2] for source in range(2) for number in range(sum(it[0] == source for it in lines))]
        assert len(lines) > 100
    return f"{len(lines)} lines"
