"""Starts over the logs of several jobs: each job is answered once it is replayed, and clients wait for it."""
import http.server
import json

from described import fits
from harness import SETTINGS, Server, Service, beside, configured, folder, lease_of, raised, until
from postgres import postgres
from relkvanu_service import Failed, ack, savepoint
from test_damaged import REQUESTS
from test_metrics import scraped

# an acknowledgement has 68 kB, and a piece 2 MB
JOBS = {"large": 16, "few": 2, "larger": 32, "none": 0, "last": 16}


def seen(job):
    state = job.state()
    return {name: state[name] for name in ("mode", "seq", "live", "files", "choice", "last_event", "shape")}


def filled(service, jobs, files):
    """Opens jobs with so many acknowledgements each, of so many files. Returns what they are."""
    for name, acks in jobs.items():
        job = service.open(name, SETTINGS, [100], 0)
        job.advance(1, 10**15)
        for subtask in range(acks):
            if subtask == 0:
                job.call(savepoint())
            job.call(ack(1, f"0.{subtask}", job.reserve(files)))
    return {name: seen(service.job(name)) for name in jobs}


def replayed(server):
    """Fills the jobs, starts again after a kill, and compares them."""
    before = filled(server.service, JOBS, 4000)
    calls = sum(state["seq"] for state in before.values())
    server.again()
    assert server.replayed()[-1] == calls, (server.replayed(), calls)
    assert {name: seen(server.service.job(name)) for name in JOBS} == before
    values = scraped(server)[1]
    assert values["relkvanu_replay_jobs"] == values["relkvanu_replayed_jobs"] == len(JOBS), values


def test_large_logs():
    with postgres() as database, folder() as at:
        for url in (None, database.url):
            replayed(Server(at, url, ["--image-calls", "0"]).start())


def not_replayed(server, jobs):
    """What a service says of jobs of which none can be replayed now."""
    for method, path, body in REQUESTS:
        status, _, told = server.request(method, f"/v1/jobs/few{path}", body)
        assert (status, told["reason"]) == (503, "replaying") and "few is not replayed yet" in told["error"], (method, path, told)
        assert told["replay"]["jobs"] == jobs and told["replay"]["replayed"] == 0, told
    fits("GET", "/v1/jobs/{job}", 503, told)
    for method, path, body in (
        ("POST", "/v1/jobs", {"name": "few", "settings": SETTINGS, "shape": [100]}), ("GET", "/v1/view/few", None), ("GET", "/v1/jobs", None),
    ):
        assert server.request(method, path, body)[2]["reason"] == "replaying", path
    listed = server.get("/v1/jobs?at_once=1")[2]
    assert listed["jobs"] == [] and listed["replaying"] == sorted(JOBS), listed
    fits("GET", "/v1/jobs", 200, listed)
    view = server.get("/v1/view")[2]
    assert view["jobs"] == [] and view["job"] is None and view["replay"] == told["replay"], view
    fits("GET", "/v1/view", 200, view)
    values = scraped(server)[1]
    assert (values["relkvanu_replay_jobs"], values["relkvanu_replayed_jobs"], values["relkvanu_leader"]) == (jobs, 0, 1), values


def test_jobs_that_are_not_replayed_yet():
    """The service leads and answers, keeps its lease, and opens new jobs. Nothing is told or called of the others until they are replayed."""
    with postgres() as database, folder() as at:
        words = configured(at, f"lease_seconds = {lease_of(2)}\n")
        server, other = (Server(at, database.url, words) for _ in range(2))
        service = Service(server.start().url)
        before = filled(service, JOBS, 2)
        server.kill()
        with database.locked("subtask_state"):
            server.start(ready=False)
            until(lambda: server.get("/readyz")[0] == 200)
            other.stand_by()
            not_replayed(server, len(JOBS))
            made = service.open("new", SETTINGS, [1], 0).call(savepoint())
            assert made["seq"] == 2, made
            failed = raised(Failed, lambda: service.within(2).job("few").state())
            assert failed.status == 503, failed
            called = []
            waiting = beside(lambda: called.append(service.within(None).job("few").call(savepoint())))
            beat, epoch = map(int, database.sql("select beat, epoch from leader").split("|"))
            until(lambda: int(database.sql("select beat from leader")) > beat + 6, 60)
            assert int(database.sql("select epoch from leader")) == epoch and called == [] and other.get("/readyz")[0] == 503
        waiting.join()
        assert called[0]["seq"] == before["few"]["seq"] + 1, called
        assert {name: seen(service.job(name)) for name in JOBS if name != "few"} == {name: it for name, it in before.items() if name != "few"}
        assert {job["name"] for job in service.jobs()} == {"new", *JOBS} and server.get("/v1/jobs?at_once=1")[2]["replaying"] == []
        assert server.get("/v1/view")[2]["replay"] is None
        server.kill()
        other.wait_ready(60)
        assert seen(Service(other.url).job("large")) == before["large"] and Service(other.url).job("new").state()["seq"] == 2


def test_a_take_over_in_the_midst():
    """A standby that is still reading the log for the first time leads once nobody does, and clients with little patience wait for their jobs."""
    with postgres() as database, folder() as at:
        words = configured(at, f"lease_seconds = {lease_of(2)}\nimage_calls = 0\n")
        first, second = (Server(at, database.url, words) for _ in range(2))
        before = filled(Service(first.start().url), {"j1": 100}, 20)["j1"]
        first.stop()
        database.sql("insert into job select x, 'j' || x, config, shape, started, first, library from job, generate_series(2, 1200) x")
        columns = "seq, at, record, line, what, a, b, files, ended, waiting"
        database.sql(f"insert into call select x, {columns} from call, generate_series(2, 1200) x")
        first.start(ready=False)
        until(lambda: first.get("/readyz")[0] == 200)
        assert seen(Service(first.url, patience=2).job("j300")) == before
        second.start(ready=False)
        until(lambda: second.get("/readyz")[0] == 503)
        first.kill()
        until(lambda: second.get("/readyz")[0] == 200, 60)
        has_read = "another process leads" in second.log()
        assert seen(Service(second.url, patience=2).job("j200")) == before
        assert len(Service(second.url).jobs()) == 1200 and second.replayed()[-1] == 1200 * before["seq"], second.replayed()
        return f"it had read the log {'once' if has_read else 'in part'}"


class Starting(http.server.BaseHTTPRequestHandler):
    """Says how far it is, as its server's list has it, and at last answers."""

    def do_GET(self):
        calls = next(self.server.calls, None)
        told = {"jobs": []} if calls is None else {"error": "not yet", "reason": "replaying", "replay": {"jobs": 9, "replayed": 0, "calls": calls}}
        text = json.dumps(told).encode()
        self.send_response(200 if calls is None else 503)
        self.send_header("Content-Length", str(len(text)))
        self.end_headers()
        self.wfile.write(text)

    def log_message(self, *_):
        pass


def asked(calls):
    """Asks such a service, and returns whether it answered before the patience ended."""
    with http.server.ThreadingHTTPServer(("127.0.0.1", 0), Starting) as stub:
        stub.calls = iter(calls)
        serving = beside(stub.serve_forever)
        try:
            # the pauses alone are longer than that
            return Service(f"http://127.0.0.1:{stub.server_port}", patience=3).jobs() == []
        except Failed:
            return False
        finally:
            stub.shutdown()
            serving.join()


def test_a_client_waits_for_a_service_that_replays():
    assert asked(range(12)), "it replays more each time"
    assert not asked([7, *range(8)]), "it has begun anew, and is not as far as it was"
