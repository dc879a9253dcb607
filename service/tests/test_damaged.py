"""A job whose log can't be replayed is kept out, and the others are served: over SQLite and PostgreSQL, at a start and a take-over."""
from described import fits
from harness import CALL, Server, Service, configured, folder, lease_of, ran, served, sqlite, told_by, until
from postgres import postgres
from relkvanu_service import ack, savepoint
from test_metrics import scraped

SETTINGS = {"interval": 1 << 40, "timeout": 86_400_000}
SHAPE = [2]
# What is done to a job's rows, by its name, and what its damage says then.
DAMAGES = {
    "differs": ("update call set a = a + 1 where job = {job} and seq = 5", "and this program answers"),
    "cut": ("delete from call where job = {job} and seq = 5", "call 5 is missing"),
    "garbled": ("update call set line = 'x' || line where job = {job} and seq = 5", "is no call"),
    "negative": ("update call set waiting = -1 where job = {job} and seq = 5", "a row of call has"),
    "imaged": ("update image set event = event + 1 where job = {job}", "its digest is not that of what it says"),
    "opened": ("update job set config = 'x' || config where job = {job}", "a row of job has"),
    "phased": ("insert into phase values({job}, 'dancing', null, null, null, null)", "a row of phase has"),
}
# The columns of the tables that are damaged. PostgreSQL makes others itself.
DAMAGED = {
    "job": "job, name, config, shape, started, first, library", "call": CALL, "phase": "job, phase, record, at, term, failed",
    "image": "job, seq, at, digest, shape, completed, event, bytes, text",
}
ROWS = ("job", "call", "request", "image", "image_part", "size", "ack_size", "phase", "subtask_state", "figure", "past", "summary")
REQUESTS = (
    ("GET", "", None), ("DELETE", "", None), ("POST", "/calls", {"calls": [{"call": "tick"}]}), ("POST", "/fence", {"first_name": "9"}),
    ("POST", "/advance", {"term": 9, "first_name": "9"}), ("POST", "/garbage", {"files": []}), ("POST", "/checkpoints", {}), ("POST", "/stop", {}),
    ("POST", "/begin", {}), ("PATCH", "/settings", {"interval": 5000}), ("PUT", "/storage", {"folder": "/srv"}), ("GET", "/records", None), ("GET", "/records/1", None), ("GET", "/history", None),
    ("GET", "/records/1/acks", None), ("GET", "/files", None), ("GET", "/files/1", None), ("GET", "/log", None), ("GET", "/events", None),
    ("GET", "/stream", None), ("GET", "/samples", None), ("GET", "/term", None),
)


class Sqlite:
    """The rows of an SQLite file whose service may run."""

    def __init__(self, path):
        self.path = path

    def sql(self, text):
        return "\n".join("|".join("" if cell is None else str(cell) for cell in row) for row in sqlite(self.path, text))


def rows_of(database, jobs):
    """All rows that a database has of jobs."""
    numbers = ", ".join(str(number) for number in jobs)
    return {table: database.sql(f"select * from {table} where job in ({numbers}) order by 1, 2, 3") for table in ROWS}


def number_of(database, name):
    return int(database.sql(f"select job from job where name = '{name}'"))


def filled(service, names):
    """Jobs with a complete savepoint and a pending one."""
    for name in names:
        job = service.open(name, SETTINGS, SHAPE, 10)
        job.calls([savepoint(), ack(1, "0.0", [1], sizes=[10]), ack(1, "0.1", [2], sizes=[20]), savepoint(), ack(2, "0.0", [3], sizes=[30])])


def seen(job):
    state = job.state()
    return {name: state[name] for name in ("mode", "seq", "live", "files", "bytes", "choice", "shape", "phase")}


def refused(answer, name, said):
    status, headers, body = answer
    assert status == 503 and body["reason"] == "damaged" and said in body["error"] and name in body["error"], (name, answer)
    assert int(headers["retry-after"]) > 0, headers


def imaged(database, name):
    """Whether the job has an image of its last call."""
    number = number_of(database, name)
    return database.sql(f"select count(*) from image where job = {number}") != "0"


def put_damage(database, names):
    for name in names:
        database.sql(DAMAGES[name][0].format(job=number_of(database, name)))


def keep_rows(database, numbers):
    wanted = ", ".join(map(str, numbers))
    for table, columns in DAMAGED.items():
        database.sql(f"create table kept_{table} as select {columns} from {table} where job in ({wanted})")


def mend(database, numbers):
    """Puts the rows back as they were kept."""
    wanted = ", ".join(map(str, numbers))
    for table, columns in DAMAGED.items():
        database.sql(f"delete from {table} where job in ({wanted})")
        database.sql(f"insert into {table}({columns}) select {columns} from kept_{table}")
        database.sql(f"drop table kept_{table}")


def is_kept_out(server, name, said):
    """Each request for a job is refused, that for one of its name too."""
    for method, path, body in REQUESTS:
        refused(server.request(method, f"/v1/jobs/{name}{path}", body), name, said)
    refused(server.request("POST", "/v1/jobs", {"name": name, "settings": SETTINGS, "shape": SHAPE}), name, said)
    shown = server.get(f"/v1/view/{name}")[2]
    assert shown["job"] is None and name in [job["name"] for job in shown["damaged"]], shown


def fit_the_description(server):
    """The lists, the page's view and a refusal are as the API's description has them."""
    job = "/v1/jobs/{job}"
    for path, route, status in (("/v1/jobs", "/v1/jobs", 200), ("/v1/view", "/v1/view", 200), ("/v1/view/cut", "/v1/view/{job}", 200), ("/v1/jobs/cut", job, 503)):
        told = server.get(path)
        assert told[0] == status, (path, told)
        fits("GET", route, status, told[2])


def looked_at(server, database, sound):
    """What the service shows of jobs of which some are damaged. Returns their rows."""
    damaged = server.service.damaged()
    assert set(damaged) == set(DAMAGES), damaged
    assert [job["name"] for job in server.service.jobs()] == list(sound), server.service.jobs()
    for name, (_, said) in DAMAGES.items():
        assert said in damaged[name], (name, damaged[name])
        is_kept_out(server, name, said)
        assert f'relkvanu_job_damaged{{job_name="{name}"}}' in scraped(server)[1], name
        assert f"job {name} is damaged, and is kept out: " in server.log(), name
    status, told, wrong = told_by("jobs", "--url", server.url)
    assert status == 0 and all(f"job {name} is damaged" in wrong and name not in told for name in DAMAGES), (told, wrong)
    fit_the_description(server)
    told = ran("check", "--database", server.database if isinstance(database, Sqlite) else database.url, status=1)
    for name, (_, said) in DAMAGES.items():
        assert any(f"job {name}" in line and said in line for line in told.splitlines()), (name, told)
    assert f"job good: {sound['good']['seq']} calls" in told, told


def damaged_and_mended(server, database, start, stop):
    """Damages jobs while no service runs, looks at what the others do then, and mends them."""
    names = ["good", *DAMAGES, "other"]
    filled(server.service, names)
    until(lambda: all(imaged(database, name) for name in names), told=lambda: database.sql("select job, count(*) from image group by job"))
    # calls that an image does not have
    for name in names:
        server.service.job(name).calls([ack(2, "0.1", [4]), savepoint()])
    before = {name: seen(server.service.job(name)) for name in names}
    known = {name: server.service.job(name).state() for name in DAMAGES}
    stop()
    numbers = {name: number_of(database, name) for name in DAMAGES}
    keep_rows(database, numbers.values())
    # those of the calls are replayed from the beginning
    for name in ("differs", "cut", "garbled", "negative"):
        database.sql(f"delete from image where job = {numbers[name]}")
    put_damage(database, DAMAGES)
    rows = rows_of(database, numbers.values())
    start()
    sound = {name: before[name] for name in ("good", "other")}
    assert {name: seen(server.service.job(name)) for name in sound} == sound
    looked_at(server, database, sound)
    # the others go on, also to another start; a new job gets none of the numbers
    server.service.job("good").calls([ack(3, "0.0", [5]), ack(3, "0.1", [6])])
    filled(server.service, ["new"])
    assert number_of(database, "new") not in numbers.values()
    stop()
    start()
    assert set(server.service.damaged()) == set(DAMAGES) and len(server.service.jobs()) == 3
    stop()
    assert rows_of(database, numbers.values()) == rows, "a row of a damaged job has changed"
    mend(database, numbers.values())
    start()
    assert server.service.damaged() == {} and {name: seen(server.service.job(name)) for name in DAMAGES} == {name: before[name] for name in DAMAGES}
    assert not [key for key in scraped(server)[1] if key.startswith("relkvanu_job_damaged")]
    # a place that an engine knew before is one of this log
    for name, state in known.items():
        assert server.get(f"/v1/jobs/{name}/events?after={state['seq']}&log={state['log']}")[0] == 200, name
    server.service.job("cut").calls([ack(3, "0.0", [7]), ack(3, "0.1", [8])])
    until(lambda: any(record["id"] == 3 and record["how"] == "completed" for record in server.service.job("cut").records()))


def damaged_key(server, database, damage):
    """A key whose answer can't be read: its request alone is refused, and nothing is made under it again. The process goes on."""
    job = Service(server.url).open("orders", SETTINGS, SHAPE)
    path, body = "/v1/jobs/orders/calls", {"calls": [{"call": "savepoint"}]}

    def told(key):
        return server.request("POST", path, body, headers={"Idempotency-Key": key})

    first = told("first")
    assert first[0] == 200 and told("first")[2] == first[2] and told("second")[0] == 200
    database.sql(damage)
    seq = job.state()["seq"]
    for _ in range(2):
        status, headers, answer = told("first")
        assert status == 503 and answer["reason"] == "damaged" and "a row of request has" in answer["error"] and int(headers["retry-after"]) > 0, answer
    assert "can't be read: a row of request has" in server.log()
    assert job.state()["seq"] == seq and told("second")[0] == 200 and told("third")[0] == 200 and job.state()["seq"] == seq + 1
    assert server.process.poll() is None and Service(server.url).damaged() == {}


def test_a_key_that_is_damaged_over_sqlite():
    with served() as server:
        return damaged_key(server, Sqlite(server.database), "update request set answers = cast(x'ff' as text) where key = 'first'")


def test_a_key_that_is_damaged_over_postgres():
    with postgres() as database, served(database=database.url) as server:
        database.sql("alter table request alter column answers drop not null")
        return damaged_key(server, database, "update request set answers = null where key = 'first'")


def test_over_sqlite():
    with served(args=["--image-calls", "5"]) as server:
        return damaged_and_mended(server, Sqlite(server.database), server.start, server.stop)


def test_over_postgres():
    with postgres() as database, served(database=database.url, args=["--image-calls", "5"]) as server:
        return damaged_and_mended(server, database, server.start, server.stop)


def test_a_take_over():
    """A job is damaged while its service runs: a standby that comes then and takes over keeps it out."""
    with postgres() as database, folder() as at:
        words = configured(at, f"lease_seconds = {lease_of(2)}\n")
        first, second = Server(at, database.url, words).start(), Server(at, database.url, words)
        service = Service(first.url)
        filled(service, ["good", "differs"])
        before = seen(service.job("good"))
        put_damage(database, ["differs"])
        second.stand_by()
        assert service.damaged() == {} and service.job("differs").state()["seq"] == 7
        first.kill()
        second.wait_ready()
        service = Service(second.url)
        assert list(service.damaged()) == ["differs"] and seen(service.job("good")) == before
        is_kept_out(second, "differs", DAMAGES["differs"][1])
