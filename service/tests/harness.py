"""What the tests share: a service that is started, killed and stopped, and the oracle that its log is compared with."""
import atexit
import ctypes
import fcntl
import glob
import http.client
import json
import os
import random
import re
import shutil
import signal
import socket
import sqlite3
import ssl
import subprocess
import sys
import tempfile
import threading
import time
from contextlib import closing, contextmanager

from run import Skipped

from busy import slowed  # (run.py says where it is)

HERE = os.path.dirname(os.path.realpath(__file__))
SERVICE = os.path.dirname(HERE)
TOP = os.path.dirname(SERVICE)
sys.path[:0] = [f"{SERVICE}/client/python", f"{TOP}/bindings/python"]
sys.path += [f"{TOP}/faults", f"{TOP}/tests"]
import relkvanu_service  # noqa: E402  (from there)

# Where service/build puts the library, for the Python package.
os.environ.setdefault("RELKVANU_LIB", f"{SERVICE}/target/library")
PROGRAM = os.environ.get("RELKVANU_PROGRAM", f"{SERVICE}/target/debug/relkvanu")
LOG_ORACLE = os.environ.get("RELKVANU_LOG_ORACLE", f"{TOP}/crates/ckpt_log/out/ckpt_log")
ENGINE = f"{os.path.dirname(PROGRAM)}/examples/engine"  # in Rust
ENVIRONMENT = {**os.environ, "PYTHONPATH": f"{TOP}/bindings/python:{SERVICE}/client/python"}  # where verbs are that Python has
# No checkpoint comes due while a test runs, however busy the machine: its calls name the numbers of records.
SETTINGS = {"interval": 1 << 40}


# The ports that tests listen on are below those that the system gives to connections, and each is one process's of the tests, of
# another run on this machine too: the process has a lock on the port's file for as long as it lives.
PORTS = range(20000, 32000)
_held = []


def lease_of(seconds):
    """The seconds of a lease that processes keep on an idle machine, or up to four times as many."""
    return round(seconds * min(4.0, max(1.0, slowed() / 2)))


def free_port():
    locks = f"{tempfile.gettempdir()}/relkvanu-ports"
    if not os.path.isdir(locks):
        os.makedirs(locks, exist_ok=True)
        os.chmod(locks, 0o1777)
    while True:
        port = random.choice(PORTS)
        try:
            held = open(f"{locks}/{port}", "a", encoding="utf-8")
            fcntl.flock(held, fcntl.LOCK_EX | fcntl.LOCK_NB)
            with socket.socket() as it:
                it.bind(("127.0.0.1", port))
        except OSError:
            continue
        _held.append(held)
        return port


def content(path):
    with open(path, encoding="utf-8", errors="replace") as it:
        return it.read()


def save(path, text):
    with open(path, "w", encoding="utf-8") as it:
        it.write(text)


def needed(*programs):
    """Skips a test whose programs are not here. They are names, or paths of what is built."""
    for program in programs:
        if not shutil.which(program):
            raise Skipped(os.path.basename(program), f"{program} is not here")


def folders(at, *names):
    for name in names:
        os.mkdir(f"{at}/{name}")


def process_status(pid):
    """What the system says of a process, by its names: sizes are in kB."""
    return dict(line.split(":", 1) for line in content(f"/proc/{pid}/status").splitlines())


def memory(server, name="VmRSS"):
    """What a service has in memory, in KiB, by a name of the system's; `Threads` is a number."""
    return int(process_status(server.process.pid)[name].split()[0])


def processor_times(path):
    """The seconds that a process or a thread with this folder in /proc has run, as a user and in the system."""
    return [int(ticks) / os.sysconf("SC_CLK_TCK") for ticks in content(f"{path}/stat").rpartition(")")[2].split()[11:13]]


def told_by(*words, before=(), **around):
    """The status of the program with these words, what it says on standard output, and what on standard error. `before` are words before its name."""
    given = [str(it) for it in (*before, PROGRAM, *words)]
    told = subprocess.run(given, env={**ENVIRONMENT, **around}, capture_output=True, text=True, timeout=COMMAND, check=False)
    return told.returncode, told.stdout, told.stderr


def ran(*words, status=0, **given):
    """What the program prints on standard output, and after it on standard error, where it says nothing if it has done its work."""
    found, out, wrong = told_by(*words, **given)
    assert found == status and (status or not wrong), (words, found, out, wrong)
    return out + wrong


# The folder of a run (run.py) with what its tests make once, if they are tests of such a run.
TEMPLATES = os.environ.get("RELKVANU_TEMPLATES")


def made_once(at, name, make):
    """The path of what `make(path)` has made: for all tests of a run, or in the folder `at`. Tests only read it."""
    if not TEMPLATES:
        make(f"{at}/{name}")
        return f"{at}/{name}"
    path = f"{TEMPLATES}/{name}"
    with open(f"{TEMPLATES}/lock", "a", encoding="utf-8") as lock:
        fcntl.flock(lock, fcntl.LOCK_EX)
        if not os.path.exists(path):
            make(f"{path}~")
            os.rename(f"{path}~", path)
    return path


# How many times as long a busy machine may take.
BUSY = 8
# Seconds in which others let go of an SQLite database, and in which a command ends.
LOCKED, COMMAND = BUSY * 20, BUSY * 60


_servers = []


class Server:
    """A service in a folder of its own, or over the database of another one. At another address than that of this machine requests have its token."""

    ca = None  # of one that speaks TLS: the path of the certificate that is trusted

    def __init__(self, folder, database=None, args=(), prefix=(), host="127.0.0.1", token=None, port=None):
        self.folder, self.args, self.prefix, self.host, self.token = folder, list(args), list(prefix), host, token
        self.port = port or free_port()
        self.url = f"http://{host}:{self.port}"
        self.database = database or f"{folder}/relkvanu.db"
        self.log_path = f"{folder}/log-{self.port}"
        self.process = None
        _servers.append(self)

    def start(self, ready=True):
        words = [PROGRAM, "serve", "--listen", f"{self.host}:{self.port}", "--database", self.database, *self.args]
        if not any(word.startswith("--history") for word in self.args):
            words += ["--history", f"{self.folder}/history-{self.port}"]
        with open(self.log_path, "ab") as log:
            self.process = subprocess.Popen([*self.prefix, *words], stderr=log, stdout=log, stdin=subprocess.DEVNULL)
        atexit.register(self.process.kill)  # a test that fails leaves none behind
        if ready:
            self.wait_ready()
        return self

    def stand_by(self):
        """Starts it beside a leader, and waits until it has seen that one."""
        before = self.log().count("another process leads") if self.process else 0
        self.start(ready=False)
        until(lambda: self.log().count("another process leads") > before)
        return self

    def wait_ready(self, seconds=30, kept=False):
        """Waits until it answers for each job. It may end meanwhile if somebody starts it again."""
        for _ in looks(seconds, 0.01):
            if self.process.poll() is not None and not kept:
                raise AssertionError(f"the service ended with {self.process.returncode}: {self.log()[-600:]}")
            if self.get("/readyz")[0] == 200 and self.has_replayed():
                return
        raise AssertionError(f"the service is not ready: {self.log()[-600:]}")

    def kill(self):
        process = self.process  # somebody may start it again at once (`kept`)
        process.send_signal(signal.SIGKILL)
        process.wait()

    def again(self):
        """It is killed, and starts again."""
        self.kill()
        self.start()

    def stop(self):
        process = self.process
        if process and process.poll() is None:
            process.send_signal(signal.SIGCONT)
            process.terminate()
            try:
                process.wait(BUSY * 20)
            except subprocess.TimeoutExpired:
                print(f"a service did not stop: {self.log()[-600:]}")
                process.kill()
                process.wait()
        return process and process.returncode

    def ended(self, seconds=20):
        """Waits until it ends by itself, and returns its status."""
        try:
            return self.process.wait(BUSY * seconds)
        except subprocess.TimeoutExpired:
            raise AssertionError(f"the service has not ended: {self.log()[-600:]}") from None

    def refuses(self, text, status=78):
        """It starts, and ends with this status and a text."""
        found = self.start(ready=False).ended()
        assert found == status and text in self.log(), (found, text, self.log()[-600:])

    def log(self):
        return content(self.log_path)

    def has_replayed(self):
        """Whether it has replayed all jobs since it leads."""
        text = self.log()
        return text.rfind("all jobs are replayed ") > text.rfind("leads epoch=")

    def replayed(self):
        """How many calls each start made again, once the last one has done so."""
        until(self.has_replayed, 600)
        return [int(count) for count in re.findall(r" all jobs are replayed jobs=\d+ calls=(\d+)", self.log())]

    def metric(self, name, token=None):
        """The value of a metric; None: it has none."""
        found = re.search(rf"^{re.escape(name)} (\S+)$", self.get("/metrics", token)[2] or "", re.M)
        return found and float(found[1])

    @property
    def service(self):
        """A client of it."""
        return Service(self.url, token=self.token)

    def ask(self, *words, status=0):
        """What a command prints that asks it."""
        return ran(*words, "--url", self.url, status=status)

    def ask_json(self, *words):
        return json.loads(self.ask(*words, "--json"))

    def get(self, path, token=None):
        return self.request("GET", path, token=token)

    def request(self, method, path, body=None, token=None, headers=()):
        """A status, the headers and the body; 0 if there is no answer."""
        patience = 60 + BUSY * 10  # longer than the longest poll
        if self.ca:
            connection = http.client.HTTPSConnection(self.host, self.port, timeout=patience, context=ssl.create_default_context(cafile=self.ca))
        else:
            connection = http.client.HTTPConnection(self.host, self.port, timeout=patience)
        sent = {"Content-Type": "application/json", **dict(headers)}
        if token or self.token:
            sent["Authorization"] = f"Bearer {token or self.token}"
        try:
            connection.request(method, path, body if body is None or isinstance(body, (str, bytes)) else json.dumps(body), sent)
            answer = connection.getresponse()
            text = answer.read()
        except (OSError, http.client.HTTPException):
            return 0, {}, None
        finally:
            connection.close()
        try:
            told = json.loads(text)
        except ValueError:
            told = text.decode(errors="replace")
        return answer.status, {name.lower(): value for name, value in answer.getheaders()}, told


class Numbered(relkvanu_service.Job):
    """A job whose tasks the test is: it makes their calls in the term that runs, and numbers their files itself, by names that it reserved."""

    def _make(self, calls, key, **more):
        if any(call["call"] in ("ack", "decline") and "term" not in call for call in calls):
            more["term"] = self.term()["term"]
        return super()._make(calls, key, **more)

    def log(self, after=0, terms=True):
        return super().log(after, terms)

    def reserve(self, count):
        """Reserves names in the term that runs, and returns them."""
        term = self.term()["term"]
        told = [self.call(relkvanu_service.reserve(term, min(count - done, 1 << 16))) for done in range(0, count, 1 << 16)]
        return range(int(told[0]["first"]), int(told[0]["first"]) + count)


class Service(relkvanu_service.Service):
    """A client whose jobs are `Numbered`. One that it opens has reserved the names from 1 to 500, or to another one, by its second call."""

    def open(self, name, settings, shape, reserved=500, **more):
        opened = super().open(name, settings, shape, **more)
        job = Numbered(self, name, opened.opened, opened.storage)
        if reserved and job.state()["next_name"] == "1":
            job.reserve(reserved)
        return job

    def job(self, name):
        return Numbered(self, name)


class Engine(threading.Thread):
    """Acknowledges each record of these jobs, without a file, until it is told to stop."""

    def __init__(self, *jobs):
        super().__init__(daemon=True)
        self.jobs, self.over = jobs, threading.Event()
        self.start()

    def run(self):
        while not self.over.wait(0.02):
            for job in self.jobs:
                for record in (it["id"] for it in job.state()["live"] if not it["done"]):
                    if missing := job.record(record)["missing"]:
                        job.calls([relkvanu_service.ack(record, subtask) for subtask in missing])  # somebody may have ended it, or the term

    def stop(self):
        self.over.set()
        self.join()


@contextmanager
def kept(*servers):
    """Until the end of the block each of these services is started again if it ended, as systemd does. Gives the statuses that they ended with."""
    ended, over = [], threading.Event()

    # (an error here shows as one of a thread, which fails the test)
    def keep(server):
        while not over.wait(0.05):
            status = server.process.poll()
            if status is not None:
                ended.append(status)
                server.start(ready=False)

    threads = [threading.Thread(target=keep, args=(server,), daemon=True) for server in servers]
    for thread in threads:
        thread.start()
    try:
        yield ended
    finally:
        over.set()
        for thread in threads:
            thread.join()


def tell_logs(at):
    """Prints how the logs of services and databases in a folder end, of a test that fails."""
    for path in sorted(path for name in ("log-*", "*/log-*", "*/log") for path in glob.glob(f"{at}/{name}") if os.path.isfile(path)):
        with open(path, "rb") as it:
            it.seek(max(0, os.path.getsize(path) - 1500))
            print(f"{path} ends:\n{it.read().decode(errors='replace')}")


@contextmanager
def folder():
    """At its end the services in it are killed."""
    # a process that was killed a moment ago may still make a file in it, as one of PostgreSQL's
    with tempfile.TemporaryDirectory(prefix="relkvanu-", ignore_cleanup_errors=True) as it:
        try:
            yield it
        except Skipped:
            raise
        except Exception:
            tell_logs(it)
            raise
        finally:
            for server in (one for one in _servers if one.process and f"{one.folder}".startswith(it)):
                server.kill()


@contextmanager
def small_disk(at, size, name="small"):
    """A file system of this size, in the words of `mount`, in a folder of this name."""
    path = f"{at}/{name}"
    os.chmod(at, 0o755)  # PostgreSQL runs as a user of its own
    os.mkdir(path)
    words = ["mount", "-t", "tmpfs", "-o", f"size={size}", "tmpfs", path]
    if os.geteuid() != 0 or subprocess.run(words, stderr=subprocess.DEVNULL, check=False).returncode:
        raise Skipped("root", "a small file system can't be mounted here")
    try:
        yield path
    finally:
        subprocess.run(["umount", "--lazy", path], check=False, stderr=subprocess.DEVNULL)


@contextmanager
def served(config=None, args=(), tokens=(), **given):
    """A service in a folder of its own, with the text of a configuration and the lines of a file `tokens`, or without."""
    with folder() as at:
        more = [*args, *(configured(at, config) if config else ())]
        if tokens:
            save(f"{at}/tokens", "".join(f"{line}\n" for line in tokens))
            more += ["--token-file", f"{at}/tokens"]
        yield Server(at, args=more, **given).start()


@contextmanager
def served_job(name, settings, shape, reserved=500, **given):
    """The same with a job."""
    with served(**given) as server:
        yield server, Service(server.url).open(name, settings, shape, reserved)


def configured(at, text):
    """The words of a service with this configuration, in a file of the folder."""
    path = f"{at}/service-{random.randrange(1 << 30)}.toml"
    save(path, text)
    return ["--config", path]


def leader_and_standby(at, url, text, *prefixes):
    """Two services of one database of PostgreSQL with this configuration: one leads, and the other has seen it."""
    args, (first, second) = configured(at, text), (*prefixes, (), ())[:2]
    return Server(at, url, args, first).start(), Server(at, url, args, second).stand_by()


def lose_history(server):
    """Deletes the history of a service, which starts again."""
    server.stop()
    for path in glob.glob(f"{server.folder}/history-{server.port}*"):
        os.remove(path)
    server.start()


def caught_up(job):
    """Waits until the history has read all calls."""
    until(lambda: job.files()["upto"] == job.state()["seq"])


def counts(job):
    """How many files wait for deletion, and how many are taken."""
    files = job.state()["files"]
    return files["waiting"], files["taken"]


@contextmanager
def over_copy(server, job="orders"):
    """Starts a service over a copy of a database. Gives the state of a job and the calls that its log has."""
    server.start()
    try:
        it = Service(server.url).job(job)
        yield it.state(), list(it.log())
    finally:
        server.stop()


# The script's texts of answers of the API, by the member that tells what was called, and of some by its value.
TEXTS = {
    "reserve": "reserved {first}", "forfeit": "forfeited", "savepoint": "savepoint triggered {id}", "dispose": "disposed {released}",
    "cancel": "cancelled {dropped} {released}", "deleted": "deleted {deleted}", "undeleted": "undeleted {undeleted}",
    "tick": {"triggered": "tick expired {expired} triggered {id}", "held": "tick expired {expired} held {why}", "failed": "tick expired {expired} failed"},
    "ack": {"pending": "ack pending {missing}", "completed": "ack completed {dropped} {released}", "late": "ack late {handed_out}"},
    "decline": {"late": "decline late", "aborted": "decline aborted {released}", "failed": "decline failed {released}"},
    "restore": {"fresh": "restored fresh {released}", "checkpoint": "restored checkpoint {id} {released}", "savepoint": "restored savepoint {id} {released}"},
}


def answer_text(answer):
    """The script's text of an answer of the API, or None if the call was not made."""
    if any(word in answer for word in ("refused", "fenced", "no_memory", "not_made")):
        return None
    if "files" in answer:
        return "take " + (" ".join(answer["files"]) or "none")
    word = next(word for word in TEXTS if word in answer)
    text = TEXTS[word] if isinstance(TEXTS[word], str) else TEXTS[word][answer[word]]
    return text.format(**answer)


def script(state, shape, log):
    """The script of a job: its opening, and the lines of its log."""
    it = state["settings"]
    keep = "keep" if it["keep_on_cancel"] else "delete"
    numbers = [it[name] for name in ("interval", "pause", "at_once", "timeout", "tolerable", "retained")]
    opening = [f"config {' '.join(map(str, numbers))} {keep}", f"job {' '.join(map(str, shape))}", f"start {state['opened']}"]
    return "\n".join([*opening, *(entry["line"] for entry in log)]) + "\n"


def check_log(state, shape, log):
    """The log is without gaps, and the proved program answers its lines as the service did."""
    assert [entry["seq"] for entry in log] == list(range(1, len(log) + 1)), "the log has gaps"
    if not os.path.exists(LOG_ORACLE):
        raise Skipped(os.path.basename(LOG_ORACLE), "it is not built")
    told = subprocess.run([LOG_ORACLE], input=script(state, shape, log), stdout=subprocess.PIPE, text=True, check=False)
    assert told.returncode == 0, f"the oracle ended with {told.returncode}"
    lines = [line for line in told.stdout.splitlines() if not begins_term(line)]
    assert len(lines) == len(log), f"{len(lines)} answers of {len(log)} calls"
    for entry, line in zip(log, lines):
        assert entry["answer"] == line, f"call {entry['seq']} {entry['line']!r}: {entry['answer']!r}, oracle {line!r}"
    return len(lines)


def begins_term(line):
    """Whether it is the second line of an answer, of which the log has the first."""
    return line.startswith("term ") and line != "term 1"


# Numbers of answers in include/relkvanu.h.
ACK_PENDING, ACK_COMPLETED, TAKEN, RESERVED, NAMED = 7, 8, 18, 56, 59
CALL = "job, seq, at, record, line, what, a, b, files, ended, waiting"
WHOLE = f"(select {CALL} from archive union all select {CALL} from call)"


def text_of(what, a, b, files):
    """The text of an answer as a row of the log has it: what the library says of its numbers, or what docs/LOGS.md has for a log alone."""
    if what in (TAKEN, RESERVED, NAMED):
        return {TAKEN: f"take {files}", RESERVED: f"reserved {a}", NAMED: "term 1"}[what]
    from relkvanu import coordinator, header  # loads the library, which a load needs not

    text, answer = (ctypes.c_uint8 * 100)(), header.relkvanu_answer(header.DONE, what, a % (1 << 64), b % (1 << 64))
    length = coordinator._shared().relkvanu_answer_text(ctypes.byref(answer), text, len(text))
    assert 0 < length <= len(text), (what, a, b)
    return bytes(text[:length]).decode()


def entry_of(seq, at, line, *answer):
    return {"seq": seq, "at": at, "line": line, "answer": text_of(*answer)}


class Archive:
    """All of an SQLite log: a trigger keeps what is cut."""

    def __init__(self, path):
        self.path = path
        old = ", ".join(f"old.{name}" for name in CALL.split(", "))
        self.rows(f"create table archive as select {CALL} from call where 0")
        self.rows(f"create trigger archived before delete on call begin insert into archive values({old}); end")

    def rows(self, query):
        return sqlite(self.path, query)

    def log(self, job):
        rows = self.rows(f"select seq, at, line, what, a, b, files from {WHOLE} it where job = (select job from job where name = '{job}') order by seq")
        return [entry_of(*row) for row in rows]

    def cut(self, job):
        """The last call that was cut."""
        return self.rows(f"select coalesce(max(seq), 0) from archive where job = (select job from job where name = '{job}')")[0][0]

    def images(self, job):
        return [seq for (seq,) in self.rows(f"select seq from image where job = (select job from job where name = '{job}') order by seq")]


class PgArchive(Archive):
    """The same of a log in PostgreSQL."""

    def __init__(self, database):
        self.database = database
        database.sql("""create table archive (like call);
            create function archived() returns trigger language plpgsql as 'begin insert into archive select old.*; return old; end';
            create trigger archived before delete on call for each row execute function archived()""")

    def rows(self, query):
        return [tuple(row.values()) for row in json.loads(self.database.sql(f"select coalesce(json_agg(it), '[]') from ({query}) it"))]


def sqlite(path, statement, *given):
    """The rows of a statement that is made in an SQLite database. (The connection is closed by itself only when Python collects.)"""
    with closing(sqlite3.connect(path, timeout=LOCKED)) as base, base:
        return base.execute(statement, given).fetchall()


@contextmanager
def locked(path):
    """Nobody writes to an SQLite database meanwhile."""
    with closing(sqlite3.connect(path, isolation_level=None, timeout=LOCKED)) as base:
        base.execute("begin immediate")
        yield
        base.execute("rollback")


def beside(work, *given):
    """A thread that has begun to do this."""
    thread = threading.Thread(target=work, args=given)
    thread.start()
    return thread


def at_once(work, each):
    """Does this with each of these, all at the same time."""
    for thread in [beside(work, one) for one in each]:
        thread.join()


def raised(kind, call, *words):
    """The error of this kind that a call raises."""
    try:
        call(*words)
    except kind as error:
        return error
    raise AssertionError(f"it raised no {kind}: {call}")


def looks(seconds, each):
    """Moments to look whether something has come to be, for so many seconds of an idle machine. Each look costs a request or a process, so those
    after the first are seldom: up to ten times as long after one another as the first, and a tenth of a second."""
    end, pause = time.monotonic() + BUSY * seconds, each
    while time.monotonic() < end:
        yield
        time.sleep(pause)
        pause = max(each, min(0.1, 1.05 * pause, 10 * each))


def until(said, seconds=20, each=0.05, told=lambda: ""):
    """Waits until `said()` is true, and returns it. If it does not come to be in so many seconds of an idle machine, the error says what `told()`
    returns. A test of how long something takes compares the time itself."""
    for _ in looks(seconds, each):
        if found := said():
            return found
    raise AssertionError(f"it did not come to be in time {told()}")


def how_ended(record):
    """How a record ended by the history, which may not have it yet."""
    return (record["history"] or {}).get("how")
