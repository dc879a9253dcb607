"""A running job of the durable coordinator listens: the routes of the service that a single job has, over HTTP on a unix socket that its user alone can open.
Bodies and answers are those of service/web/openapi.json."""
import base64
import collections
import contextlib
import dataclasses
import http.server
import json
import os
import pathlib
import re
import socket
import socketserver
import stat
import threading
import time
from typing import TYPE_CHECKING, Any, Callable, Dict, List, Optional, Sequence, Tuple, Union
from urllib.parse import parse_qsl, urlsplit

from relkvanu.errors import BadArgument, Error, Fenced, OutOfMemory, Refused
from relkvanu.jobs import ANSWERS, Made, Phase, StoreError
from relkvanu.replies import Configured
from relkvanu.whole import Ending, Past

if TYPE_CHECKING:
    from relkvanu.runner import Runner

Body = Dict[str, Any]
MOST_BYTES = 8 << 20  # of a body
MOST_KEYS = 1000  # whose answers are kept
LIMITS = {  # of the settings
    "interval": (10, 1 << 40), "pause": (0, 1 << 40), "at_once": (1, 64), "timeout": (1, 1 << 40), "tolerable": (0, 1000), "retained": (1, 1000),
}
HOW = {Ending.COMPLETED: "completed", Ending.DECLINED: "declined", Ending.EXPIRED: "expired", Ending.DROPPED: "restored"}


class Problem(Exception):
    """An answer that is an error."""

    def __init__(self, status: int, text: str, **more: str) -> None:
        super().__init__(text)
        self.status, self.body = status, {"error": text, **more}


def _whole(text: Any, name: str, least: int, most: int) -> int:
    if isinstance(text, bool) or not isinstance(text, (int, str)) or not re.fullmatch(r"[0-9]{1,20}", str(text)) or not least <= int(text) <= most:
        raise Problem(400, f"{name} is no whole number from {least} to {most}", field=name)
    return int(text)


def _only(body: Body, *names: str) -> None:
    for name in body:
        if name not in names:
            raise Problem(400, f"{name} is no field here", field=name)


def _refusal(why: Error) -> Body:
    """Of a call of a list."""
    if isinstance(why, OutOfMemory):
        return {"no_memory": True}
    word = "fenced" if isinstance(why, Fenced) else "refused"
    file = getattr(why, "file", None)
    return {word: getattr(why, "name", str(why)), **({} if file is None else {"file": str(file)})}


def _told(made: Made) -> Body:
    word, how = ANSWERS[type(made.reply)]
    return {word: how, **vars(made.reply), "seq": made.place}


def _with_term(made: Made) -> Body:
    return {**_told(made), "term": made.term}


class Answers:
    """What the routes answer for the job of a runner."""

    def __init__(self, runner: "Runner", name: str) -> None:
        self.runner, self.store, self.name, self.opened = runner, runner.job, name, int(time.time() * 1000)
        self.report = runner.store.report
        self.keys: "collections.OrderedDict[str, Tuple[Body, Body]]" = collections.OrderedDict()
        self.lock = threading.Lock()  # of the keys: a request that comes again waits for the first

    def _unix(self, moment: int) -> int:
        """A moment of the store's clock."""
        return moment + int(time.time() * 1000) - int(self.runner.store.now())

    def _past(self) -> List[Past]:
        return self.store.history(1000)

    def seq(self) -> int:
        return int(self.runner.store.measures()["log_rows"])

    def placed(self, told: Body, made: Optional[Made] = None) -> Body:
        return {**told, "seq": made.place if made is not None else self.seq(), "epoch": self.report.epoch, "log": self.store.identity}

    # Reads.

    def jobs(self, query: Body) -> Body:
        return {"damaged": [], "epoch": self.report.epoch, "jobs": [self.state(query)], "log": self.store.identity, "next": None}

    def state(self, query: Body) -> Body:
        settings, shape = self.runner.store.job()
        phase, choice, counts = self.store.phase(), self.store.choice(), self.store.file_counts()
        with self.runner.store.read() as reads:
            due, expiry = reads.due(), reads.oldest_expiry()
        done = [it.ended for it in self._past() if it.ending is Ending.COMPLETED]
        files, seq = {"in_use": counts.in_use, "waiting": counts.waiting, "taken": counts.taken}, self.seq()
        return {
            "name": self.name, "settings": dataclasses.asdict(settings), "shape": list(shape), "opened": self.opened, "mode": self.store.mode().name.lower(),
            "phase": phase.phase.name.lower(), "stop": self._stop(), "seq": seq, "now": int(time.time() * 1000), "due": self._unix(due),
            "oldest_expiry": None if expiry is None else self._unix(expiry), "files": files, "bytes": {**dict.fromkeys(files, 0), "files": 0},
            "choice": {"kind": "fresh"} if choice is None else {"kind": choice.kind.value, "id": choice.id},
            "last_completed": self._unix(max(done)) if done else None, "last_event": seq, "first": 1, "image": None, "live": self._live(),
            "log": self.store.identity, "next_name": str(self.store.term().next_name), "storage": None,
        }

    def _stop(self) -> Optional[Body]:
        phase = self.store.phase()
        if phase.savepoint is None:
            return None
        at = next((it.triggered for it in self._past() if it.id == phase.savepoint), None)
        failed = phase.stop_failed.name.lower() if phase.stop_failed is not None else None
        return {"savepoint": phase.savepoint, "at": int(time.time() * 1000) if at is None else self._unix(at), "failed": failed}

    def _live(self) -> List[Body]:
        missing = {it.id: 0 if it.done else len(self.store.missing(it.id)) for it in self.store.live()}
        return [{"id": it.id, "kind": it.kind.value, "done": it.done, "missing": missing[it.id]} for it in self.store.live() if it.id in missing]

    def history(self, query: Body) -> Body:
        last = _whole(query.get("last", 100), "last", 0, 1000)
        return {"records": [self._figures(it) for it in self._past()[:last]], "upto": self.seq()}

    def _figures(self, it: Past) -> Body:
        seen = {name: getattr(it, name) if it.acks else None for name in ("first", "median", "p99", "slowest")}
        return {
            "id": it.id, "kind": it.kind.value, "how": HOW[it.ending], "triggered": self._unix(it.triggered), "ended": self._unix(it.ended), "acks": it.acks,
            "bytes": it.bytes, "millis": it.millis, "reason": it.reason or None, **seen}

    def _record(self, told: Optional[Body], live: Optional[Body], id: int) -> Body:
        """What became of a record, of the history or of what is live."""
        shape = live["shape"] if live is not None else list(self.runner.store.job()[1])
        if told is None:
            assert live is not None
            how, begun = "completed" if live["state"] == "done" else "pending", live["started"]
            told = dict.fromkeys(("first", "slowest", "median", "p99", "bytes", "millis", "reason", "ended"))
            told.update(kind=live["kind"], how=how, triggered=begun, acks=len(live["acks"]))
        at = {name: None if told[of] is None else told["triggered"] + told[of] for name, of in (("first_ack", "first"), ("last_ack", "slowest"))}
        return {
            "id": id, "kind": told["kind"], "shape": shape, "started": told["triggered"], "finished": told["ended"], "how": told["how"],
            "gone": None if live is not None else told["ended"], "why": None, **at, "slowest": None, "acks": told["acks"],
            "missing": self._missing(live, id), "more_missing": 0, "fresh_bytes": None, "full_bytes": None, **{
                name: told[name] for name in ("median", "p99", "bytes", "millis", "reason")}}

    def _missing(self, live: Optional[Body], id: int) -> List[str]:
        return [f"{v}.{i}" for v, i in self.store.missing(id)] if live is not None and live["state"] != "done" else []

    def _shown(self, id: int) -> Optional[Body]:
        """A live record."""
        try:
            with self.runner.store.read() as reads:
                shown: Body = reads.show(id).metadata
        except Refused:
            return None
        shown["started"] = self._unix(shown["started"])
        for ack in shown["acks"]:
            ack["files"] = [str(it) for it in ack["files"]]
        return shown

    def records(self, query: Body) -> Body:
        limit, before = _whole(query.get("limit", 100), "limit", 0, 1000), _whole(query.get("before", 1 << 62), "before", 0, 1 << 62)
        past = {it["id"]: it for it in map(self._figures, self._past())}
        lives = {it.id: self._shown(it.id) for it in self.store.live()}
        ids = sorted({*past, *(id for id, live in lives.items() if live is not None)}, reverse=True)
        found = [self._record(past.get(id), lives.get(id), id) for id in ids if id < before]
        found = [it for it in found if all(query.get(name, it[name]) == it[name] for name in ("how", "kind"))]
        return {"records": found[:limit], "upto": self.seq()}

    def record(self, query: Body, id: str) -> Body:
        number = _whole(id, "id", 1, 1 << 62)
        live = self._shown(number)
        past = next((self._figures(it) for it in self._past() if it.id == number), None)
        if live is None and past is None:
            raise Problem(404, f"job {self.name} has no record {number}, or its history does not reach back to it")
        return {"id": number, "live": live, "missing": None if live is None else self._missing(live, number), "history": self._record(past, live, number)}

    def states(self, query: Body, id: str) -> Body:
        number = _whole(id, "id", 1, 1 << 62)
        try:
            found = self.store.load(number)
        except StoreError as why:
            raise Problem(404, f"job {self.name} has no complete record {number}") from why
        assert found is not None
        parts = [{
            "subtask": f"{it.vertex}.{it.index}", "files": [str(file) for file in it.files], "sizes": [None] * len(it.files),
            "payload": base64.b64encode(it.payload).decode(), "bytes": it.bytes, "millis": it.millis} for it in found.parts]
        return {"id": number, "kind": found.kind.value, "shape": list(found.shape), "subtasks": parts}

    def files(self, query: Body) -> Body:
        limit = _whole(query.get("limit", 100), "limit", 0, 1000)
        with self.runner.store.read() as reads:
            taken = list(reads.taken_files())[:limit]
        rows = [{"file": str(it), "born": None, "bytes": None, "deleted": None, "released": None, "taken": None} for it in taken]
        return {"deleted": [], "taken": rows, "upto": self.seq()}

    def file(self, query: Body, file: str) -> Body:
        number = _whole(file, "file", 0, (1 << 64) - 1)
        lives = [it for it in (self._shown(it.id) for it in self.store.live()) if it is not None]
        users = [{"record": it["id"], "subtask": ack["subtask"]} for it in lives for ack in it["acks"] if file in ack["files"]]
        with self.runner.store.read() as reads:
            uses, pins = reads.count(number).uses, sum(number in reads.pins_of(it["id"]) for it in lives if it["state"] != "done")
        return {"bytes": None, "file": file, "history": None, "pins": pins, "used_by": users, "uses": uses}

    # Commands.

    def checkpoint(self, body: Body) -> Body:
        _only(body, "full")
        if not isinstance(body.get("full", False), bool):
            raise Problem(400, "full is not true or false", field="full")
        return self.placed({"tick": "triggered", "expired": 0, "id": self.runner.checkpoint(body.get("full", False))})

    def settings(self, body: Body) -> Body:
        _only(body, *LIMITS, "keep_on_cancel")
        if not body:
            raise Problem(400, "the body names no setting", field="body")
        for name, (least, most) in LIMITS.items():
            if name in body and (isinstance(body[name], str) or _whole(body[name], name, least, most) is None):
                raise Problem(400, f"{name} is no whole number from {least} to {most}", field=name)
        if not isinstance(body.get("keep_on_cancel", False), bool):
            raise Problem(400, "keep_on_cancel is not true or false", field="keep_on_cancel")
        new = dataclasses.replace(self.runner.store.job()[0], **body)
        made = self.runner.store.configure(new)
        assert isinstance(made.reply, Configured)
        return self.placed({
            "configure": "configured", "dropped": made.reply.checkpoints, "released": made.reply.released, "settings": dataclasses.asdict(new)}, made)

    def stop(self, body: Body) -> Body:
        _only(body)
        made = self._now(self.store.stop_job, lambda: self.store.phase().phase.name.title())
        return self.placed(_told(made), made)

    def begin(self, body: Body) -> Body:
        _only(body)
        return self.placed(_with_term(self._now(self.store.begin_job, lambda: "NotStopped")))

    def _now(self, verb: Callable[[], Made], why: Callable[[], str]) -> Made:
        try:
            return verb()
        except StoreError as error:
            if error.name != "NotNow":
                raise
            raise Refused(why(), None) from error

    def calls(self, body: Body) -> Body:
        _only(body, "calls", "term", "ended")
        calls = body.get("calls")
        if not isinstance(calls, list) or not 1 <= len(calls) <= 1000 or not all(isinstance(it, dict) for it in calls):
            raise Problem(400, "calls is no list of 1 to 1000 calls", field="calls")
        made = [self._call_of(place, it) for place, it in enumerate(calls)]
        return {"answers": [self._answer(it) for it in made], "epoch": self.report.epoch, "log": self.store.identity}

    def _call_of(self, place: int, call: Body) -> Callable[[], Body]:
        verbs: Dict[str, Tuple[Callable[[Body], Body], Sequence[str]]] = {
            "savepoint": (lambda _: {"savepoint": "triggered", "id": self.runner.trigger_savepoint(), "seq": self.seq()}, ()),
            "trigger": (lambda _: {"tick": "triggered", "expired": 0, "id": self.runner.checkpoint(), "seq": self.seq()}, ()),
            "dispose": (lambda it: _told(self.runner.store.dispose(it["id"])), ("id",)),
            "cancel": (lambda _: _with_term(self.store.cancel()), ()),
            "restore": (self._restores, ("from", "shape", "accept_published", "stopped")),
        }
        word = call.get("call")
        if word not in verbs:
            raise Problem(400, f"calls[{place}].call {json.dumps(word)} is no call of a running job: there are {', '.join(verbs)}", field=f"calls[{place}].call")
        verb, names = verbs[word]
        _only(call, "call", *names)
        if word == "dispose":
            _whole(call.get("id"), f"calls[{place}].id", 1, 1 << 62)
        if isinstance(call.get("from"), dict) and call.get("shape") is not None:
            raise Problem(400, f"calls[{place}].shape: a job goes back in the shape that the checkpoint had", field=f"calls[{place}].shape")
        return lambda: verb(call)

    def _answer(self, call: Callable[[], Body]) -> Body:
        try:
            return call()
        except StoreError as why:
            if why.closes:
                raise
            return {"refused": why.name}
        except (Refused, Fenced, BadArgument, OutOfMemory) as why:
            return _refusal(why)

    def _restores(self, call: Body) -> Body:
        start, shape, is_stopped = call.get("from"), call.get("shape"), self.store.phase().phase == Phase.STOPPED
        if is_stopped != (call.get("stopped") is True):
            raise Refused("Stopped" if is_stopped else "NotStopped", None)
        if isinstance(start, dict):
            return _with_term(self.runner.store.go_back(_whole(start.get("checkpoint"), "checkpoint", 1, 1 << 62), call.get("accept_published") is True))
        restore = self.store.restore if is_stopped else self.runner.restore  # no task starts in a job that stays stopped
        return _with_term(restore(None if start == "latest" else _whole(start, "from", 1, 1 << 62), shape))


READS = {
    r"/v1/jobs": Answers.jobs, r"/v1/jobs/([^/]+)": Answers.state, r"/v1/jobs/([^/]+)/history": Answers.history, r"/v1/jobs/([^/]+)/records": Answers.records,
    r"/v1/jobs/([^/]+)/records/([^/]+)": Answers.record, r"/v1/jobs/([^/]+)/records/([^/]+)/states": Answers.states, r"/v1/jobs/([^/]+)/files": Answers.files,
    r"/v1/jobs/([^/]+)/files/([^/]+)": Answers.file,
}
WRITES = {("POST", "checkpoints"): Answers.checkpoint, ("PATCH", "settings"): Answers.settings, ("POST", "stop"): Answers.stop, ("POST", "begin"): Answers.begin,
          ("POST", "calls"): Answers.calls}


class Handler(http.server.BaseHTTPRequestHandler):
    protocol_version, timeout = "HTTP/1.1", 60
    answers: Answers  # of the server

    def do_GET(self) -> None:
        self._reply(self._read)

    def do_POST(self) -> None:
        self._reply(self._write)

    do_PATCH = do_PUT = do_DELETE = do_POST

    def _read(self) -> Body:
        url = urlsplit(self.path)
        query = dict(parse_qsl(url.query))
        for pattern, read in READS.items():
            found = re.fullmatch(pattern, url.path)
            if found:
                self._check_name(found.groups())
                answer: Body = read(self.answers, query, *found.groups()[1:])  # type: ignore[operator]
                return answer
        raise Problem(405 if self._verbs(url.path) else 404, "there is no such path")

    def _check_name(self, words: Sequence[str]) -> None:
        if words and words[0] != self.answers.name:
            raise Problem(404, f"there is no job {words[0]}")

    @staticmethod
    def _verbs(path: str) -> List[Tuple[str, str]]:
        word = path.rpartition("/")[2]
        return [it for it in WRITES if it[1] == word and re.fullmatch(rf"/v1/jobs/[^/]+/{word}", path)]

    def _write(self) -> Body:
        body, path = self._body(), urlsplit(self.path).path
        verbs = self._verbs(path)
        if not verbs:
            raise Problem(405 if any(re.fullmatch(it, path) for it in READS) else 404, "there is no such path")
        self._check_name([path.split("/")[3]])
        if verbs[0][0] != self.command:
            raise Problem(405, f"this path takes {verbs[0][0]} alone")
        key, write = self.headers.get("Idempotency-Key"), WRITES[verbs[0]]
        if key is None and any(isinstance(it, dict) and it.get("call") == "savepoint" for it in body.get("calls", ())):
            raise Problem(400, "Idempotency-Key is missing: without it, a savepoint whose answer is lost is made twice", field="Idempotency-Key")
        return write(self.answers, body) if key is None else self._once(key, body, lambda: write(self.answers, body))

    def _once(self, key: str, body: Body, make: Callable[[], Body]) -> Body:
        """The answer that the key had before, in this process."""
        asked = {"path": self.path, **body}
        with self.answers.lock:
            before = self.answers.keys.get(key)
            if before is not None and before[0] != asked:
                raise Problem(422, "the Idempotency-Key was used with another body", field="Idempotency-Key")
            answer = before[1] if before is not None else make()
            self.answers.keys[key] = asked, answer
            if len(self.answers.keys) > MOST_KEYS:
                self.answers.keys.popitem(last=False)
        return answer

    def _body(self) -> Body:
        length = _whole(self.headers.get("Content-Length", "0"), "Content-Length", 0, 1 << 62)
        if length > MOST_BYTES:
            self.close_connection = True
            raise Problem(413, f"the body has more than {MOST_BYTES} bytes")
        data = self.rfile.read(length)
        if self.headers.get_content_type() != "application/json":
            raise Problem(415, "Content-Type: is not application/json")
        try:
            body = json.loads(data)
        except ValueError as why:
            raise Problem(400, f"body is no JSON: {why}", field="body") from why
        if not isinstance(body, dict):
            raise Problem(400, "body is no object", field="body")
        return body

    def _reply(self, ask: Callable[[], Body]) -> None:
        try:
            status, body = 200, ask()
        except Problem as problem:
            status, body = problem.status, problem.body
        except OutOfMemory:
            status, body = 507, {"error": "memory ran out: nothing has changed"}
        except Refused as refused:
            status, body = 409, {"error": f"the coordinator refuses it: {refused.name}", "refused": refused.name}
        except Exception as error:  # the job ends, or a call was not made
            status, body = 503, {"error": str(error)}
        data = json.dumps(body).encode()
        self.send_response(status)
        self.send_header("Content-Type", "application/json")
        self.send_header("Content-Length", str(len(data)))
        self.end_headers()
        self.wfile.write(data)

    def log_message(self, format: str, *words: Any) -> None:
        pass


class Server(socketserver.ThreadingMixIn, socketserver.UnixStreamServer):
    daemon_threads = True

    def server_bind(self) -> None:
        """The socket is its user's alone from the moment that it is there."""
        os.fchmod(self.socket.fileno(), 0o600)
        super().server_bind()

    def handle_error(self, request: Any, client_address: Any) -> None:
        """A client that went away."""


class Commands:
    """Serves while `with` lasts."""

    def __init__(self, runner: "Runner", path: Union[str, "os.PathLike[str]"]) -> None:
        """The socket of a process that was killed is replaced. Raises StoreError("InUse") if another one listens there."""
        self._path = os.fspath(path)
        self._clear()
        name = pathlib.Path(runner.store.path).stem
        handler = type("Bound", (Handler,), {"answers": Answers(runner, name)})
        self._server = Server(self._path, handler)
        self._inode = os.stat(self._path).st_ino
        self._thread = threading.Thread(target=self._server.serve_forever, args=(0.05,), name="relkvanu commands", daemon=True)

    def _clear(self) -> None:
        if not os.path.lexists(self._path):
            return
        if not stat.S_ISSOCK(os.lstat(self._path).st_mode):
            raise StoreError("Present", f"{self._path} is no socket", False)
        with socket.socket(socket.AF_UNIX) as it:
            it.settimeout(5)
            try:
                it.connect(self._path)
            except ConnectionRefusedError:
                return os.unlink(self._path)
        raise StoreError("InUse", f"another process listens at {self._path}", False)

    def __enter__(self) -> "Commands":
        self._thread.start()
        return self

    def __exit__(self, *_: object) -> None:
        self._server.shutdown()
        self._thread.join()
        self._server.server_close()
        with contextlib.suppress(OSError):
            if os.stat(self._path).st_ino == self._inode:
                os.unlink(self._path)
