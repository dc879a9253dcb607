"""A client of the service: jobs, their calls and their events, over `requests`.

    from relkvanu_service import Service

    start = Service("http://127.0.0.1:7780").open("orders", {"interval": 60_000}, [1]).begin()
    task = start.session()  # in a process of its own: job.session(term), with the term that it was started with
    for event in start.events():
        if event["event"] == "triggered":
            name = task.name()  # of a new file, which no other file ever has
            task.ack(event["id"], "0.0", fresh=[name])  # once the file is synced

docs/SERVICE-ENGINE.md has the order of an engine's calls. If a request is not answered, the client makes it again, by default for a minute, at the service's next address. Calls have an
Idempotency-Key, so the service makes them once. File numbers are integers here, and strings in the API. Threads may share
what is here.
"""
import base64
import copy
import email.utils
import errno
import math
import os
import random
import threading
import time
import uuid
from typing import NamedTuple

import requests

__all__ = [
    "Failed", "Fenced", "Gone", "OldTerm", "OtherLog", "Refused", "Service", "Job", "Opened", "Start", "Session", "Follower", "ack",
    "decline", "reserve", "forfeit", "restore", "take",
]
# bindings/generate makes the names of calls of one number
__all__ += [
    "savepoint", "dispose", "cancel", "deleted", "undeleted", "trigger",
]
# bindings/generate: end

_CONNECT = 2.0  # seconds in which a machine that is there takes a connection
_ONE_TRY = 10.0  # seconds in which an address has to answer, besides the wait of a poll
_FIRST_PAUSE, _LONGEST_PAUSE = 0.05, 1.0  # between two tries at an address
_LONGEST_LATER = 60.0  # the longest Retry-After that is believed
_RESERVED = 1000  # names that a task reserves at once
_BESIDE = (".names", ".begun")  # what follows a marker's name in the names of the files that a discarder writes beside it
_MOST_FORFEITED, _MOST_GARBAGE = 4096, 10_000  # of a call, and of a request
_LONG_POLL = 25  # seconds that a poll waits for the next event
# A proxy, a standby or a service that starts answers so; another try may be answered otherwise.
_PASSING = {429, 502, 503, 504}
_LOST = (requests.ConnectionError, requests.Timeout, requests.exceptions.ChunkedEncodingError)


class Failed(Exception):
    """The service answered with an error: `status`, the `field` that it names, and its text."""

    def __init__(self, status, text, field=None):
        super().__init__(f"{status}: {text}")
        self.status, self.field = status, field


class Gone(Failed):
    """The log does not have the events after a place: its `reason` is `cut`, or `other_log` if a backup was restored."""

    def __init__(self, body):
        super().__init__(410, body.get("error", ""), body.get("field"))
        self.reason, self.first, self.log = body.get("reason"), body.get("first"), body.get("log")


class OtherLog(Gone):
    """The log never had the place: a backup of the service was restored, or another service answers. The job must not go on by
    itself, since files of the records that the service has may be deleted. The engine ends, and somebody restores the job to a
    record whose files are all there."""


class Refused(Exception):
    """The coordinator refused a call, which changed nothing: its `name`, and the `file` that it names."""

    def __init__(self, name, file=None):
        super().__init__(name if file is None else f"{name} {file}")
        self.name, self.file = name, file


class Fenced(Exception):
    """The term or the names of a job refused a call, which changed nothing: its `name`, and the `file` that it names. After `Spent` the
    file may be in use: nobody deletes it for that answer."""

    def __init__(self, name, file=None):
        super().__init__(name if file is None else f"{name} {file}")
        self.name, self.file = name, file


class OldTerm(Fenced):
    """The term of the task has ended: the job was restored or cancelled since the task was started. The task ends, and deletes nothing."""


def _fenced(name, file=None):
    return (OldTerm if name == "OldTerm" else Fenced)(name, file)


def ack(record, subtask, fresh=(), reused=(), sizes=None, term=None, payload=None, size=None, millis=None):
    """A subtask has taken its part of a record: its new files, and those of live records that it uses again. `sizes` are the bytes of
    each new file, which the service shows; one of an earlier version refuses them. `term` is that of the task.

    A `payload` of at most 4096 bytes is the state of the task, if it is small: it is committed with the acknowledgement, and `Job.load` gives it
    back as long as the record is there. `size` (the bytes of the whole snapshot, in place of `sizes`) and `millis` are figures for `Job.history`. With
    one of these three the record keeps the files in the order given here."""
    if sizes is not None and size is not None:
        raise ValueError("sizes are those of each file, and size is that of the whole snapshot: not both")
    said = {} if sizes is None else {"bytes": list(sizes)}
    said.update({} if size is None else {"bytes": size}, **({} if millis is None else {"millis": millis}))
    said.update({} if payload is None else {"payload": base64.b64encode(payload).decode()})
    return {"call": "ack", **_in(term), "id": record, "subtask": subtask, "fresh": _texts(fresh), "reused": _texts(reused), **said}


def decline(record, subtask, term=None, reason=None):
    """A subtask can't take its part of a record. `Job.history` has the reason, of at most 200 bytes in UTF-8."""
    said = {} if reason is None else {"reason": reason}
    return {"call": "decline", **_in(term), "id": record, "subtask": subtask, **said}


def reserve(term, count):
    """A task of this term reserves names for new files, at most 65,536."""
    return {"call": "reserve", "term": term, "count": count}


def forfeit(term, names):
    """A task of this term gives up names that it will not acknowledge, at most 4096."""
    return {"call": "forfeit", "term": term, "names": _texts(names)}


def _in(term):
    return {} if term is None else {"term": term}


# bindings/generate makes the calls of one number
def savepoint():
    """Triggers a savepoint. At most 1000 savepoints are pending or done."""
    return {"call": "savepoint"}


def dispose(record):
    """A user disposes of the completed savepoint id."""
    return {"call": "dispose", "id": record}


def cancel():
    """The job ends for good."""
    return {"call": "cancel"}


def deleted(file):
    """A fetched file is deleted: the coordinator forgets it."""
    return {"call": "deleted", "file": str(file)}


def undeleted(file):
    """A fetched file could not be deleted: it waits again, behind all others."""
    return {"call": "undeleted", "file": str(file)}


def trigger():
    """Triggers a checkpoint now, whatever the interval and the pause. Nothing expires: make a tick first if records may be too
    old. The interval counts from it, as after a tick that triggers."""
    return {"call": "trigger"}
# bindings/generate: end


def restore(start="latest", shape=None):
    """The job begins again, from the latest or from a savepoint, in a new shape if one is given."""
    return {"call": "restore", "from": start, **({} if shape is None else {"shape": shape})}


def take(most=64):
    """Fetches files for deletion."""
    return {"call": "take", "most": most}


def _texts(files):
    return [str(file) for file in files]


class _Addresses:
    """The addresses of a service: which is asked next, and before which moment each is not asked again."""

    def __init__(self, urls):
        if not urls:
            raise ValueError("a service needs an address, as http://127.0.0.1:7780")
        self.urls = [url.rstrip("/") for url in urls]
        self.current = 0  # the place of the one that answered last
        self._not_before = [0.0] * len(urls)

    def after(self, place, pause, leader):
        """Chooses the address after a try that failed: the leader, if it is one of these, or the next. Returns how long to wait."""
        now, count = time.monotonic(), len(self.urls)
        self._not_before[place] = now + pause
        self.current = min(((place + step) % count for step in range(1, count + 1)), key=lambda it: max(self._not_before[it], now))
        leads = self.urls.index(leader) if leader in self.urls else place
        if self._not_before[leads] <= now:
            self.current = leads
        return max(0.0, self._not_before[self.current] - now)


class Service:
    """A service at a URL, or at several of which one leads. For `patience` seconds it makes a request again, or for ever if that
    is None; and for as long as a service that starts replays more of its jobs within these seconds. `ca` is a file of certificates that `https` trusts, by default the system's."""

    def __init__(self, *urls, token=None, patience=60.0, ca=None):
        self._addresses = _Addresses(urls)
        self._patience = patience
        self._verify = True if ca is None else ca
        self._headers = {"Authorization": f"Bearer {token}"} if token else {}
        self._own = threading.local()  # a session is one thread's
        self._notice = None

    def within(self, seconds):
        """The same service, which makes a request again for this many seconds, or for ever if that is None."""
        it = copy.copy(self)
        it._patience = seconds
        return it

    def noticing(self, notice):
        """The same service, which calls `notice(error)` for each try that is not answered, or with an error that passes."""
        it = copy.copy(self)
        it._notice = notice
        return it

    def open(self, name, settings, shape, first=1, storage=None):
        """Opens a job, or finds it. A job that is there keeps its settings and its shape, which an operator may have changed: `opened` of the
        job has them, and an engine goes on with these. The first record of a new job has the number `first`. `storage` says where its files are, for
        cleaners, as {"folder": "/srv/orders", "prefix": "state-"}; a job that knows it keeps what it knows. A service of an earlier version refuses it."""
        said = {**({} if first == 1 else {"first": first}), **({} if storage is None else {"storage": storage})}
        told = self.request("POST", "/v1/jobs", {"name": name, "settings": settings, "shape": shape, **said})
        return Job(self, name, Opened(told["settings"], told["shape"], told.get("settings_differ", False)), told.get("storage"))

    def job(self, name):
        """A job that exists."""
        return Job(self, name)

    def delete(self, name, abandon=False):
        """Deletes a job that was cancelled or has failed, with its log and its history. Raises `Failed` with status 409 if files of the
        job are left, unless it is to `abandon` them: nobody deletes them then. Returns whether there was such a job."""
        try:
            self.request("DELETE", f"/v1/jobs/{name}?abandon={int(abandon)}")
        except Failed as failed:
            if failed.status != 404:
                raise
            return False
        return True

    def jobs(self):
        """The state of each job. One that is `damaged` is none of them."""
        return self.request("GET", "/v1/jobs")["jobs"]

    def damaged(self):
        """The jobs that the service keeps out since their logs can't be replayed, by name, and why. Their requests are refused with status 503 until
        they are mended and the service has started again. A service of an earlier version ends instead."""
        return {job["name"]: job["why"] for job in self.request("GET", "/v1/jobs").get("damaged", [])}

    def request(self, method, path, body=None, key=None, wait=0):
        """Makes a request until it is answered, and returns its body. Raises `Failed` if the answer is an error."""
        until, pause, replayed, error = self._until(wait), _FIRST_PAUSE, -1, None
        while True:
            place = self._addresses.current
            later, leader = 0.0, None
            seconds = min(self._one_try() + wait, until - time.monotonic())
            try:
                told = self._once(self._addresses.urls[place] + path, method, body, key, seconds)
                if told.status_code not in _PASSING and not (told.status_code == 500 and method == "GET"):
                    self._addresses.current = place
                    return _body(told)
                later, leader = _retry_after(told), told.headers.get("relkvanu-leader", "").rstrip("/")
                error = Failed(told.status_code, told.text)
                if (more := _replayed(told)) > replayed:
                    replayed, until = more, self._until(wait)
            except _LOST as lost:
                # a handshake that was cut too, and a certificate that can't be verified: it may be renewed meanwhile. If only the patience ended
                # the last try, the answer before it says why.
                is_cut = seconds < self._one_try() + wait and isinstance(lost, requests.Timeout)
                error = error if is_cut and error is not None else lost
            if self._notice is not None:
                self._notice(error)
            rest = self._addresses.after(place, max(later, pause * random.uniform(0.5, 1.0)), leader)
            if time.monotonic() + rest >= until:
                raise error
            time.sleep(rest)
            pause = min(pause * 2, _LONGEST_PAUSE)

    def _until(self, wait):
        return math.inf if self._patience is None else time.monotonic() + self._patience + wait

    def _one_try(self):
        """Seconds for one try. There is time for each address, and for the first again."""
        return _ONE_TRY if self._patience is None else min(_ONE_TRY, self._patience / (len(self._addresses.urls) + 1))

    def _once(self, url, method, body, key, seconds):
        if not hasattr(self._own, "session"):
            self._own.session = requests.Session()
        headers = self._headers if key is None else {**self._headers, "Idempotency-Key": key}
        seconds = max(seconds, 0.05)
        timeout = (min(_CONNECT, seconds), seconds)
        given = {"json": body, "headers": headers, "timeout": timeout, "verify": self._verify, "allow_redirects": False}
        return self._own.session.request(method, url, **given)


def _retry_after(told):
    """The seconds that an answer asks to wait: a number, or a moment."""
    text = told.headers.get("Retry-After", "")
    try:
        later = float(text) if text.isdigit() else email.utils.parsedate_to_datetime(text).timestamp() - time.time()
    except (TypeError, ValueError):
        return 0.0
    return min(max(later, 0.0), _LONGEST_LATER)


def _replayed(told):
    """How much a service that starts has replayed: jobs and calls; -1 if it does not say so."""
    try:
        replay = told.json()["replay"]
        return replay["replayed"] + replay["calls"]
    except (ValueError, KeyError, TypeError):
        return -1


def _body(told):
    try:
        body = told.json()
    except ValueError:
        body = None
    if told.status_code >= 300 or not isinstance(body, dict):
        said = body if isinstance(body, dict) else {}
        if told.status_code == 410:
            raise (OtherLog if said.get("reason") == "other_log" else Gone)(said)
        if "fenced" in said:
            raise _fenced(said["fenced"])
        if "refused" in said:
            raise Refused(said["refused"])
        raise Failed(told.status_code, said.get("error", told.text), said.get("field"))
    return body


def _make_whole(folder, name, text):
    """Makes a file that is whole or not there, whenever the power is lost. While it is written it has a name that no marker has."""
    with open(f"{folder}/{name}~", "w", encoding="utf-8") as it:
        it.write(text)
        it.flush()
        os.fsync(it.fileno())
    os.rename(f"{folder}/{name}~", f"{folder}/{name}")
    at = os.open(folder, os.O_RDONLY | os.O_DIRECTORY)
    try:
        os.fsync(at)
    finally:
        os.close(at)


def _made(answer):
    """An answer of a call that was made."""
    file = answer.get("file")
    if "refused" in answer:
        raise Refused(answer["refused"], None if file is None else int(file))
    if "fenced" in answer:
        raise _fenced(answer["fenced"], None if file is None else int(file))
    if answer.get("no_memory"):
        raise Failed(507, "memory ran out")
    return answer


class Opened(NamedTuple):
    """A job as it was opened or found: its settings and its shape, and whether it has others than were given."""

    settings: dict
    shape: list
    settings_differ: bool


class Job:
    """A job of a service. `opened` says what it had when it was opened or found here, or is None, and `storage` where its files were then."""

    def __init__(self, service, name, opened=None, storage=None):
        self._service = service
        self.name = name
        self.opened, self.storage = opened, storage
        self._path = f"/v1/jobs/{name}"

    def within(self, seconds):
        """The same job, which makes a request again for this many seconds, or for ever if that is None."""
        return type(self)(self._service.within(seconds), self.name, self.opened, self.storage)

    def open(self, settings, shape, storage=None):
        """Opens this job, or finds it, as `Service.open` does."""
        return self._service.open(self.name, settings, shape, storage=storage)

    def calls(self, calls, key=None):
        """Makes calls in order and returns the answer of each, a refusal too. They are no transaction. The service makes them once
        under a key, which is new if none is given. A caller that gave up and comes back gives the same key again."""
        return self._make(calls, key)["answers"]

    def made(self, calls, key=None):
        """The same, with the log's identity, and in each answer the `kind` of the call's record and the records that the call has `ended`."""
        return self._make(calls, key, ended=True)

    def _make(self, calls, key, **more):
        return self._post("calls", {"calls": calls, **more}, key)

    def _post(self, what, body, key):
        return self._service.request("POST", f"{self._path}/{what}", body, uuid.uuid4().hex if key is None else key)

    def call(self, call, key=None):
        """Makes one call. Raises `Refused` if the coordinator refuses it, and `Fenced` if the term or the names do."""
        return _made(self.calls([call], key)[0])

    def claim(self, folder):
        """Makes sure that a folder's files are this job's: the file `.relkvanu-NAME` there names the job and when it was opened, as
        `relkvanu discard` has it. It is made in a folder without files for a job without files. Otherwise this raises `Failed`: the
        folder is of another job, its disk is not mounted, or the service has lost this job and opened it anew."""
        state = self.state()
        name, text = self._marker(state)
        try:
            with open(f"{folder}/{name}", encoding="utf-8") as it:
                found = it.read()
        except FileNotFoundError:
            if any(not other.startswith(".") for other in os.listdir(folder)):
                raise Failed(409, f"{folder} has files, and no file {name}: it is not known whose they are") from None
            if any(state["files"][of] for of in ("in_use", "waiting", "taken")):
                raise Failed(409, f"{folder} has no file {name}, and the job has files: is its disk not mounted?") from None
            other = next((name[:-len(end)] for end in _BESIDE if name.endswith(end)), None)
            if other and os.path.lexists(f"{folder}/{other}"):
                raise Failed(409, f"{folder}/{other} is of a job whose discarder writes the file {name}: each needs a folder of its own") from None
            return _make_whole(folder, name, text)
        if found != text:
            raise Failed(409, f"{folder}/{name} names another job, or this one as another database has it")

    def marker(self):
        """The name and the text of that file."""
        return self._marker(self.state())

    def _marker(self, state):
        text = f"relkvanu discard deletes files of the job {self.name}, opened at {state['opened']}, from this folder.\n"
        return f".relkvanu-{self.name}", text

    def begin(self, start="latest", shape=None, key=None, folder=None):
        """Begins the job again, from the latest record or from a savepoint: makes the call `restore`, and returns a `Start`. Pending records
        end, and so does the term of the tasks. Raises `Refused` if the job is cancelled. **The records behind a savepoint end**: give the folder of the
        state files, so that it is looked first, as `load` does, whether the savepoint is whole. If it is not, nothing changes."""
        if folder is not None and start != "latest":
            self.load(start, folder)
        told = self._make([restore(start, shape)], key)
        return Start(self, _made(told["answers"][0]), told.get("log"))

    def go_back(self, checkpoint, accept_published, shape=None, key=None, folder=None):
        """The same from an older checkpoint that is retained, by a savepoint that the service makes of its files. What sinks published for
        records after it is not taken back: `accept_published` has to be true. Raises `Refused` if no such checkpoint is retained, it has
        another shape than the job, or the job does not run. With the folder of the state files it looks first, as `begin` does."""
        if folder is not None:
            self.load(checkpoint, folder)
        call = {**restore({"checkpoint": checkpoint}, shape), "accept_published": accept_published}
        told = self._make([call], key)
        return Start(self, _made(told["answers"][0]), told.get("log"))

    def session(self, term, block=_RESERVED):
        """A task of the start that has this term. It reserves `block` names at a time."""
        return Session(self, term, block)

    def term(self):
        """The term that runs and the next name, for whoever starts tasks: each learns its term there. A task never asks, since one that
        should be dead would learn the new term."""
        told = self._get("/term")
        return {"term": told["term"], "next_name": int(told["next_name"])}

    def fence(self, first_name, key=None):
        """Makes a job that a recovery opened give out names, from this one on: all numbers of files that it ever used are below. Raises `Fenced` if
        the job has names, or a file of it has this number or a greater one."""
        return self._post("fence", {"first_name": str(first_name)}, key)

    def checkpoint(self, key=None, *, full=False):
        """Triggers a checkpoint now, whatever the interval and the pause; its number is the answer's `id`. The barrier of a `full` one names no base, so the
        tasks write all their state anew. Raises `Refused` if as many are pending as may be, or the job does not run."""
        return self._post("checkpoints", {"full": True} if full else {}, key)

    def set(self, **settings):
        """Changes settings of the job while it runs: those that are given, as `interval=30_000`. The answer has all that the job has then,
        as `settings`. Raises `Failed` if one is not within its limits, and `Refused` if more checkpoints are pending than may be from then
        on, or the job is cancelled."""
        return self._service.request("PATCH", f"{self._path}/settings", settings)

    def set_storage(self, storage):
        """Says where the job's files are, as `Service.open` does, whatever it knew. Returns the state of the job."""
        return self._service.request("PUT", f"{self._path}/storage", storage)

    def stop_job(self, key=None):
        """Stops the job with a savepoint, whose number is the answer's `id`: the timer rests, and with the last acknowledgement the job has
        stopped at it, until `begin_job`. Raises `Refused` if the job stops or has stopped already, or does not run."""
        return self._post("stop", {}, key)

    def begin_job(self, key=None):
        """Begins the job again where it has stopped. Engines that wait for it then make `begin`. Raises `Refused` if the job has not stopped."""
        return self._post("begin", {}, key)

    def advance(self, term, first_name, key=None):
        """Lets the job go on from an older copy of the service's log, as a backup: it begins again, as by `begin`, in a term above `term`, which is
        at least each that was told, and gives out names from `first_name` on, which is above each that was given out. Raises `Refused`
        if it is cancelled."""
        return self._post("advance", {"term": term, "first_name": str(first_name)}, key)

    def until_begun(self):
        """Waits as long as the job has stopped: an engine that starts does so before `begin`. Returns the state of the job. Raises `OtherLog` if a
        backup of the service was restored meanwhile."""
        state = self.state()
        if state.get("phase") != "stopped":
            return state
        follower = self.follower(state["seq"], state.get("log"))
        while state.get("phase") == "stopped":
            follower.next(_LONG_POLL)
            state = self.state()
        follower.next(0)  # the state may be that of the backup
        return state

    def garbage(self, files):
        """Those of these files that may be deleted, and those whose names were never given out, which nobody deletes: a file of another
        job, or the log was lost. The first stay garbage for good, so they may be deleted at any time, however the job goes on."""
        files, garbage, unissued = list(files), [], []
        for place in range(0, len(files), _MOST_GARBAGE):
            some = _texts(files[place:place + _MOST_GARBAGE])
            told = self._service.request("POST", f"{self._path}/garbage", {"files": some})
            garbage += map(int, told["garbage"])
            unissued += map(int, told["unissued"])
        return garbage, unissued

    def _held(self, record):
        """The files of each subtask of a record, or None if it is not live."""
        try:
            live = self.record(record)["live"]
        except Failed as failed:
            if failed.status != 404:
                raise
            return None
        return live and {it["subtask"]: [int(file) for file in it["files"]] for it in live["acks"]}

    def state(self):
        """The state of the job."""
        return self._get("")

    def records(self, before=None, limit=100):
        """The history of records, the newest first."""
        return self._get("/records", limit=limit, **({} if before is None else {"before": before}))["records"]

    def record(self, number):
        """A record: its metadata, its missing subtasks, and its history."""
        return self._get(f"/records/{number}")

    def load(self, number, folder=None):
        """A complete record as a whole, which has all that the tasks begin with after a restore: its `id`, `kind` and `shape`, and for each subtask,
        by its name, its `files` in their order, their `sizes` as far as their tasks told them, its `payload`, and its figures `bytes` and `millis`.
        With the folder of the state files, in which each has its number as its name, it looks that they are there, and raises
        FileNotFoundError if one is not, or has another length than was told: then the engine ends, and starts no task. Raises `Failed` with
        status 404 if no such record is complete, or it has ended."""
        told = self._get(f"/records/{number}/states")
        subtasks = {it.pop("subtask"): it for it in told["subtasks"]}
        for it in subtasks.values():
            it["files"], it["payload"] = [int(file) for file in it["files"]], base64.b64decode(it["payload"])
            it.setdefault("sizes", [None] * len(it["files"]))  # a service that tells none
            for file, size in zip(it["files"], it["sizes"]) if folder is not None else ():
                length = os.stat(f"{folder}/{file}").st_size
                if size not in (None, length):
                    raise FileNotFoundError(errno.ENOENT, f"it has {length} bytes, and its task told {size}", f"{folder}/{file}")
        return {**told, "subtasks": subtasks}

    def history(self, last=100):
        """The last records that are complete or have failed, the greatest number first: how each ended, the milliseconds from its trigger to the
        `first`, the `median`, the `p99` and the `slowest` acknowledgement, the `bytes` (their sum) and `millis` (the greatest) that the tasks told,
        and the `reason` of a decline. A thread of the service makes it from the log, and may be a moment behind."""
        return self._get("/history", last=last)["records"]

    def file(self, number):
        """A file: the records that use it, and its history."""
        return self._get(f"/files/{number}")

    def files(self, limit=100):
        """Files that were taken and not reported, and those that were deleted last."""
        return self._get("/files", limit=limit)

    def log(self, after=0, terms=False):
        """Yields the log's entries after a place, or from its first one; with the terms in their lines if the token allows calls. Raises
        `Gone` if entries behind those that were yielded are cut before they are read."""
        begun = False
        while True:
            told = self._get("/log", after=after, limit=1000, **({"terms": 1} if terms else {}))
            page = told["calls"]
            first = page[0]["seq"] if page else told["first"]
            if begun and first > after + 1:
                raise Gone({"error": f"calls {after + 1} to {first - 1} were cut while the log was read", "reason": "cut", **told})
            if not page:
                return
            yield from page
            after, begun = page[-1]["seq"], True

    def events(self, after=0, wait=0):
        """The events after a place, once there is one or the seconds are over: the place to go on from, and a list. Raises `Gone`
        if the log does not have them."""
        told = self.poll(after, wait)
        return told["upto"], told["events"]

    def poll(self, after, wait=0, log=None):
        """The same as the API answers it. `log` is the log's identity in the answer that the place is from."""
        return self._get("/events", after=after, wait=wait, **({} if log is None else {"log": log}))

    def follower(self, after=None, log=None):
        """The events after a place, by default after the last one, in pieces."""
        return Follower(self, after, log)

    def follow(self, after=None, log=None):
        """Yields events for ever, by default those after the last one. A `Follower` says what comes if some are missed."""
        follower = self.follower(after, log)
        while True:
            yield from follower.next()

    def take(self, most=64):
        """Fetches files for deletion."""
        return [int(file) for file in self.call(take(most))["files"]]

    def _get(self, path, **query):
        text = "&".join(f"{name}={value}" for name, value in query.items())
        return self._service.request("GET", self._path + path + (f"?{text}" if text else ""), wait=query.get("wait", 0))


class Start:
    """What a job begins from: the `kind` of a record, which is `checkpoint` or `savepoint`, its number `id`, and the `files` that each
    subtask loads. Or the kind is `fresh`, and there is no record. `follower` has the events after it. `term` is for each task that is
    started from here, and for nobody else."""

    def __init__(self, job, answer, log):
        self.kind, self.id, self.term = answer["restore"], answer.get("id"), answer["term"]
        self._job = job
        self.files = {} if self.id is None else job._held(self.id)
        if self.files is None:
            raise Failed(404, f"{self.kind} {self.id} has ended meanwhile: somebody else has restored or cancelled the job")
        self.follower = Follower(job, answer["seq"], log)

    def load(self, folder=None):
        """The record as a whole, as `Job.load`; None if there is none."""
        return None if self.id is None else self._job.load(self.id, folder)

    def session(self, block=_RESERVED):
        """A task of this start in this process."""
        return self._job.session(self.term, block)

    def events(self):
        """Yields the events after it, for ever."""
        while True:
            yield from self.follower.next()


class Session:
    """A task of one start of a job, by the `term` that it was started with: its new files get names that no other file ever has, and its
    calls carry the term. Once the job is restored or cancelled, each call raises `OldTerm`, and the task ends: it changes nothing any more,
    and deletes nothing. Threads may share one."""

    def __init__(self, job, term, block=_RESERVED):
        self._job, self.term, self._block = job, term, block
        self._lock, self._next, self._end, self._is_over = threading.Lock(), 0, 0, False

    def name(self):
        """The number of a new file. It was reserved before, durably."""
        with self._lock:
            self._check()
            if self._next == self._end:
                told = self._call(reserve(self.term, self._block))
                self._next, self._end = int(told["first"]), int(told["first"]) + told["count"]
            self._next += 1
            return self._next - 1

    def names(self):
        """Yields the numbers of new files."""
        while True:
            yield self.name()

    def ack(self, record, subtask, fresh=(), reused=(), sizes=None, key=None, payload=None, size=None, millis=None):
        """The function `ack` in the term. If it is refused, the names of the new files are the task's still: it names the files in a later
        acknowledgement, or gives the names up."""
        return self._call(ack(record, subtask, fresh, reused, sizes, self.term, payload, size, millis), key)

    def decline(self, record, subtask, key=None, reason=None):
        """The function `decline` in the term."""
        return self._call(decline(record, subtask, self.term, reason), key)

    def calls(self, calls, key=None):
        """Makes acknowledgements and declines of several subtasks in one request, each in the term. Returns the answer of each, a refusal
        too."""
        self._check()
        answers = self._job.calls([{**call, "term": self.term} for call in calls], key)
        if {"fenced": "OldTerm"} in answers:
            self._is_over = True
            raise OldTerm("OldTerm")
        return answers

    def forfeit(self, names):
        """Gives up names that the task will not acknowledge, such as those of a failed upload: their files are garbage then."""
        names = list(names)
        for place in range(0, len(names), _MOST_FORFEITED):
            self._call(forfeit(self.term, names[place:place + _MOST_FORFEITED]))

    def _check(self):
        if self._is_over:
            raise OldTerm("OldTerm")

    def _call(self, call, key=None):
        self._check()
        try:
            return self._job.call(call, key)
        except OldTerm:
            self._is_over = True
            raise


class Follower:
    """The events of a job from a place on.

    If calls after the place were cut from the log, it goes on from the job's state. Then an event `missed` comes, with its `reason` and
    the `state`, and after it events that stand for the state: `completed` for the record that a restore would begin from, `triggered`
    for each pending record, and `failed` or `cancelled` if the job is. The engine may have heard of some before. The state does not say
    whether somebody restored the job meanwhile, so an engine begins the job again.

    If a backup of the service was restored, it raises `OtherLog`, now and each time: the engine ends.
    """

    def __init__(self, job, after=None, log=None):
        self._job = job
        if after is None:
            state = job.state()
            after, log = state["seq"], state.get("log")
        self.after, self.log = after, log

    def next(self, wait=25):
        """The next events, once there is one or the seconds are over."""
        try:
            told = self._job.poll(self.after, wait, self.log)
        except OtherLog:
            raise
        except Gone as gone:
            state = self._job.state()
            self.after, self.log = state["seq"], state.get("log")
            return _instead(state, gone.reason)
        self.after, self.log = told["upto"], told.get("log")
        return told["events"]


def _instead(state, reason):
    """The events that a job's state stands for."""
    def event(word, **more):
        return {"seq": state["last_event"], "at": state["now"], "event": word, "ended": [], **more}

    ends = [event(state["mode"])] if state["mode"] != "running" else []
    choice = state["choice"]
    completed = [event("completed", id=choice["id"])] if "id" in choice else []
    triggered = [event("triggered", id=it["id"], kind=it["kind"]) for it in state["live"] if not it["done"]]
    return [event("missed", reason=reason, state=state), *completed, *triggered, *ends]
