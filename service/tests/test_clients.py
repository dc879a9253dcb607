"""The clients, and the API's description against the service's real answers."""
import os
import shutil

import described
from harness import SETTINGS, Service, check_log, folder, folders, raised, served, until
from relkvanu.service_moves import MAKING
from relkvanu_service import Failed, savepoint


def test_answers_fit_the_description():
    def fits(method, path, body=None, key=None, accept=None):
        headers, route = [("Idempotency-Key", key)] if key else [], described.route_of(path)
        told = server.request(method, path, body, headers=[*headers, ("Accept", accept)] if accept else headers)
        if body is not None and told[0] in (200, 201):
            described.validate(body, described.description()["paths"][route][method.lower()]["requestBody"]["content"]["application/json"])
        described.fits(method, route, told[0], told[2], told[1].get("content-type", "").partition(";")[0])
        return told

    with served() as server:
        fits("POST", "/v1/jobs", {"name": "a", "settings": SETTINGS, "shape": [2]})
        fits("POST", "/v1/jobs", {"name": "n", "settings": SETTINGS, "shape": [1]})
        calls = [
            {"call": "reserve", "count": 9}, {"call": "savepoint"}, {"call": "ack", "id": 1, "subtask": "0.0", "fresh": ["1", "2"], "bytes": [10, 20]},
            {"call": "ack", "id": 1, "subtask": "0.1"}, {"call": "tick"}, {"call": "savepoint"}, {"call": "decline", "id": 2, "subtask": "0.0"}, {"call": "decline", "id": 2, "subtask": "0.0"},
            {"call": "ack", "id": 2, "subtask": "0.0", "fresh": ["9"]}, {"call": "restore", "from": 1}, {"call": "restore", "from": "latest", "shape": [1]},
            {"call": "take", "most": 9}, {"call": "deleted", "file": "9"}, {"call": "undeleted", "file": "9"}, {"call": "dispose", "id": 1},
            {"call": "cancel"}, {"call": "dispose", "id": 1}, {"call": "ack", "term": 4, "id": 99, "subtask": "0.0"},
        ]
        answers = fits("POST", "/v1/jobs/a/calls", {"term": 1, "calls": calls}, "k")[2]["answers"]
        assert [answer for answer in answers if "refused" in answer] == [
            {"refused": "NotTaken"}, {"refused": "InUse"}, {"refused": "UnknownCheckpoint"},
        ], answers
        fits("POST", "/v1/jobs", {"name": "p", "settings": SETTINGS, "shape": [2]})
        more = [
            {"call": "reserve", "count": 2}, {"call": "savepoint"}, {"call": "ack", "id": 1, "subtask": "0.0", "fresh": ["2", "1"], "payload": "eA==", "bytes": 7, "millis": 3},
            {"call": "ack", "id": 1, "subtask": "0.1"}, {"call": "savepoint"}, {"call": "decline", "id": 2, "subtask": "0.1", "reason": "no disk"},
            {"call": "ack", "id": 2, "subtask": "0.1", "payload": ""}, {"call": "restore", "from": 1}, {"call": "cancel"}, {"call": "dispose", "id": 1},
            {"call": "take", "most": 9}, {"call": "deleted", "file": "1"}, {"call": "ack", "term": 3, "id": 9, "subtask": "0.0"},
        ]
        told = fits("POST", "/v1/jobs/p/calls", {"term": 1, "calls": more[:8], "ended": True}, "k")[2]["answers"]
        assert fits("GET", "/v1/jobs/p/records/1/states")[2]["subtasks"] == [
            {"subtask": "0.0", "files": ["2", "1"], "sizes": [None, None], "payload": "eA==", "bytes": 7, "millis": 3},
            {"subtask": "0.1", "files": [], "sizes": [], "payload": "", "bytes": 0, "millis": 0},
        ]
        told += fits("POST", "/v1/jobs/p/calls", {"calls": more[8:], "ended": True}, "k2")[2]["answers"]
        assert [(answer.get("kind"), answer.get("ended")) for answer in told] == [
            (None, []), ("savepoint", []), ("savepoint", []), ("savepoint", []), ("savepoint", []), ("savepoint", [2]), (None, []), ("savepoint", []), (None, []), ("savepoint", [1]),
            (None, []), (None, []), (None, None),
        ], told
        until(lambda: fits("GET", "/v1/jobs/p/history?last=5")[2]["records"][:1] and server.get("/v1/jobs/p/files")[2]["upto"] == server.get("/v1/jobs/p")[2]["seq"])
        named = [
            {"call": "reserve", "term": 1, "count": 3}, {"call": "savepoint"}, {"call": "ack", "term": 1, "id": 1, "subtask": "0.0", "fresh": ["1"]},
            {"call": "decline", "term": 1, "id": 1, "subtask": "0.0"}, {"call": "forfeit", "term": 1, "names": ["2"]}, {"call": "restore", "from": "latest"},
            {"call": "reserve", "count": 1}, {"call": "ack", "id": 1, "subtask": "0.0", "fresh": ["1"]}, {"call": "reserve", "term": 1, "count": 3}, {"call": "cancel"},
        ]
        answers = fits("POST", "/v1/jobs/n/calls", {"term": 2, "calls": named}, "k")[2]["answers"]
        assert [answer for answer in answers if "fenced" in answer] == [{"fenced": "Spent", "file": "1"}, {"fenced": "OldTerm"}], answers
        assert [answer.get("term") for answer in answers if "restore" in answer or "cancel" in answer] == [2, 3], answers
        fits("POST", "/v1/jobs", {"name": "m", "settings": MAKING, "shape": [1]})
        assert [fits("GET", f"/v1/jobs/m{path}")[0] for path in ("", "/term")] == [200, 409]
        for name, word, body, status in [
            ("n", "garbage", {"files": ["1", "2", "9"]}, 200), ("m", "garbage", {"files": []}, 409), ("x", "garbage", {"files": []}, 404), ("n", "garbage", {"file": 1}, 400),
            ("n", "fence", {"first_name": "20"}, 409), ("m", "fence", {"first_name": 100}, 200), ("m", "fence", {"first_name": 0}, 400),
        ]:
            assert fits("POST", f"/v1/jobs/{name}/{word}", body)[0] == status, (name, word, body)
        until(lambda: server.get("/v1/jobs/a/files")[2]["upto"] == server.get("/v1/jobs/a")[2]["seq"])
        until(lambda: server.get("/v1/jobs/a/samples")[2]["samples"])
        for path in [
            "/v1/jobs", "/v1/view", "/v1/view/a", "/healthz", "/readyz", "/metrics", "/openapi.json", "/v1/jobs/n", "/v1/jobs/n/events", "/v1/jobs/n/log?terms=1",
            "/v1/jobs/n/term", "/v1/jobs/x/term", "/v1/jobs/b", "/v1/jobs/b/stream", *(f"/v1/jobs/a{rest}" for rest in (
                "", "/records", "/records?how=expired", "/records/1", "/records/2", "/records/77", "/records/1/acks", "/records/77/acks", "/records/2/states",
                "/records/77/states", "/files", "/files/1", "/files/9", "/files/5", "/log", "/log?limit=x", "/events", "/samples", "/history", "/history?last=x",
                "/stream?after=99")),
        ]:
            told = fits("GET", path)
            # an error is one of RFC 9457 for a client that asks for it, with the same members beside
            other = fits("GET", path, accept="application/json, Application/Problem+JSON;q=0.5")
            if told[0] >= 400:
                assert other[1]["content-type"] == "application/problem+json" and told[1]["content-type"] == "application/json", other
                assert (other[2]["status"], other[2]["type"], other[2]["detail"]) == (told[0], "about:blank", told[2]["error"]), other
                assert other[2]["title"] and told[2].items() < other[2].items(), (told, other)
            else:
                assert other[1]["content-type"] == told[1]["content-type"]
        assert fits("POST", "/v1/jobs", {"name": "b", "settings": SETTINGS, "shape": [2]})[1]["location"] == "/v1/jobs/b"
        assert "location" not in fits("POST", "/v1/jobs", {"name": "b", "settings": SETTINGS, "shape": [2]})[1]
        check_log(server.get("/v1/jobs/a")[2], [2], server.get("/v1/jobs/a/log?terms=1")[2]["calls"])
        for path, status in ("/v1/jobs/b", 409), ("/v1/jobs/a", 409), ("/v1/jobs/a?abandon=1", 200), ("/v1/jobs/a", 404):
            assert fits("DELETE", path)[0] == status, path


def test_a_job_claims_its_folder():
    """And none that has files of somebody else, that is not mounted, or whose marker is of another opening."""
    with folder() as at, served() as server:
        job, other = (Service(server.url).open(name, SETTINGS, [1]) for name in "ab")
        files, empty, strange = (f"{at}/{name}" for name in ("files", "empty", "strange"))
        folders(at, "files", "empty", "strange")
        job.claim(files)
        task, record = job.begin().session(block=5), job.call(savepoint())["id"]
        task.ack(record, "0.0", [task.name()])
        job.claim(files)
        os.mkdir(f"{strange}/1")
        shutil.copy(f"{files}/.relkvanu-a", f"{files}/.relkvanu-b")
        for claims, place, why in ((job, empty, "is its disk not mounted"), (other, strange, "not known whose they are"), (other, files, "names another job")):
            there = os.listdir(place)
            failed = raised(Failed, lambda: claims.claim(place))
            assert why in str(failed) and os.listdir(place) == there, failed
