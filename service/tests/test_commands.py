"""The commands that ask a service, and `relkvanu check`: what they print, for people and as JSON, and their exit statuses."""
import contextlib
import glob
import hashlib
import json
import os
import re
import signal
import sqlite3
import subprocess
import sys
import time

from harness import (
    COMMAND, ENVIRONMENT, HERE, PROGRAM, SETTINGS, TOP, Server, Service, beside, caught_up, content, folder, folders, free_port, how_ended, needed, ran, save, served, served_job,
    sqlite, told_by, until
)
from places import Bucket, around
from postgres import postgres
from relkvanu_service import ack, deleted, dispose, savepoint
from test_runner import Lines

KEEPING = ["--image-calls", "20", "--keep-calls", "40"]


def test_what_a_job_is():
    with served() as server:
        assert server.ask("jobs").split() == "JOB MODE CALLS PENDING IN USE WAITING TAKEN LAST COMPLETED".split() and server.ask_json("jobs") == []
        job = Service(server.url).open("orders", SETTINGS, [1, 2])
        job.calls([savepoint(), ack(1, "0.0", [11]), ack(1, "1.0", [21]), ack(1, "1.1"), savepoint(), ack(2, "0.0", [12], [11])])
        job.calls([dispose(1)])
        [file] = job.take(1)
        assert file == 21
        caught_up(job)
        row = server.ask("jobs").splitlines()[1].split()
        assert row == ["orders", "running", "10", "1", "2", "0", "1"], row
        # what each says as JSON is what the API says, at the same moment or another
        [listed], shown = server.ask_json("jobs"), server.ask_json("show", "orders")
        for told in (listed, shown):
            assert {**told, "now": 0} == {**job.state(), "now": 0}
        text = server.ask("show", "orders")
        for words in ("mode                   running", "2 in use, 0 waiting, 1 taken", "shape                  1 2", "2       savepoint  pending  2"):
            assert words in text, (words, text)
        assert server.ask_json("show", "orders", 2) == job.record(2) and server.ask_json("files", "orders") == job.files()
        text = server.ask("show", "orders", 2)
        assert "2 of 3: 1.0 1.1" in text and "savepoint" in text, text
        text = server.ask("show", "orders", 1)
        assert "completed" in text and "disposed" in text, text
        assert server.ask("files", "orders").splitlines()[1].split() == ["21", "taken", "5", "9", "10"], server.ask("files", "orders")
        assert server.ask_json("files", "orders", 21) == job.file(21)
        text = server.ask("files", "orders", 21)
        assert "savepoint 1 was disposed of" in text and "by call 5: in * ack" in text, text
        assert "record 2, subtask 0.0" in server.ask("files", "orders", 11)


def test_a_record_that_expired_names_who_was_missing():
    """And not the slowest of those that came, which did nothing wrong."""
    with served_job("orders", {**SETTINGS, "tolerable": 1}, [1, 3]) as (server, job):
        job.calls([savepoint(), ack(1, "0.0"), ack(1, "1.0"), ack(1, "1.1")])
        for how, timeout in (("pending", 1 << 40), ("expired", 1)):
            job.set(timeout=timeout)
            caught_up(job)
            until(lambda wanted=how: how_ended(job.record(1)) == wanted)
            words = [line.split() for line in server.ask("show", "orders", 1).splitlines()]
            assert ["missing", "1", "of", "4:", "1.2"] in words and not [it for it in words if it[0] == "slowest"], (how, words)
        job.set(timeout=1 << 40)
        job.calls([savepoint(), *(ack(2, subtask) for subtask in ("0.0", "1.1", "1.2", "1.0"))])
        caught_up(job)
        assert ["slowest", "1.0"] in [line.split() for line in server.ask("show", "orders", 2).splitlines()], server.ask("show", "orders", 2)


def test_the_log():
    with served_job("orders", SETTINGS, [1]) as (server, job):
        for _ in range(3):
            job.calls([{"call": "tick"}] * 700)
        log = list(job.log(terms=False))
        lines = server.ask("log", "orders", "--json").splitlines()
        assert [json.loads(line) for line in lines] == log and len(log) == 2102
        text = server.ask("log", "orders", "--after", 1995, "--most", 10).splitlines()
        assert [int(line.split()[0]) for line in text] == list(range(1996, 2006)), text
        assert text[0].endswith(f"{log[1995]['line']}  ->  {log[1995]['answer']}"), text[0]
        assert len(server.ask("log", "orders", "--most", 1500).splitlines()) == 1500 and server.ask("log", "orders", "--after", 2102) == ""
        # a reader that has read enough
        words = ["bash", "-c", 'set -o pipefail; "$@" | head -1', "log", PROGRAM, "log", "orders", "--url", server.url]
        piped = subprocess.run(words, capture_output=True, text=True, check=False)
        assert piped.returncode == 0 and len(piped.stdout.splitlines()) == 1 and not piped.stderr, piped


def test_calls_of_a_user():
    with served_job("orders", SETTINGS, [1]) as (server, job):
        assert server.ask("savepoint", "orders") == "savepoint 1 is triggered\n"
        job.call(ack(1, "0.0", [11]))

        def complete():
            until(lambda: (live := job.state()["live"]) and live[-1]["id"] == 2)
            time.sleep(0.3)
            job.call(ack(2, "0.0", [12]))

        engine = beside(complete)
        told = [json.loads(line) for line in server.ask("savepoint", "orders", "--wait", COMMAND // 2, "--json").splitlines()]
        engine.join()
        assert [told[0]["savepoint"], told[0]["id"], told[1]] == ["triggered", 2, {"completed": 2}], told
        began = time.monotonic()
        told = server.ask("savepoint", "orders", "--wait", 1, status=75)
        assert told.startswith("savepoint 3 is triggered\n") and "savepoint 3 is not complete yet" in told and time.monotonic() - began > 0.9, told
        assert server.ask("dispose", "orders", 1) == "the savepoint is disposed of; files that wait for deletion now: 1 more\n"
        assert "the coordinator refuses it: NoSuchSavepoint" in server.ask("dispose", "orders", 1, status=1)
        told = server.ask("restore", "orders", "--savepoint", 2, "--shape", "2,1", "--without-look")
        assert told == "the job begins again, from savepoint 2; files that wait for deletion now: 0 more; the term is 2\n"
        assert job.state()["shape"] == [2, 1]
        assert server.ask_json("restore", "orders")["restore"] == "savepoint"
        assert "NoSuchSavepoint" in server.ask("restore", "orders", "--savepoint", 9, status=1)
        # one that ends before it is complete
        ending = beside(lambda: until(lambda: (live := job.state()["live"]) and live[-1]["id"] == 4) and server.ask("cancel", "orders"))
        told = server.ask("savepoint", "orders", "--wait", COMMAND // 2, status=1)
        ending.join()
        assert "savepoint 4 ended before it was complete" in told, told
        assert "NotRunning" in server.ask("cancel", "orders", status=1) and job.state()["mode"] == "cancelled"


def test_statuses():
    with served(tokens=[f"write {'w' * 20}", f"read {'r' * 20}"]) as server:
        for token in "wrx":
            save(f"{server.folder}/{token}", f"{token * 20}\n")
        Service(server.url, token="w" * 20).open("orders", SETTINGS, [1])

        def asked(*words, token="r", status=0):
            return server.ask(*words, "--token-file", f"{server.folder}/{token}", status=status)

        assert "orders" in asked("jobs") and asked("savepoint", "orders", token="w").startswith("savepoint 1")
        for words, status, text in [
            (("show", "other"), 1, "404: there is no job other"), (("show", "orders", 9), 1, "has no record 9"),
            (("savepoint", "../x"), 2, "1 to 64 of a-z"), (("show", "orders", "x"), 2, "invalid"), (("files", "orders", "--most", 0), 2, "1..=1000"),
            (("restore", "orders", "--shape", "1,x"), 2, "invalid"), (("nothing",), 2, "nothing"),
        ]:
            assert text in asked(*words, status=status), words
        assert "401" in asked("jobs", token="x", status=78) and "401" in asked("cancel", "orders", status=78)
        assert "--token-file: No such file" in asked("jobs", token="none", status=78) and "ftp" in ran("jobs", "--url", "ftp://x", status=78)
        server.process.send_signal(signal.SIGSTOP)
        # a half of the time for each try: the client has one address, and asks it again
        assert "not reached: it did not answer within 1.0 s" in asked("jobs", "--within", 2, status=75)
        server.process.send_signal(signal.SIGCONT)
        server.stop()
        told = asked("jobs", "--within", 3, status=75)
        assert "not reached" in told and "it is asked again" in told, told
        # the next address is asked
        server.start()
        assert "orders" in asked("jobs", "--url", f"http://127.0.0.1:{free_port()}")


def test_terms():
    with served_job("orders", SETTINGS, [1], 0) as (server, job):
        assert "the term is 2" in server.ask("restore", "orders")
        assert server.ask_json("term", "orders")["term"] == 2 and server.ask("term", "orders").split() == ["term", "2", "next", "name", "1"]
        job.begin().session().name()
        assert "reserve * " in server.ask("log", "orders") and "reserve 3 " in server.ask("log", "orders", "--terms") and "next name" in server.ask("show", "orders")


def worked(job, rounds, first=1):
    for number in range(first, first + rounds):
        job.calls([savepoint(), ack(number, "0.0", [number]), *([dispose(number - 1)] if number > 1 else [])])
        job.calls([deleted(file) for file in job.take(1)] or [{"call": "tick"}])


def test_check():
    with served_job("orders", SETTINGS, [1], 130, args=KEEPING) as (server, job):
        Service(server.url).open("users", SETTINGS, [1]).call(savepoint())
        worked(job, 8)
        database, check = server.database, ["check", "--database", server.database]
        seq = job.state()["seq"]
        images = 1 if seq < 40 else 2
        until(lambda: sqlite(database, "select count(*) from image where job = 1")[0] == (images,))
        told = [json.loads(line) for line in ran(*check, "--json").splitlines()]
        assert told == [
            {"job": "orders", "alike": True, "calls": seq, "images": images}, {"job": "users", "alike": True, "calls": 3, "images": 0},
        ], (told, seq)
        # while a service commits, and cuts
        worked(job, 60, 9)
        until(lambda: job.state()["first"] > 100)
        working = beside(worked, job, 60, 69)
        for _ in range(10):
            told = ran(*check, "--job", "orders")
            assert told.startswith("job orders: ") and "are as this program has them" in told, told
        working.join()
        assert server.stop() == 0
        last, first = sqlite(database, "select max(seq), min(seq) from call where job = 1")[0]
        assert first > 1
        # an image that its digest fits, and a log that ends before it (test_damaged.py has other damages)
        row = sqlite(database, "select job, seq, at, shape, completed, event, text, digest from image where job = 1 order by seq desc limit 1")[0]
        completed = "None" if row[4] is None else f"Some({row[4]})"
        digest = hashlib.sha256(f"{row[0]} {row[1]} {row[2]} {row[3]} {completed} {row[5] - 1} {row[6]}".encode()).hexdigest()
        change = "update image set event = ?, digest = ? where job = 1 and seq = ?"
        sqlite(database, change, row[5] - 1, digest, row[1])
        told = ran(*check, status=1)
        assert f"the image after call {row[1]}: it is not what the calls before it give" in told and "job users: 3 calls" in told, told
        assert json.loads(ran(*check, "--json", "--job", "orders", status=1))["alike"] is False
        ran(*check, "--job", "users")
        sqlite(database, change, row[5], row[7], row[1])
        ran(*check)
        sqlite(database, "delete from call where job = 1 and seq >= ?", row[1])
        assert f"call {row[1]} is missing" in ran(*check, status=1)
        return f"{last - first + 1} calls of {last}, with 10 checks beside a service"


def test_check_of_other_databases():
    with postgres() as database, folder() as at:
        check = ["check", "--database", database.url]
        assert "no tables of a service" in ran(*check, status=78)
        server = Server(at, database.url, KEEPING).start()
        job = Service(server.url).open("orders", SETTINGS, [1], 30)
        worked(job, 30)
        until(lambda: job.state()["first"] > 1)
        told = ran(*check)
        assert "are as this program has them" in told and "and 0 images" not in told, told
        assert "there is no job other" in ran(*check, "--job", "other", status=78)
        database.sql("update schema_version set number = 99")
        assert "have version 99" in ran(*check, status=78)
        server.kill()
        database.stop()
        ran(*check, status=75)
        save(f"{at}/text", "no database, and long enough " * 100)
        assert "file is not a database" in ran("check", "--database", f"{at}/text", status=78)
        sqlite3.connect(f"{at}/other").executescript("create table t(x)")
        assert "no tables of a service" in ran("check", "--database", f"{at}/other", status=78)
        assert "neither postgres nor postgresql" in ran("check", "--database", "mysql://x", status=78)
        ran("check", "--database", f"{at}/none", status=75)
        assert not os.path.exists(f"{at}/none")


def test_the_environment_gives_the_address_and_the_token():
    """An option goes first. Each command that has the option `--url` takes both."""
    helps = {name: ran(name, "--help") for name in verbs()}
    asking = {name: text for name, text in helps.items() if "--url" in text}
    assert len(asking) > 15 and all("RELKVANU_URL" in text and "RELKVANU_TOKEN_FILE" in text for text in asking.values()), asking
    token = "0123456789abcdef0123"
    with served(tokens=[f"write {token}"], token=token) as server:
        at = server.folder
        save(f"{at}/token", f"{token}\n")

        def asked(*words, file="token"):
            status, out, wrong = told_by(*words, RELKVANU_URL=f"http://127.0.0.1:{free_port()} {server.url}", RELKVANU_TOKEN_FILE=f"{at}/{file}")
            return status, out + wrong

        assert asked("jobs", "--json") == (0, "[]\n")
        # what Python does
        for words in ("keep", "none", "--folder", at), ("--url", server.url, "--token-file", f"{at}/token", "keep", "none", "--folder", at):
            status, told = asked(*words)
            assert status == 1 and "there is no job none" in told, (status, told)
        assert asked("jobs", "--url", f"http://127.0.0.1:{free_port()}", "--within", "1")[0] == 75
        assert asked("jobs", file="none")[0] == 78


@contextlib.contextmanager
def running_job(at, files):
    """That of examples/python/count.py, which listens. It has put out lines."""
    folders(at, "out", "state")
    words = [sys.executable, f"{HERE}/runner_engine.py", f"{at}/count.db", files, f"{at}/out", f"{at}/job.sock"]
    around = {**os.environ, "PYTHONPATH": f"{ENVIRONMENT['PYTHONPATH']}:{TOP}/examples/python"}
    with subprocess.Popen(words, stdout=subprocess.PIPE, text=True, env=around) as run:
        try:
            until(lambda: glob.glob(f"{at}/out/*.jsonl"))
            yield run
        finally:
            run.kill()


def over_socket(at):
    """Verbs for a running job, of which no checkpoint comes due any more. Nobody says its name, and options may come before the verb."""
    def asked(*words, status=0):
        return ran("--url", f"unix:{at}/job.sock", *words, status=status)

    def rests():
        state = json.loads(asked("show", "--json"))
        return state["due"] > state["now"] + 60000 and all(it["done"] for it in state["live"]) and state["name"] == "count"

    assert "interval 3000000" in asked("set", "interval=3000000")
    until(rests)
    return asked


def test_a_running_job_is_asked_over_its_socket():
    with folder() as at, running_job(at, f"{at}/state") as run:
        asked = over_socket(at)
        told = asked("checkpoint", "--full", "--wait")
        id = int(told.split()[1])
        assert "count" in asked("jobs") and told == f"checkpoint {id} is triggered\ncheckpoint {id} is complete\n", told
        assert asked("show", id).split()[:4] == ["record", str(id), "kind", "checkpoint"]
        assert asked("savepoint", "--wait").endswith(f"savepoint {id + 1} is complete\n")
        assert re.search(rf"^{id + 1} +savepoint.* none$", asked("savepoints", "--folder", f"{at}/state"), re.MULTILINE)
        assert "NotStopped" in asked("begin", status=1)
        for words in (["log"], ["term"], ["advance"], ["delete"], ["end", "--folder", at], ["set", "--folder", at], ["restore", "--from-backup", "--folder", at]):
            assert "asks a service" in asked(*words, status=2), words
        assert asked("stop", "--wait").endswith(f"the job has stopped at savepoint {id + 2}\n")
        assert asked("restore").startswith(f"the job stays stopped, and begins from savepoint {id + 2}")
        assert asked("begin").startswith(f"the job begins again, from savepoint {id + 2}")
        assert "disposed" in asked("dispose", id + 1) and "InUse" in asked("dispose", id + 2, status=1)
        ended = [line.split()[:2] for line in asked("history").splitlines()[1:4]]
        assert ended == [[str(id + 2), "savepoint"], [str(id + 1), "savepoint"], [str(id), "checkpoint"]], ended
        assert "wasn't expected" in asked("begin", "orders", status=2)
        assert "not reached" in ran("jobs", "--url", f"unix:{at}/none", "--within", 1, status=75)
        assert "the job is cancelled" in asked("cancel") and run.communicate(timeout=COMMAND)[0] == "CANCELLED\n"
        return f"11 verbs, {Lines(f'{at}/out').check()} lines"


def test_a_running_job_has_its_files_in_a_bucket():
    """A record is whole as long as the bucket has its objects: otherwise it is not restored."""
    bucket = Bucket("")
    os.environ.update(bucket.said)  # of the engine, and of what looks for objects
    ENVIRONMENT.update(around(bucket), PYTHONPATH=ENVIRONMENT["PYTHONPATH"])
    with folder() as at, running_job(at, f"s3://{bucket.bucket}/orders") as run:
        asked, place = over_socket(at), bucket.words("", "")
        id = int(asked("savepoint", "--wait").split()[1])
        assert re.search(rf"^{id} +savepoint.* none$", asked("savepoints", *place), re.MULTILINE)
        assert "--bucket says where" in asked("restore", "--savepoint", id, status=2)
        assert asked("restore", "--savepoint", id, *place).startswith(f"the job begins again, from savepoint {id};")
        file = json.loads(asked("show", id, "--json"))["live"]["acks"][1]["files"][0]
        bucket.remove(file)
        told = asked("savepoints", *place, status=1)
        assert re.search(rf"^{id} +savepoint.* 1: {file}$", told, re.MULTILINE), told
        assert f"record {id} lacks files in s3://{bucket.bucket}/orders" in asked("restore", "--savepoint", id, *place, status=1)
        assert "the job is cancelled" in asked("cancel") and run.communicate(timeout=COMMAND)[0] == "CANCELLED\n"
        return f"savepoint {id}, {Lines(f'{at}/out').check()} lines"


def verbs():
    listed = ran("--help").partition("Commands:\n")[2].partition("\n\n")[0]
    return [line.split()[0] for line in listed.splitlines()]


def test_completions_and_the_manual_pages():
    script = ran("completions", "bash")
    ask = 'source /dev/stdin; COMP_WORDS=(relkvanu "$@"); COMP_CWORD=$#; _relkvanu relkvanu; echo "${COMPREPLY[@]}"'

    def completed(*words):
        return subprocess.run(["bash", "-c", ask, "completed", *words], input=script, stdout=subprocess.PIPE, text=True, check=True).stdout.split()

    assert sorted(completed("sav")) == ["savepoint", "savepoints"] and completed("sho") == ["show"], (completed("sav"), completed("sho"))
    assert completed("savepoint", "--wa") == ["--wait"] and "--image-calls" in completed("serve", "--i")
    # those of the verbs that Python has come from it
    assert completed("import", "--cl") == ["--claim"], completed("import", "--cl")
    for shell in ("zsh", "fish"):
        assert "savepoint" in ran("completions", shell)
    needed("mandoc", "help2man")
    with folder() as at:
        subprocess.run([f"{TOP}/packaging/write_command_pages", PROGRAM, at], check=True)
        pages = sorted(glob.glob(f"{at}/*.1"))
        assert [os.path.basename(it) for it in pages] == sorted(["relkvanu.1", *(f"relkvanu-{it}.1" for it in verbs())]), pages
        told = subprocess.run(["mandoc", "-T", "lint", "-W", "warning", *pages], stdout=subprocess.PIPE, text=True, check=False)
        assert told.returncode == 0, told.stdout
        for verb in verbs():
            assert f"\nrelkvanu-{verb} \\- " in content(f"{at}/relkvanu-{verb}.1"), verb
