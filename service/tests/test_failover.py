"""Clients whose first machine is gone, whose answers are lost, and whose proxy answers: they go on, and do nothing twice."""
import contextlib
import json
import os
import re
import socket
import subprocess
import threading
import time

import requests

from proxy import Proxy
from harness import BUSY, COMMAND, ENGINE, PROGRAM, SETTINGS, Server, Service, configured, content, folder, free_port, needed, raised, served, slowed, until
from postgres import postgres
from relkvanu_service import Failed, ack, cancel, dispose, restore, savepoint

PATIENCE = 25  # seconds: so a try has 10 of them


@contextlib.contextmanager
def gone():
    """The addresses of a machine that drops what it gets, as one without power, and of a process that takes connections and is mute."""
    with contextlib.ExitStack() as all_of_them:
        full, mute = (all_of_them.enter_context(socket.socket()) for _ in range(2))
        for it, queue in ((full, 0), (mute, 64)):
            it.bind(("127.0.0.1", free_port()))
            it.listen(queue)
        for _ in range(4):  # more than its queue takes
            filler = all_of_them.enter_context(socket.socket())
            filler.setblocking(False)
            with contextlib.suppress(BlockingIOError):
                filler.connect(full.getsockname())
        yield {name: "http://127.0.0.1:%d" % it.getsockname()[1] for name, it in (("drops", full), ("mute", mute))}


def test_a_machine_that_is_gone():
    """Python, the engine in Rust, and `clean`: each gets to the second address."""
    needed(ENGINE)
    with served() as server, gone() as first:
        os.mkdir(f"{server.folder}/files")
        Service(server.url).open("files", SETTINGS, [1])
        runs, took = {}, {}
        for name, url in first.items():
            words = [PROGRAM, "clean", "--job", "files", "--folder", f"{server.folder}/files", "--once", "--url", url, "--url", server.url]
            runs[f"engine, {name}"] = [ENGINE, f"{url},{server.url}", f"job-{name}", "2"]
            runs[f"clean, {name}"] = words
        begun = time.monotonic()
        runs = {name: subprocess.Popen(words, stdout=subprocess.PIPE, stderr=subprocess.STDOUT, text=True) for name, words in runs.items()}
        for name, url in first.items():
            asked = time.monotonic()
            assert Service(url, server.url).jobs()
            took[f"Python, {name}"] = time.monotonic() - asked
        for name, run in runs.items():
            told = run.communicate(timeout=COMMAND)[0]
            took[name] = time.monotonic() - begun
            assert run.returncode == 0, (name, told)
        assert all(seconds < 30 * BUSY for seconds in took.values()), took
        assert took["Python, drops"] < 9 * slowed(), took
        return ", ".join(f"{name} {seconds:.1f} s" for name, seconds in took.items())


def test_answers_that_are_lost_are_answered_again():
    """Each request of the client is made twice, as its first answer is lost. Nothing is done twice, and nothing is refused."""
    with served() as server:
        proxy = Proxy(server, lambda number, body: "lost" if number % 2 else None)
        job = Service(proxy.url).open("a", SETTINGS, [1])
        assert job.call(savepoint())["id"] == 1
        assert job.call(ack(1, "0.0", [7]))["ack"] == "completed"
        assert job.call(savepoint())["id"] == 2 and job.call(ack(2, "0.0", [8]))["ack"] == "completed"
        assert job.call(restore(1))["restore"] == "savepoint"
        assert job.call(dispose(2))["seq"]
        assert job.take() == [8]
        assert job.call(cancel())["seq"]
        made = [entry["line"].split(" ")[0] for entry in Service(server.url).job("a").log()]
        assert made == ["fence", "reserve", "savepoint", "in", "savepoint", "in", "restore", "dispose", "take", "cancel"], made
        keys = [key for method, path, key in proxy.came if path.endswith("/calls")]
        told = job.follow(0)
        assert [next(told)["event"] for _ in range(7)] == ["triggered", "completed", "triggered", "completed", "restored", "disposed", "cancelled"]
        assert None not in keys and keys[::2] == keys[1::2] and len(set(keys)) == 9, keys
        proxy.http.shutdown()


def test_which_answers_are_asked_again():
    with served() as server:
        Service(server.url).open("a", SETTINGS, [1])
        fates = []
        proxy = Proxy(server, lambda number, body: fates.pop(0) if fates else None)

        def asked(*answers, call=lambda: Service(proxy.url, patience=PATIENCE).jobs()):
            fates[:] = [(answer, {}) if isinstance(answer, int) else answer for answer in answers]
            proxy.came.clear()
            begun = time.monotonic()
            try:
                call()
                told = 200
            except Failed as failed:
                told = failed.status
            fates.clear()
            return told, len(proxy.came), time.monotonic() - begun

        job = Service(proxy.url, patience=PATIENCE).job("a")
        for status in (429, 500, 502, 503, 504):
            assert asked(status)[:2] == (200, 2), status
        for status in (400, 401, 404, 409, 422, 301):
            assert asked(status)[:2] == (status, 1), status
        # a call may have been made before the 500
        assert asked(500, call=lambda: job.call(savepoint()))[:2] == (500, 1)
        assert asked(502, 504, call=lambda: job.call(savepoint()))[:2] == (200, 3)
        told = asked((503, {"Retry-After": "1"}))
        assert told[:2] == (200, 2) and 1 <= told[2] < PATIENCE, told
        told = asked((503, {"Retry-After": str(2 * PATIENCE)}))  # longer than it may take
        assert told[:2] == (503, 1) and told[2] < PATIENCE, told
        for url in ("nowhere", "http://", "ftp://127.0.0.1/"):
            begun = time.monotonic()
            raised((requests.RequestException, ValueError), lambda: Service(url, patience=PATIENCE).jobs())
            assert time.monotonic() - begun < PATIENCE, url
        proxy.http.shutdown()


def test_a_deadline_of_the_caller():
    with gone() as first:
        service, took = Service(first["mute"], patience=None), []
        for ask in (service.within(0.5).jobs, service.within(0.5).job("a").state, service.job("a").within(0.5).take):
            begun = time.monotonic()
            raised(requests.RequestException, ask)
            took.append(time.monotonic() - begun)
        assert all(0.2 < seconds < 9 * slowed() for seconds in took), took  # without it a try has 10 s
        return f"{max(took):.1f} s at most"


def test_the_leader_that_a_standby_names():
    with postgres() as database, folder() as at:
        leader = Server(at, database.url).start()
        standby = Server(at, database.url).start(ready=False)
        until(lambda: standby.get("/readyz")[1].get("relkvanu-leader") == leader.url)
        with gone() as first:
            begun = time.monotonic()
            Service(standby.url, first["mute"], leader.url).open("a", SETTINGS, [1])
            took = time.monotonic() - begun
        assert took < 9 * slowed(), took  # a try at the mute one takes 10 s
        return f"{took:.2f} s, past a mute address between them"


def test_keys_are_looked_up_for_a_group():
    """Many requests at once, beside a commit that takes a while: those that wait share a statement that looks up their keys."""
    clients, rounds = 32, 4
    body = len(json.dumps({"calls": [ack(1, "0.0", [100], term=1)]}))
    with postgres() as database, folder() as at:
        with open(f"{database.data}/postgresql.conf", "a", encoding="utf-8") as it:
            it.write("log_statement = 'all'\nlog_min_messages = log\n")
        database.stop("fast")
        database.start()
        # it takes requests while a commit lasts longer than a lease by default
        server = Server(at, database.url, configured(at, "lease_seconds = 60\n")).start()
        job = Service(server.url).open("a", SETTINGS, [1])
        job.calls([savepoint(), ack(1, "0.0", [1])])
        # a commit lasts as long as the table `held` has a row
        database.sql("""create table held(); create function slow() returns trigger language plpgsql as
            'begin while exists(select from held) loop perform pg_sleep(0.01); end loop; return null; end';
            create trigger slow after insert on request for each statement execute function slow()""")
        for first in range(100, 100 + rounds * clients, clients):
            database.sql("insert into held default values")
            threads = [threading.Thread(target=lambda name: job.calls([ack(1, "0.0", [name], term=1)]), args=(first + number,)) for number in range(clients)]
            threads[0].start()
            # its commit is under way, and no other one, such as that of a lease
            until(lambda: database.sql("select count(*) from pg_stat_activity where wait_event = 'PgSleep'") == "1")
            for thread in threads[1:]:
                thread.start()
            # they are there
            until(lambda: server.metric("relkvanu_http_body_bytes") >= clients * body)
            database.sql("delete from held")
            for thread in threads:
                thread.join()
        keys = int(database.sql("select count(*) from request"))
        server.stop()
        looked = len(re.findall(r"execute keyed: ", content(f"{database.data}/log")))
        assert keys > clients * rounds and 0 < looked < keys / 4, (keys, looked)
        return f"{keys} requests with a key, {looked} statements for all their keys"
