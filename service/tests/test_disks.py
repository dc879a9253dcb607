"""Databases on a full disk: every answered call was kept, and once there is room again, the service goes on. And memory that
runs out in the library, again and again: the answers say so, and the log is still the state."""
import os
import signal
import subprocess
import time

import kills
from harness import PROGRAM, TOP, Server, check_log, folder, kept, needed, process_status, small_disk, until
from postgres import postgres
from relkvanu_service import Service
from writers import SETTINGS, SHAPE, Writer, check, end

JOB = {"name": "orders", "settings": {"interval": 10, "at_once": 64}, "shape": [1]}


def test_sqlite():
    """The database is on a file system of 2 MiB. The process ends with 75 and answers nothing that it has not kept; if there is room
    again, it goes on."""
    with folder() as at, small_disk(at, "2m") as small:
        server = Server(at, database=f"{small}/x.db")
        server.start()
        server.request("POST", "/v1/jobs", JOB)
        kept, number = 0, 0
        until(lambda: server.get("/v1/jobs/orders")[2]["seq"] >= 1)
        while server.process.poll() is None and number < 5000:
            # a late acknowledgement is always made
            ack = {"call": "ack", "id": 1, "subtask": "0.0", "fresh": [str(number * 200 + one) for one in range(1, 201)]}
            told = server.request("POST", "/v1/jobs/orders/calls", {"term": 1, "calls": [{"call": "reserve", "count": 200}, ack]})
            if told[0] == 200:
                kept = max([kept] + [answer["seq"] for answer in told[2]["answers"] if "seq" in answer])
                number += 1
        assert server.ended() == 75, server.log()[-500:]
        assert "is tried again" in server.log(), server.log()[-500:]
        subprocess.run(["mount", "-o", "remount,size=64m", small], check=True)
        server.start()
        log = list(Service(server.url).job("orders").log(terms=True))
        assert len(log) >= kept > 50, (len(log), kept)
        check_log(server.get("/v1/jobs/orders")[2], [1], log)
        return f"{kept} calls were acknowledged before the disk was full, and all were there after"


def has_log(database):
    """Goes on to the next file of PostgreSQL's log. Returns whether there was one."""
    try:
        return bool(database.sql("select pg_logical_emit_message(true, 'a', 'b'); select pg_switch_wal()"))
    except AssertionError:
        return False


def fill(file):
    """Writes until there is no room."""
    block = bytes(1 << 20)
    while len(block) > 0:
        try:
            file.write(block)
        except OSError:
            block = block[: len(block) // 2]


def test_postgresql():
    """The database is on a file system that fills up: first its tables have no room, then its own log, and it ends. If there is
    room again, all goes on."""
    with folder() as at, small_disk(at, "96m") as small, postgres(small, "--wal-segsize=1") as database:
        server = Server(at, database.url).start()
        told = []
        with kept(server) as ended, kills.writers_at([server.url], told):
            time.sleep(0.5)
            with open(f"{small}/ballast", "wb", buffering=0) as ballast:
                fill(ballast)
            until(lambda: "commit is tried again" in server.log() and "No space left" in server.log(), 30)
            until(lambda: not has_log(database), 30)
            until(lambda: ended, 30)
            os.remove(f"{small}/ballast")
            until(lambda: database.runs() or database.start_again(), 30)
            server.wait_ready(kept=True)
        server.stop()
        assert set(ended) == {75}, ended
        tries = server.log().count("commit is tried again")
        return f"{tries} commits tried again, the service ended {len(ended)} times; {told[0]}"


def is_taken(process, number):
    """Whether a process has no signal of this number to take: two that wait for it are one."""
    return not int(process_status(process)["ShdPnd"], 16) >> number - 1 & 1


def test_no_memory_in_calls():
    needed("cc", "nm")
    with folder() as at:
        subprocess.run(["cc", "-O2", "-Wall", "-Wextra", "-Werror", "-shared", "-fPIC", "-o", f"{at}/hungry.so", f"{TOP}/faults/hungry.c"], check=True)
        names = subprocess.run(["nm", PROGRAM], stdout=subprocess.PIPE, text=True, check=True).stdout.splitlines()
        symbols = dict(reversed(line.split()[::2]) for line in names if line.endswith((" rattle_alloc", " rattle_realloc")))
        offsets = f"{symbols['rattle_alloc']} {symbols['rattle_realloc']} 2"
        server = Server(at, args=["--image-calls", "30"], prefix=["env", f"LD_PRELOAD={at}/hungry.so", f"HUNGRY={offsets}"]).start()
        service = Service(server.url)
        job = service.open("orders", SETTINGS, SHAPE)
        writers = [Writer([server.url], "orders", number) for number in range(4)]
        for writer in writers:
            writer.start()
        opened = {}

        def no_memory():
            return sum(writer.no_memory for writer in writers)

        # an even number of signals, so that there is memory at the end; a busy machine makes fewer calls between two of them
        while len(opened) < 20 or len(opened) % 2 or no_memory() < 4 and len(opened) < 400:
            time.sleep(0.2)
            os.kill(server.process.pid, signal.SIGUSR2)
            until(lambda: is_taken(server.process.pid, signal.SIGUSR2))
            body = {"name": f"new-{len(opened)}", "settings": {"interval": 1 << 40}, "shape": [1]}
            opened[body["name"]] = server.request("POST", "/v1/jobs", body)[0]
        end(writers)
        not_made = sum(writer.not_made for writer in writers)
        assert no_memory() >= 4, f"memory ran out {no_memory()} times"
        until(lambda: job.state()["mode"] == "failed", 30)
        told = check(writers, service, "orders", SHAPE)
        # a job whose names can't be given out for want of memory is not there
        assert set(opened.values()) <= {201, 507}, opened
        there = {it["name"]: it["seq"] for it in service.jobs() if it["name"] != "orders"}
        assert there == {name: 1 for name, status in opened.items() if status == 201}, (there, opened)
        before = job.state()
        server.kill()
        server.prefix = []
        server.start()
        after = job.state()
        for name in ("seq", "files", "live", "mode", "choice"):
            assert before[name] == after[name], (name, before, after)
        opened = f"{len(there)} of {len(opened)} jobs were opened"
        return f"memory ran out in {no_memory()} calls, {not_made} after them were not made; {told[0]} acknowledged, {told[2]} answered alike by the proved program; {opened}"
