"""Dask over the service: checkpoints of relkvanu.daskstream, whose drivers are lost with all that they have, while the service is killed."""
import os
import subprocess
import sys

from harness import PROGRAM, TOP, Server, folder, raised, until
from relkvanu_service import Service
from run import Skipped
from test_events import Copy

LONGEST = 1800  # seconds, on a busy machine


def in_use(job):
    """The files of the completed records, which no task changes any more."""
    live = [job.record(record["id"])["live"] for record in job.state()["live"] if record["done"]]
    return {file for record in live for ack in record["acks"] for file in ack["files"]}


def driver(server, at, create=True, **more):
    """What a driver over Dask has of its job (relkvanu.records), here with parts of its own process."""
    from relkvanu.records import Records

    return Records(None, f"{at}/state", Service(server.url).job("words"), create=create, **more)


def state_files(at):
    return {name for name in os.listdir(f"{at}/state") if name.isdecimal()}


def test_a_driver_over_dask_whose_job_another_one_has_begun():
    """No library is loaded, and no driver has a file of its own."""
    sys.path.append(f"{TOP}/bindings/python")
    try:
        from relkvanu.jobs import Superseded
        from relkvanu.parts import Failed, PartError
    except ImportError as error:
        raise Skipped("python3-distributed", str(error)) from error
    with folder() as at:
        os.mkdir(f"{at}/state")
        server = Server(at).start()
        raised(Failed, driver, server, at, False)  # there is no such job
        old = driver(server, at)
        assert old.restore() is None
        assert old.save("one", {"x": [1, 2, 3]})[:3] == (1, 3, 0)
        assert old.save("two", {"x": [1, 2, 4]})[:3] == (2, 1, 2)
        old._job.trigger(2)  # and is late from here on
        new = driver(server, at)
        found = new.restore()
        assert (found.meta, [new.value(it) for it in found.parts["x"]]) == ("two", [1, 2, 4]), found
        raised(Superseded, old.save, "three", {"x": [9, 9, 9]})
        pending = Service(server.url).job("words").state()["live"][-1]
        assert not pending["done"], pending  # the old one has triggered it, and the new one takes it
        assert new.save("three", {"x": [1, 2, 5]})[:3] == (pending["id"], 1, 2)
        old.close()
        server.again()
        copy = Copy(server, None)
        copy.make()
        assert new.save("four", {"x": [1, 2, 5], "y": [6]})[1:3] == (1, 3)
        until(lambda: new.counts() == (5, 0))
        names = state_files(at)
        assert names == in_use(Service(server.url).job("words")) and len(names) == 5, names
        copy.restore()
        raised(Superseded, new.save, "five", {"x": [1, 2, 7]})
        new.close()
        late = driver(server, at)
        raised(PartError, late.restore)  # the list of the third record is deleted, as it was released
        raised(Failed, late.sweep)
        late.close()
        assert state_files(at) - names == set() == names - state_files(at), (names, state_files(at))  # those of the fourth, which nobody knows any more
        assert "relkvanu.coordinator" not in sys.modules, "the library"
        return f"the late driver is refused, and that before a restored backup; {len(names)} files stay"


def test_stops_of_a_stream_over_dask_while_all_are_killed():
    """engines/dask/kills.py: each driver begins without a file. Kills of a stream that goes on, then stops of it, and then its end."""
    kills, stops = (os.environ.get(f"RELKVANU_DASK_{it}", "1") for it in ("KILLS", "STOPS"))
    if subprocess.run(["/usr/bin/python3", "-c", "import streamz, distributed, pandas, xxhash"], stderr=subprocess.DEVNULL, check=False).returncode:
        raise Skipped("python3-streamz", "not all packages of engines/dask/setup are here")
    with folder() as at:
        words = ["/usr/bin/python3", f"{TOP}/engines/dask/kills.py", "words", kills, "1", f"{at}/words", "--service", PROGRAM, "--stops", stops]
        paths = ("bindings/python", "engines/dask", "service/client/python")
        told = subprocess.run(words, stdout=subprocess.PIPE, stderr=subprocess.STDOUT, text=True, check=False, timeout=LONGEST,
                              env={**os.environ, "PYTHONPATH": ":".join(f"{TOP}/{it}" for it in paths), "RELKVANU_LIB": "/nowhere"})
        assert told.returncode == 0, told.stdout[-3000:]
        return told.stdout.strip().split("\n")[-1]
