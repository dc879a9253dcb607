"""Clocks that are wrong, that are set while the service runs, and that stop while its machine is suspended."""
import time

from harness import Server, Service, folder, leader_and_standby, lease_of, until
from postgres import postgres
from preloaded import Clocks, Suspended
from relkvanu_service import ack, savepoint

HOUR, DAY = 3600, 24 * 3600
SETTINGS = {"interval": 1 << 40, "timeout": 600_000}


def now_of(job):
    return job.state()["now"] / 1000


def seen(job, most):
    """The time of a job and when it was that: by an answer that came within so many seconds, which not each does on a busy machine."""
    def soon():
        began = time.monotonic()
        now, ended = now_of(job), time.monotonic()
        return ended - began < most and (now, (began + ended) / 2)

    return until(soon, each=0)


def gain(job, seconds):
    """By which part the time of a job goes faster than the clock of this machine. A part in eighty is not seen."""
    first, began = seen(job, seconds / 80)
    time.sleep(seconds)
    last, ended = seen(job, seconds / 80)
    return (last - first) / (ended - began) - 1


def test_a_start_with_a_clock_that_is_far_ahead():
    with folder() as at:
        clocks = Clocks(at)
        server = Server(at, prefix=clocks.prefix).start()
        job = Service(server.url).open("orders", SETTINGS, [1])
        job.call(savepoint())
        assert server.stop() == 0
        clocks.set(day=3650 * DAY)
        server.refuses("--accept-clock")
        assert "more than a day" in server.log(), server.log()[-300:]
        # the refused start wrote no moment down
        clocks.set()
        server.start()
        assert abs(now_of(job) - time.time()) < 60
        assert server.stop() == 0
        # a service that is restarted now and then need not have calls
        for hours in (20, 40, 60):
            clocks.set(day=hours * HOUR)
            server.start()
            assert server.stop() == 0
        clocks.set(day=61 * HOUR + 4 * DAY)
        server.refuses("--accept-clock")
        server.args = ["--accept-clock"]
        server.start()
        ahead = now_of(job) - time.time()
        assert abs(ahead - 61 * HOUR - 4 * DAY) < 60, ahead
        job.call(savepoint())
        assert server.stop() == 0
        # behind the log, the moments count on from its end
        server.args = []
        clocks.set()
        server.start()
        assert "has not reached" in server.log(), server.log()[-300:]
        until(lambda: server.metric("relkvanu_clock_ahead_seconds") > 6 * DAY)


def test_steps_of_the_clock():
    """Moments follow a clock that was set, a tenth faster or slower. So no step expires a record."""
    with folder() as at:
        clocks = Clocks(at)
        server = Server(at, prefix=clocks.prefix).start()
        job = Service(server.url).open("orders", SETTINGS, [1])
        job.call(savepoint())
        gains, seconds = [], lease_of(4)
        for step in (HOUR, -HOUR):
            clocks.set(day=step)
            until(lambda: abs(server.metric("relkvanu_clock_ahead_seconds") + step) < 60)
            gains.append(gain(job, seconds))
        assert 0.05 < gains[0] < 0.15 and -0.15 < gains[1] < -0.05, gains
        # far away it is not followed
        clocks.set(day=400 * DAY)
        until(lambda: server.metric("relkvanu_clock_ahead_seconds") < -399 * DAY)
        gains.append(gain(job, seconds))
        assert abs(gains[2]) < 0.04, gains
        # the record of ten minutes is still pending
        assert job.call(ack(1, "0.0", [1]))["ack"] == "completed", "a step expired the record"
        return f"moments went by {', '.join(f'{gain:+.1%}' for gain in gains)} after steps of an hour, back, and of 400 days"


def test_a_suspended_machine_keeps_no_lease():
    with postgres() as database, folder() as at:
        clocks = Clocks(at)
        first, second = leader_and_standby(at, database.url, f"lease_seconds = {lease_of(4)}\n", clocks.prefix)
        job = Service(first.url).open("orders", SETTINGS, [1])
        suspension = Suspended(first, clocks)
        second.wait_ready()
        Service(second.url).job("orders").call(savepoint())
        slept = suspension.over()
        # the first look after it
        told = first.get("/v1/jobs/orders"), first.get("/readyz")
        assert not any(status == 200 for status, _, _ in told), told
        assert first.ended() == 75, first.log()[-300:]
        assert job.name == "orders"
        return f"after {slept} s it answered nothing and ended with 75"


def test_the_clock_of_the_database_may_be_set():
    with folder() as at, folder() as own:
        clocks = Clocks(at)
        with postgres(own, environment=clocks.environment) as database:
            first, second = leader_and_standby(at, database.url, f"lease_seconds = {lease_of(4)}\n")
            job = Service(first.url).open("orders", SETTINGS, [1])
            both = 0
            for ahead in (HOUR, 0, DAY):
                clocks.set(day=ahead)
                end = time.monotonic() + 1.5
                while time.monotonic() < end:
                    both += second.get("/readyz")[0] == 200
                    time.sleep(0.05)
                job.call(savepoint())
            assert both == 0 and int(database.sql("select epoch from leader")) == 1, both
            # set back by a day while nobody renews the lease
            first.kill()
            clocks.set(day=0)
            began = time.monotonic()
            second.wait_ready(20)
            took = time.monotonic() - began
            assert took < HOUR, took  # and not a day
        return f"one leader while it was set by an hour, back and by a day; a take-over {took:.1f} s after a kill, though it was set back"


def test_threads_that_have_nothing_to_do():
    """A standby over an empty database, and a leader with a long lease, without calls: their clock goes on by half a minute."""
    with postgres() as database, folder() as at:
        clocks = [Clocks(at, name) for name in ("leader", "standby")]
        servers = leader_and_standby(at, database.url, "lease_seconds = 600\n", *(one.prefix for one in clocks))
        time.sleep(1)
        for one in clocks:
            one.set(start=30)
        until(lambda: all(server.get("/healthz")[0] == 200 for server in servers), 10)
