"""interrupts.py [MANY]: the main thread of an engine in Python is interrupted at random moments, by a handler that raises, while it calls, reads, waits,
puts, discards and closes, and other threads call. Nothing hangs, no read or use is left, and a handler runs within 0.3 s where the machine is idle."""
import faulthandler
import os
import queue
import random
import signal
import sys
import tempfile
import threading
import time

from busy import slowed
from relkvanu import Settings
from relkvanu.store import Call, NextFailed, Store, StoreError

SETTINGS = Settings(interval=10**9)
LONGEST = 600  # seconds from one interrupt to the next, or to the end: it hangs
SOON, BUSY = 0.3, 10  # seconds, on an idle machine


class Interrupt(Exception):
    pass


class Alarm:
    """Sends the process a signal after a while, from a thread of its own, and notes how late its handler ran."""

    def __init__(self):
        self.sent = 0.0
        self.late = []
        self.waits = queue.SimpleQueue()
        signal.signal(signal.SIGUSR1, self.handle)
        threading.Thread(target=self.send, daemon=True).start()

    def handle(self, *_):
        self.late.append(time.monotonic() - self.sent)
        raise Interrupt

    def send(self):
        while True:
            time.sleep(self.waits.get())
            self.sent = time.monotonic()
            os.kill(os.getpid(), signal.SIGUSR1)


def until_interrupted(alarm, seconds, work):
    """Does the work again and again until the handler raises."""
    faulthandler.dump_traceback_later(LONGEST, exit=True)
    try:
        alarm.waits.put(seconds)
        while True:
            work()
    except Interrupt:
        pass


def until_soon(alarm, seconds, work):
    """Interrupts the work, whose handler has to run soon. A busy machine may be late now and then, but not five times in a row."""
    for _ in range(5):
        until_interrupted(alarm, seconds, work)
        times = slowed()
        assert alarm.late[-1] < BUSY * times, alarm.late
        if alarm.late[-1] < SOON * times:
            return
    raise AssertionError(f"the handlers ran after {alarm.late[-5:]} s")


def discards(job, *how):
    """A discarder in the main thread, which its function may end by and by: there is one at a time."""
    try:
        job.discard(*how)
    except StoreError as why:
        assert why.name == "NotNow", why  # the last one ends within its slice


def look(job):
    with job.read() as reads:
        reads.mode()


def works(job):
    """What the main thread does."""
    names = iter(job.reserve(job.report.term, 60_000))
    return [
        lambda: look(job),
        lambda: job.reserve(job.report.term, 1),
        lambda: job.calls([Call.reserve(job.report.term, 1)] * 3),
        job.now, job.counts, job.measures, job.next_tick, job.term, job.sweep,
        lambda: job.await_tick(60_000), lambda: job.await_next(60_000), lambda: job.await_next(1),
        lambda: job.put(next(names), b"state"),
        lambda: discards(job, lambda _: True),
    ]


def test_calls(folder, many, choice):
    """Interrupts of an open job. Afterwards others call as before, and nobody is within the store."""
    os.mkdir(f"{folder}/state")
    job = Store(f"{folder}/job.db", SETTINGS, [1], storage=f"{folder}/state", create=True)
    alarm, made, end = Alarm(), [0], False

    def task():
        while not end:
            job.reserve(job.report.term, 1)
            made[0] += 1

    threads = [threading.Thread(target=task) for _ in range(3)]
    for it in threads:
        it.start()
    todo = works(job)
    for _ in range(many):
        until_interrupted(alarm, choice.random() * 0.01, choice.choice(todo))
        before = made[0]
        while made[0] <= before + 3:  # the watchdog of the program ends it if it hangs
            time.sleep(0.001)
    end = True
    for it in threads:
        it.join()
    while job._used:
        time.sleep(0.001)
    job.close()
    check_late(alarm, many)
    Store(f"{folder}/job.db", SETTINGS, [1], storage=f"{folder}/state").close()


def check_late(alarm, many):
    assert len(alarm.late) == many, (len(alarm.late), many)
    late, times = sorted(alarm.late), slowed()
    soon = sum(it < SOON * times for it in late)
    print(f"{many} interrupts: {soon} handlers ran within {SOON * times:.1f} s, the latest after {late[-1]:.3f} s")
    assert soon >= many * 0.9 and late[-1] < BUSY * times, late[-10:]  # a busy machine may be late now and then


def test_closes(folder, many, choice):
    """Interrupts of close() beside threads that wait for ticks and read. The next close() goes on with it."""
    alarm, interrupted = Alarm(), 0
    for nth in range(many):
        job = Store(f"{folder}/job{nth % 5}.db", SETTINGS, [1], create=True)
        threads = [threading.Thread(target=waits, args=(job,)) for _ in range(3)]
        for it in threads:
            it.start()
        closed = []
        until_interrupted(alarm, choice.random() * 0.004, lambda: closed.append(job.close()) if not closed else time.sleep(0.0001))
        interrupted += not closed
        job.close()
        for it in threads:
            it.join()
    print(f"{many} jobs, {interrupted} ends of them were interrupted")


def waits(job):
    try:
        while True:
            look(job)
            job.await_tick(60_000)
            job.await_next(60_000)
    except StoreError as why:
        assert why.name in ("Stopped", "Closed"), why


def test_waits(folder):
    """A handler runs soon in each long wait: for a tick, also of a job that has failed, for files to discard, for a read of another thread, and in close()."""
    os.mkdir(f"{folder}/state")
    job = Store(f"{folder}/job.db", SETTINGS, [1], storage=f"{folder}/state", create=True)
    alarm, holds, ends = Alarm(), threading.Event(), threading.Event()
    for wait in (job.await_tick, job.await_next):
        until_soon(alarm, 0.5, lambda: wait(60_000))
    until_soon(alarm, 0.5, lambda: discards(job))
    job.decline_in(1, job.trigger().reply.id, 0, 0)
    while job.await_next(60_000) != NextFailed():
        pass
    until_soon(alarm, 0.5, lambda: job.await_next(60_000))
    assert job.restore().term == 2

    def reads():
        with job.read():
            holds.set()
            ends.wait()

    reader = threading.Thread(target=reads)
    reader.start()
    holds.wait()
    for work in (lambda: look(job), lambda: job.reserve(2, 1), job.close):
        until_soon(alarm, 0.3, work)
    ends.set()
    reader.join()
    job.close()
    print(f"{len(alarm.late)} interrupts: 7 waits, the latest handler ran after {max(alarm.late):.3f} s")


def main(many=1000):
    faulthandler.dump_traceback_later(LONGEST, exit=True)
    choice = random.Random(1)
    for test, words in ((test_waits, ()), (test_calls, (many * 4 // 5, choice)), (test_closes, (many // 5, choice))):
        with tempfile.TemporaryDirectory() as folder:
            test(folder, *words)


if __name__ == "__main__":
    main(*map(int, sys.argv[1:]))
