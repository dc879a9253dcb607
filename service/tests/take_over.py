"""How long a standby takes to lead, with the default lease of 5 s and PostgreSQL of the tests. take_over.py [ROUNDS [JOBS]] kills the process that leads so
many times (12), and then stops it in good order as many times, beside so many jobs (100). Each time it prints the seconds until the other one's `/readyz`
is 200, in ascending order, and the load of the machine. All are on this machine. RELKVANU_PROGRAM is the program, by default the debug build."""
import os
import random
import signal
import sys
import time

from harness import SETTINGS, Server, folder
from postgres import postgres
from relkvanu_service import Service


def waited(leader, other, number):
    """The seconds from the signal until the other process leads."""
    began = time.monotonic()
    leader.process.send_signal(number)
    while other.get("/readyz")[0] != 200:
        time.sleep(0.02)
    return time.monotonic() - began


def measured(number, rounds, jobs):
    with postgres() as database, folder() as at:
        leader, other = Server(at, database.url).start(), Server(at, database.url).stand_by()
        service, took = Service(leader.url, other.url), []
        for job in range(jobs):
            service.open(f"j{job}", SETTINGS, [1])
        for _ in range(rounds):
            time.sleep(6 + 2 * random.random())  # at any moment of a third of the lease
            took.append(waited(leader, other, number))
            leader.process.wait()
            leader, other = other, leader.stand_by()
        return sorted(took)


def main(rounds=12, jobs=100):
    for how, number in (("killed", signal.SIGKILL), ("stopped", signal.SIGTERM)):
        took = measured(number, int(rounds), int(jobs))
        print(f"{how}: {' '.join(f'{it:.2f}' for it in took)} s; load {os.getloadavg()[0]:.0f}", flush=True)


if __name__ == "__main__":
    main(*sys.argv[1:])
