"""Services and their database on machines with an address each, and faults of the wires between them: machines.py. RELKVANU_MACHINES makes it
longer."""
import os

from machines import run

SECONDS = int(os.environ.get("RELKVANU_MACHINES", "10"))


def test_a_leader_and_a_standby_on_two_machines():
    return run(SECONDS)
