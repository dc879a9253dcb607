"""Two services and their PostgreSQL on three machines: network namespaces with an address each. Meanwhile wires are cut, in both directions or
in one, lose, delay and reorder packets, and are unplugged, a process is killed, and the clock of one machine is an hour ahead of the others.
One leads and the other stands by. machines.py [SECONDS] does it for 10 minutes."""
import random
import sys
import time

from harness import PgArchive, Server, configured, folder, save
from network import Network
from partition import CONFIG, HOUR, JOBS, Client, Faults, Floor, worked
from postgres import Postgres
from preloaded import Clocks

TOKEN = "0123456789abcdef0123"
CLIENTS = 6
# the machines: this process is 0
SERVICES, DATABASE = (1, 2), 3


class MachineClient(Client):
    TOKEN, LEAST = TOKEN, 30


class FaultsOfMachines(Faults):
    """Those of the wires between a machine of a service and that of the database, and between the two services."""

    KINDS = ["cut", "mute", "deaf", "lossy", "slow", "unplugged", "alone", "clock", "killed"]
    LONGEST = 4

    def __init__(self, network, *given):
        super().__init__(*given)
        self.network = network

    def of_wires(self, wires, seconds, *fault):
        for wire in wires:
            self.network.set(*wire, *fault)
        time.sleep(seconds)
        for wire in wires:
            self.network.set(*wire)

    def wires(self, place):
        """To the database, and back."""
        machine = SERVICES[place]
        return [(machine, DATABASE), (DATABASE, machine)]

    def cut(self, place, seconds):
        self.of_wires(self.wires(place), seconds, 1.0)

    def mute(self, place, seconds):
        """What it sends is lost, and it hears the database."""
        self.of_wires(self.wires(place)[:1], seconds, 1.0)

    def deaf(self, place, seconds):
        """It hears nothing: calls are committed, and it does not learn that."""
        self.of_wires(self.wires(place)[1:], seconds, 1.0)

    def lossy(self, place, seconds):
        self.of_wires(self.wires(place), seconds, 0.2)

    def slow(self, place, seconds):
        """Also in another order."""
        self.of_wires(self.wires(place), seconds, 0.02, 0.02, 0.12)

    def unplugged(self, place, seconds):
        machine = self.network.machines[SERVICES[place]]
        machine.unplug()
        time.sleep(seconds)
        machine.plug()

    def alone(self, _, seconds):
        """Each reaches the database, and none the other."""
        first, second = SERVICES
        self.of_wires([(first, second), (second, first)], seconds, 1.0)

    def clock(self, place, seconds):
        """The other way round than else: the second machine's clock is an hour ahead."""
        self.clocks[place].set(day=-HOUR if place else HOUR)
        time.sleep(seconds)
        self.clocks[place].set(day=HOUR if place else 0)


def served(at, network, database, clocks):
    """A service on each of the machines."""
    servers = []
    for place, number in enumerate(SERVICES):
        machine = network.machines[number]
        text = CONFIG + f'token_file = "{at}/tokens"\n'
        server = Server(at, database.url, configured(at, text), [*machine.prefix, *clocks[place].prefix], host=machine.address, token=TOKEN)
        server.args += ["--advertise", server.url]
        servers.append(server)
    servers[0].start()
    return servers


def run(seconds, seed=1):
    with folder() as at:
        network = Network(at, len(SERVICES) + 1)
        machine = network.machines[DATABASE]
        database = Postgres(at, within=machine.prefix, host=machine.address)
        try:
            said = with_faults(at, network, database, seconds, random.Random(seed))
        finally:
            database.stop()
        passed, lost, late = network.end()
        assert lost > 20 and late > 20, (passed, lost, late)
        return f"{said}; {passed} packets, {lost} lost and {late} late"


def with_faults(at, network, database, seconds, chance):
    save(f"{at}/tokens", f"write {TOKEN}\n")
    clocks = [Clocks(at, f"clocks-{place}") for place in range(2)]
    clocks[1].set(day=HOUR)
    servers = served(at, network, database, clocks)
    archive = PgArchive(database)
    servers[1].stand_by()
    addresses, floor = [server.url for server in servers], Floor()
    clients = [MachineClient(addresses, JOBS[number % 2], number, floor) for number in range(CLIENTS)]
    faults = FaultsOfMachines(network, chance, database, servers, None, clocks)
    made, said = worked(servers, clients, faults, archive, seconds)
    assert made >= CLIENTS * MachineClient.LEAST, made
    return f"a leader and a standby, {said}"


if __name__ == "__main__":
    print(run(int((sys.argv[1:] or ["600"])[0])))
