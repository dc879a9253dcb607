"""Machines that are network namespaces, each with an address of its own, and the wires between them: a switch in user space passes packets from one
TUN device to another, and loses, delays and reorders them, in each direction as it is told. So the kernel needs no netem and no packet filter."""
import atexit
import ctypes
import fcntl
import heapq
import mmap
import os
import random
import select
import struct
import subprocess
import sys
import time

import harness
from run import Skipped

CLONE_NEWNET = 0x40000000
TUNSETIFF, IFF_TUN, IFF_NO_PI = 0x400454CA, 0x0001, 0x1000
# of a wire, in one direction: the part of the packets that is lost, and the least and greatest delay in seconds
WIRE = struct.Struct("ddd")


def address(number):
    return f"10.9.{number}.2"


def needed():
    """Skips a test where there can be no namespaces."""
    harness.needed("ip", "nsenter", "unshare")
    if os.geteuid() != 0:
        raise Skipped("iproute2", "only root makes network namespaces")
    if not os.path.exists("/dev/net/tun"):
        raise Skipped("iproute2", "the kernel has no TUN devices")
    if ctypes.CDLL(None, use_errno=True).unshare(CLONE_NEWNET) != 0:
        raise Skipped("iproute2", f"a network namespace can't be made: {os.strerror(ctypes.get_errno())}")


def device(name):
    """A TUN device of this namespace. It stays the file's wherever it is moved to."""
    file = os.open("/dev/net/tun", os.O_RDWR | os.O_NONBLOCK)
    fcntl.ioctl(file, TUNSETIFF, struct.pack("16sH22x", name.encode(), IFF_TUN | IFF_NO_PI))
    return file


class Machine:
    """A namespace that lives as long as this process, and the words before those of a process in it. `here` is the one of this process."""

    def __init__(self, number, here=False):
        self.number, self.address, self.name, self.prefix, self.holds = number, address(number), f"wire{number}", [], None
        self.file = device(self.name)
        if not here:
            self.holds = subprocess.Popen(["unshare", "--net", "sh", "-c", "echo; exec cat"], stdin=subprocess.PIPE, stdout=subprocess.PIPE)
            atexit.register(self.holds.kill)
            self.holds.stdout.readline()  # from now on it has its namespace
            self.prefix = ["nsenter", f"--net=/proc/{self.holds.pid}/ns/net"]
            subprocess.run(["ip", "link", "set", self.name, "netns", str(self.holds.pid)], check=True)
        self.ip("link", "set", "lo", "up")
        self.ip("address", "add", f"{self.address}/32", "dev", self.name)
        self.plug()

    def ip(self, *words):
        subprocess.run([*self.prefix, "ip", *words], check=True)

    def plug(self):
        self.ip("link", "set", self.name, "up")
        self.ip("route", "add", "10.9.0.0/16", "dev", self.name)

    def unplug(self):
        """The machine's own kernel knows that there is no way."""
        self.ip("link", "set", self.name, "down")


class Network:
    """This process as machine 0, which the wires of the others reach without a fault, and so many others. This process is in a namespace of its
    own from now on."""

    def __init__(self, at, others):
        needed()
        count = others + 1
        self.machines = [Machine(number, here=number == 0) for number in range(count)]
        path = f"{at}/wires"
        with open(path, "wb") as it:
            it.write(bytes(WIRE.size * count * count))
        with open(path, "r+b") as it:
            self.map = mmap.mmap(it.fileno(), 0)
        files = [machine.file for machine in self.machines]
        self.switch = subprocess.Popen([sys.executable, __file__, path, *map(str, files)], stdin=subprocess.PIPE, stdout=subprocess.PIPE, pass_fds=files)
        atexit.register(self.switch.kill)
        for file in files:
            os.close(file)

    def set(self, source, to, loss=0.0, least=0.0, most=0.0):
        """What becomes of the packets of one direction from now on."""
        WIRE.pack_into(self.map, WIRE.size * (source * len(self.machines) + to), loss, least, most)

    def end(self):
        """Ends all. Returns how many packets were passed on, lost and delayed."""
        told = self.switch.communicate(b"")[0]
        for machine in self.machines[1:]:
            machine.holds.communicate(b"")
        return tuple(map(int, told.split()))


class Switch:
    def __init__(self, path, files):
        self.files, self.late, self.counts, self.chance = files, [], [0, 0, 0], random.Random(1)
        with open(path, "r+b") as it:
            self.map = mmap.mmap(it.fileno(), 0)

    def run(self):
        """Until standard input ends."""
        poll = select.poll()
        for file in (0, *self.files):
            poll.register(file, select.POLLIN)
        while True:
            wait = max(0.0, self.late[0][0] - time.monotonic()) * 1000 if self.late else None
            for file, _ in poll.poll(wait):
                if file == 0:
                    return print(*self.counts)
                self.read(self.files.index(file))
            while self.late and self.late[0][0] <= time.monotonic():
                self.give(*heapq.heappop(self.late)[2:])

    def read(self, source):
        try:
            packet = os.read(self.files[source], 1 << 16)
        except OSError:
            return  # it is unplugged
        to = packet[18] if len(packet) >= 20 and packet[0] >> 4 == 4 and packet[16:18] == b"\x0a\x09" else len(self.files)
        if to >= len(self.files):
            return
        loss, least, most = WIRE.unpack_from(self.map, WIRE.size * (source * len(self.files) + to))
        if self.chance.random() < loss:
            self.counts[1] += 1
        elif most:
            self.counts[2] += 1
            heapq.heappush(self.late, (time.monotonic() + self.chance.uniform(least, most), sum(self.counts), to, packet))
        else:
            self.give(to, packet)

    def give(self, to, packet):
        self.counts[0] += 1
        try:
            os.write(self.files[to], packet)
        except OSError:
            pass  # it is unplugged, or its queue is full


if __name__ == "__main__":
    Switch(sys.argv[1], list(map(int, sys.argv[2:]))).run()
