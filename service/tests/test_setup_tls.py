"""`relkvanu setup-tls`: what it makes, that a service starts with it, and that an end before or after each of its writes leaves nothing that the same command does
not finish."""
import os
import shutil
import signal
import stat
import subprocess

from harness import COMMAND, PROGRAM, SERVICE, Server, content, folder, save, until
from preloaded import SHIM, built, shim
from stepped import EACH, FIRST
from test_security import certificate

KILLED, FAILED = -9, 1  # by faults/shim.c; since it has killed openssl
SECRET = ("read-token", "write-token", "token", "key.pem")
MADE = {*SECRET, "certificate.pem", "service.toml"}
HERE = "127.0.0.1"
CREDENTIALS = "/run/credentials/relkvanu.service"


class Machine:
    """The settings and the units of a machine."""

    def __init__(self, at):
        self.at, self.settings, self.units = f"{at}/machine", f"{at}/machine/settings", f"{at}/machine/units"
        self.words = ("setup-tls", HERE, "--settings", self.settings, "--units", self.units)
        self.drop_in = f"{self.units}/relkvanu.service.d/tls.conf"
        self.fill()

    def fill(self):
        shutil.rmtree(self.at, ignore_errors=True)
        os.makedirs(self.settings)
        shutil.copy(f"{SERVICE}/deploy/service.toml", self.settings)

    def ran(self, *words, before=()):
        told = subprocess.run([*before, PROGRAM, *self.words, *words], stdout=subprocess.PIPE, stderr=subprocess.STDOUT, text=True, timeout=COMMAND, check=False)
        return told.returncode, told.stdout

    def is_as_installed(self):
        return content(f"{self.settings}/service.toml") == content(f"{SERVICE}/deploy/service.toml")

    def check_parts(self):
        """No part is there, or what is there is whole: a part never gets another content."""
        assert self.is_as_installed() or os.path.exists(f"{self.settings}/token"), os.listdir(self.settings)

    def check(self):
        names = set(os.listdir(self.settings))
        assert names == MADE and os.listdir(os.path.dirname(self.drop_in)) == ["tls.conf"], (names, os.listdir(self.units))
        for name in names:
            found = os.stat(f"{self.settings}/{name}")
            wanted = 0o600 if name in SECRET else 0o644
            assert stat.S_IMODE(found.st_mode) == wanted and (found.st_uid, found.st_gid) == (os.geteuid(), os.getegid()), (name, found)
        read, write = (content(f"{self.settings}/{it}-token").strip() for it in ("read", "write"))
        assert len(read) == len(write) == 40 and read != write, (read, write)
        assert content(f"{self.settings}/token") == f"read {read}\nwrite {write}\n"
        wanted = [f"LoadCredential={it}:{self.settings}/{it}" for it in ("certificate.pem", "key.pem")]
        assert content(self.drop_in).split() == ["[Service]", *wanted], content(self.drop_in)
        assert 'listen = "0.0.0.0:7780"\n' in content(f"{self.settings}/service.toml")


def tls_server(at, machine):
    """A service with the settings of a machine. Its unit would give it the files of the certificate."""
    save(f"{at}/serve.toml", content(f"{machine.settings}/service.toml").replace(CREDENTIALS, machine.settings))
    server = Server(at, args=["--config", f"{at}/serve.toml", "--token-file", f"{machine.settings}/token"])
    server.ca = f"{machine.settings}/certificate.pem"
    return server.start()


def test_a_service_starts_with_it():
    with folder() as at:
        machine = Machine(at)
        status, told = machine.ran("--self-signed")
        assert status == 0 and "systemctl restart relkvanu" in told, told
        machine.check()
        server = tls_server(at, machine)
        tokens = [content(f"{machine.settings}/{it}-token").strip() for it in ("read", "write")]
        assert [server.get("/v1/jobs", it)[0] for it in (*tokens, "x" * 40)] == [200, 200, 401]
        assert Server(at, port=server.port).get("/readyz")[0] == 0, "without TLS"
        assert server.stop() == 0


def ends_at(machine, library, nth, after, words):
    """The command ends before or after a write. The same one does the rest. Returns whether there was such a write."""
    machine.fill()
    status, told = machine.ran(*words, before=shim(library, machine.at, die=nth, die_after=after, raw=1))
    if status == 0:
        machine.check()
        return False
    assert status in (KILLED, FAILED), (nth, after, status, told)
    whole = os.path.exists(f"{machine.settings}/token")
    machine.check_parts()
    before = content(f"{machine.settings}/token") if whole else None
    status, told = machine.ran(*words)
    # it had ended but for saying so, if it names a file that is there
    assert status == 0 or (status == 1 and "is not replaced" in told and not machine.is_as_installed()), (nth, after, told)
    machine.check()
    assert before in (None, content(f"{machine.settings}/token")), "another token"
    return True


def test_an_end_at_each_write():
    with folder() as at:
        library, machine, ended = built(at, SHIM), Machine(at), 0
        certificate(at, "first")
        given = ("--certificate", f"{at}/certificate.pem", "--key", f"{at}/key.pem")
        moment = FIRST
        while ends_at(machine, library, moment // 2 + 1, moment % 2, given):
            moment, ended = moment + EACH, ended + 1
        # openssl ends too
        signed = sum(ends_at(machine, library, nth, 0, ("--self-signed",)) for nth in range(1, 60, 10))
        assert EACH * ended > 60 and signed > 3, (ended, signed)
        return f"{ended} ends, and {signed} while it signs"


class Renewed(Machine):
    """One that has a certificate, and gets another one, which is `other` if that is set."""

    other = None

    def fill(self):
        super().fill()
        assert self.ran("--self-signed")[0] == 0
        self.first = self.pair()

    def pair(self, at=""):
        return tuple(content(f"{self.settings}/{at}{name}") for name in ("certificate.pem", "key.pem"))

    def check(self):
        """With another certificate and its key, and those of before beside them."""
        assert set(os.listdir(self.settings)) == MADE | {"certificate.pem.before", "key.pem.before"}, os.listdir(self.settings)
        assert self.pair() == self.other
        assert tuple(content(f"{self.settings}/{name}.before") for name in ("certificate.pem", "key.pem")) == self.first
        assert [stat.S_IMODE(os.stat(f"{self.settings}/{name}").st_mode) for name in ("certificate.pem", "key.pem")] == [0o644, 0o600]

    def check_parts(self):
        """Each of the two files is whole: the one of before, or the other one."""
        assert all(found in (one, other) for found, one, other in zip(self.pair(), self.first, self.other)), self.pair()


def test_a_certificate_is_renewed():
    with folder() as at:
        machine = Renewed(at)
        for _ in range(2):
            status, told = machine.ran("--renew", "--self-signed")
            assert status == 0 and "renewed/certificate.pem" in told and "beside that one" in told and machine.pair() == machine.first, told
        machine.other = machine.pair("renewed/")
        assert machine.other[0] != machine.first[0] and stat.S_IMODE(os.stat(f"{machine.settings}/renewed").st_mode) == 0o700
        server = tls_server(at, machine)
        assert server.get("/readyz")[0] == 200
        status, told = machine.ran("--renew")
        assert status == 0 and "systemctl reload relkvanu" in told, told
        machine.check()
        server.process.send_signal(signal.SIGHUP)
        until(lambda: server.get("/readyz")[0] == 200)
        assert server.stop() == 0
        # nothing is prepared, or there is no certificate
        status, told = machine.ran("--renew")
        assert status == 1 and "renewed: it is not there" in told, told
        bare = Machine(at)
        status, told = bare.ran("--renew", "--self-signed")
        assert status == 1 and "key.pem: it is not there" in told and os.listdir(bare.settings) == ["service.toml"], told


def test_a_renewal_ends_at_each_write():
    with folder() as at:
        library, machine, ended = built(at, SHIM), Renewed(at), 0
        certificate(at, "first")
        machine.other = (content(f"{at}/certificate.pem"), content(f"{at}/key.pem"))
        words = ("--renew", "--certificate", f"{at}/certificate.pem", "--key", f"{at}/key.pem")
        while ends_at(machine, library, ended // 2 + 1, ended % 2, words):
            ended += 1
        # another one is prepared: it is not replaced, and neither is anything where the key is of another certificate
        machine.fill()
        assert machine.ran("--renew", "--self-signed")[0] == 0
        status, told = machine.ran(*words)
        assert status == 1 and "renewed: it is there, and is not replaced" in told and machine.pair() == machine.first, told
        shutil.rmtree(f"{machine.settings}/renewed")
        status, told = machine.ran("--renew", "--certificate", f"{at}/certificate.pem", "--key", f"{machine.settings}/key.pem")
        assert status == 1 and "is not the key of the certificate" in told and set(os.listdir(machine.settings)) == MADE, told
        assert machine.ran("--renew", "--self-signed", *words[1:])[0] == 2 and ended > 20, ended
        return f"{ended} ends"


def test_nothing_is_replaced():
    with folder() as at:
        machine = Machine(at)
        for name in (*SECRET, "certificate.pem", machine.drop_in):
            machine.fill()
            path = os.path.join(machine.settings, name)
            os.makedirs(os.path.dirname(path), exist_ok=True)
            save(path, "of somebody")
            status, told = machine.ran("--self-signed")
            assert status == 1 and f"{path}: it is there, and is not replaced" in told and content(path) == "of somebody", told
            assert machine.is_as_installed() and set(os.listdir(machine.settings)) <= {"service.toml", name}, os.listdir(machine.settings)
        machine.fill()
        assert machine.ran("--self-signed")[0] == 0
        before = {name: content(f"{machine.settings}/{name}") for name in MADE}
        assert machine.ran("--self-signed")[0] == 1 and before == {name: content(f"{machine.settings}/{name}") for name in MADE}
        # settings that somebody has changed
        machine.fill()
        save(f"{machine.settings}/service.toml", 'listen = "10.0.0.5:80"\n')
        status, told = machine.ran("--self-signed")
        assert status == 1 and "as they are installed" in told and os.listdir(machine.settings) == ["service.toml"], (told, os.listdir(machine.settings))


def test_a_certificate_that_is_given():
    with folder() as at:
        machine = Machine(at)
        certificate(at, "first")
        given = ("--certificate", f"{at}/certificate.pem", "--key", f"{at}/key.pem")
        for words in ((), ("--self-signed", *given), given[:2], given[2:]):
            assert machine.ran(*words)[0] == 2, words
        assert machine.ran(*given)[0] == 0
        machine.check()
        assert all(content(f"{machine.settings}/{it}") == content(f"{at}/{it}") for it in ("certificate.pem", "key.pem"))
        os.rename(f"{at}/key.pem", f"{at}/first.pem")
        certificate(at, "second")
        machine.fill()
        status, told = machine.ran("--certificate", f"{at}/certificate.pem", "--key", f"{at}/first.pem")
        assert status == 1 and "is not the key of the certificate" in told and machine.is_as_installed(), told
        status, told = machine.ran("--certificate", f"{at}/none.pem", "--key", f"{at}/key.pem")
        assert status == 1 and "none.pem" in told, told
        assert machine.ran(*given)[0] == 0, "what was left is made anew"
        machine.check()
        status, told = Machine(at).ran("--self-signed", before=["env", f"PATH={at}"])
        assert status == 1 and "openssl: " in told, told
