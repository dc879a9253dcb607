"""A PostgreSQL of the tests' own, in a folder."""
import glob
import os
import pwd
import random
import shutil
import subprocess
import time
from contextlib import contextmanager

from harness import TEMPLATES, folder, free_port, made_once, until
from preloaded import built
from run import Skipped

# in which pg_ctl starts and stops it, by default a minute
os.environ.setdefault("PGCTLTIMEOUT", "600")


class Postgres:
    """In a folder that exists. The options are those of initdb, and the environment is that of the server. It waits for the disk only if it
    `syncs`, as for a measurement: here no power is lost. `within` are words before those of its programs, as of a machine with this address."""

    def __init__(self, at, *options, environment=None, syncs=False, within=(), host="127.0.0.1"):
        found = sorted(glob.glob("/usr/lib/postgresql/*/bin/pg_ctl"))
        if not found:
            raise Skipped("PostgreSQL", "it is not here")
        self.bin, self.port = os.path.dirname(found[-1]), free_port()
        self.data = f"{at}/data"
        os.chmod(at, 0o755)
        self.environment = {**os.environ, **(environment or {})}
        if not syncs:
            self.environment["LD_PRELOAD"] = " ".join([built(at, "unsynced"), *self.environment.get("LD_PRELOAD", "").split()])
        self.url = f"postgres://postgres@{host}:{self.port}/postgres"
        os.mkdir(self.data)
        self.user = list(within)
        if os.geteuid() == 0:
            shutil.chown(self.data, "postgres", "postgres")
            self.user += ["setpriv", f"--reuid={pwd.getpwnam('postgres').pw_uid}", f"--regid={pwd.getpwnam('postgres').pw_gid}", "--clear-groups"]
        self.initialize(options)
        with open(f"{self.data}/postgresql.conf", "a", encoding="utf-8") as it:
            it.write(f"port = {self.port}\nlisten_addresses = '{host}'\nunix_socket_directories = ''\nshared_buffers = 32MB\nlog_min_messages = fatal\n")
        with open(f"{self.data}/pg_hba.conf", "a", encoding="utf-8") as it:
            it.write("host all all 10.9.0.0/16 trust\n")
        self.start()

    def initialize(self, options):
        """By initdb, or as it did for another test of the run: the tests copy it, since initdb takes half a second of a processor."""
        if not TEMPLATES:
            return self.make(self.data, options)

        def made(template):
            os.mkdir(template)
            shutil.copystat(self.data, template)
            if os.geteuid() == 0:
                shutil.chown(template, "postgres", "postgres")
            self.make(template, options)

        template = made_once(TEMPLATES, f"data{''.join(options)}", made)
        subprocess.run(["cp", "-a", f"{template}/.", self.data], check=True)

    def make(self, data, options):
        """Again if it fails: others on the machine may change what its programs need, for a moment. It leaves its folder empty then."""
        for tries in range(3):
            try:
                return self.run("initdb", "-D", data, "-U", "postgres", "-A", "trust", "--no-sync", *options)
            except AssertionError as why:
                if tries == 2:
                    raise
                print(f"initdb is tried again: {why}")
                time.sleep(10)

    def run(self, program, *words, environment=None):
        told = subprocess.run(
            [*self.user, f"{self.bin}/{program}", *words], stdout=subprocess.PIPE, stderr=subprocess.STDOUT, text=True, check=False, cwd="/", env=environment
        )
        if told.returncode:
            raise AssertionError(f"{program}: {told.stdout[-800:]}")
        return told.stdout

    def start(self, *more):
        # its output goes to a file, since the server keeps it open
        self.run("pg_ctl", "-D", self.data, "-w", "-l", f"{self.data}/log", *more, "start", environment=self.environment)

    def stop(self, mode="immediate"):
        self.run("pg_ctl", "-D", self.data, "-w", "-m", mode, "stop")

    def start_again(self):
        """Starts it if it has ended by itself. Returns whether it runs."""
        try:
            self.start()
        except AssertionError:
            return False
        return self.runs()

    def runs(self):
        try:
            return self.sql("select 1") == "1"
        except AssertionError:
            return False

    def sql(self, text):
        return self.run("psql", "-XAtq", self.url, "-c", text).strip()

    @contextmanager
    def locked(self, table):
        """Nobody reads or writes a table meanwhile."""
        name = f"lock-{random.randrange(1 << 30)}"
        words = f"set application_name = '{name}'; begin; lock table {table} in access exclusive mode; select pg_sleep(86400)"
        programs = [*self.user, f"{self.bin}/psql", "-XAtq", self.url, "-c", words]
        holder = subprocess.Popen(programs, stdout=subprocess.DEVNULL, stderr=subprocess.DEVNULL, cwd="/")
        of_it = f"from pg_stat_activity join pg_locks using (pid) where application_name = '{name}' and relation = '{table}'::regclass and granted"
        try:
            until(lambda: self.sql(f"select count(*) {of_it}") == "1")
            yield
        finally:
            self.sql(f"select pg_terminate_backend(pid) from pg_stat_activity where application_name = '{name}'")
            holder.wait()

    def quiet(self):
        """Waits until no service is connected. What one that was killed had sent is done then."""
        until(lambda: self.sql("select count(*) from pg_stat_activity where application_name = 'relkvanu'") == "0")


class Replica(Postgres):
    """A copy of a database in a folder beside it, which follows it. Each commit waits until the copy has it on its disk."""

    def __init__(self, primary):
        self.bin, self.user, self.environment = primary.bin, primary.user, primary.environment
        self.port, self.data = free_port(), f"{os.path.dirname(primary.data)}/replica"
        self.url = primary.url.replace(str(primary.port), str(self.port))
        os.mkdir(self.data, 0o700)
        if self.user:
            shutil.chown(self.data, "postgres", "postgres")
        self.run("pg_basebackup", "-D", self.data, "-d", primary.url, "--write-recovery-conf", "--checkpoint=fast", "--no-sync")
        with open(f"{self.data}/postgresql.conf", "a", encoding="utf-8") as it:
            it.write(f"port = {self.port}\ncluster_name = replica\n")
        self.start()
        primary.sql("alter system set synchronous_standby_names = 'replica'")
        primary.sql("select pg_reload_conf()")
        until(lambda: primary.sql("select sync_state from pg_stat_replication") == "sync")

    def promote(self):
        self.run("pg_ctl", "-D", self.data, "-w", "promote")


@contextmanager
def postgres(at=None, *options, **given):
    """In a folder that exists, or one of its own."""
    with folder() as own:
        it = Postgres(at or own, *options, **given)
        try:
            yield it
        finally:
            try:
                it.stop()
            except AssertionError:
                pass  # a test had stopped it
