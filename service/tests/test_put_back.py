"""`relkvanu put-back`: a copy of a database gets in its place, and what is there is set aside. Each command is ended before and after each of its writes."""
import os
import shutil
import subprocess

from harness import COMMAND, PROGRAM, Server, folder, save, served
from postgres import postgres
from preloaded import SHIM, built, shim
from relkvanu_service import Service, savepoint
from stepped import Steps
from test_commands import SETTINGS

KILLED = -9  # by faults/shim.c
DAMAGED = {f"relkvanu.db{end}": f"damaged{end}" for end in ("", "-wal", ".history", ".history-wal")}


def ran(*words, before=()):
    told = subprocess.run([*before, PROGRAM, "put-back", *map(str, words)], stdout=subprocess.PIPE, stderr=subprocess.STDOUT, text=True, timeout=COMMAND, check=False)
    return told.returncode, told.stdout


def content(path):
    with open(path, "rb") as it:
        return it.read()


class Place:
    """The folder of a database, and a copy of one that a service has made."""

    def __init__(self, at, copy):
        self.at, self.copy = f"{at}/lib", copy
        self.database, self.aside = f"{self.at}/relkvanu.db", f"{self.at}/aside"
        self.words = ("--database", self.database)

    def fill(self, files):
        shutil.rmtree(self.at, ignore_errors=True)
        os.mkdir(self.at)
        for name, text in files.items():
            save(f"{self.at}/{name}", text)

    def of(self, at):
        """The files of a folder but for the lock."""
        there = os.scandir(at) if os.path.isdir(at) else []
        return {it.name: content(it.path) for it in there if it.is_file() and not it.name.endswith(".lock")}

    def is_put(self, damaged):
        aside = {name: text.encode() for name, text in damaged.items()}
        return self.of(self.at) == {"relkvanu.db": content(self.copy)} and self.of(self.aside) == aside

    def none_is_lost(self, damaged):
        """Each damaged file is whole at one place, and the database is one of the two, or is not there."""
        found = [self.of(it) for it in (self.at, self.aside, f"{self.aside}.back", f"{self.aside}.not-used")]
        places = [[it for it in found if it.get(name) == text.encode()] for name, text in damaged.items()]
        return all(len(it) == 1 for it in places) and found[0].get("relkvanu.db") in (None, b"damaged", content(self.copy))


def made_copy(at):
    """A database of a service with a call, and its copy."""
    with served() as server:
        Service(server.url).open("orders", SETTINGS, [1]).call(savepoint())
        subprocess.run([PROGRAM, "backup", "--database", server.database, "--to", f"{at}/copy.db"], check=True, timeout=COMMAND)
    return f"{at}/copy.db"


def ends(place, library, words, fill, check):
    """Runs the command again and again, and ends it before or after its next write, until it gets through. Returns how often it ended."""
    ended, nth = 0, 1
    while True:
        for after in (0, 1):
            fill()
            status, told = ran(*words, before=shim(library, place.at, die=nth, die_after=after, raw=1))
            if status != KILLED:
                assert status == 0, (nth, after, status, told)
                check()
                return ended
            assert place.none_is_lost(DAMAGED), (nth, after, place.of(place.at), place.of(place.aside))
            status, told = ran(*words)
            assert status == 0, (nth, after, told)
            check()
            ended += 1
        nth += 1


def test_ends_at_each_write():
    with folder() as at:
        library, place = built(at, SHIM), Place(at, made_copy(at))

        def is_put():
            assert place.is_put(DAMAGED), (place.of(place.at), place.of(place.aside))

        def is_back():
            unused = place.of(f"{place.aside}.not-used")
            assert place.of(place.at) == {name: text.encode() for name, text in DAMAGED.items()} and unused == {"relkvanu.db": content(place.copy)}, unused
            assert not os.path.exists(place.aside) and not os.path.exists(f"{place.aside}.back")

        def put():
            place.fill(DAMAGED)
            assert ran(place.copy, *place.words)[0] == 0

        def is_none():
            aside = {name: text.encode() for name, text in DAMAGED.items()}
            assert (place.of(place.at), place.of(place.aside)) == ({}, aside), (place.of(place.at), place.of(place.aside))

        puts = ends(place, library, (place.copy, *place.words), lambda: place.fill(DAMAGED), is_put)
        backs = ends(place, library, ("--back", *place.words), put, is_back)
        nones = ends(place, library, ("--none", *place.words), lambda: place.fill(DAMAGED), is_none)
        # given again it does nothing more, and the way back is the same
        assert ran("--none", *place.words)[0] == 0
        is_none()
        assert ran("--back", *place.words)[0] == 0 and place.of(place.at) == {name: text.encode() for name, text in DAMAGED.items()}
        assert puts > 20 and backs > 16 and nones > 8, (puts, backs, nones)
        return f"{puts} ends of a put, {nones} of one of nothing, and {backs} of the way back"


def test_what_is_there_stays():
    with folder() as at:
        place = Place(at, made_copy(at))
        for files in ({}, {"relkvanu.db": "damaged"}):
            place.fill(files)
            assert ran(place.copy, *place.words)[0] == 0 and place.is_put(files)
            status, told = ran(place.copy, *place.words)
            assert status == 0 and "is the copy already" in told and place.is_put(files), told
        # a service has run over it: its calls are not replaced
        save(f"{place.database}-wal", "later calls")
        status, told = ran(place.copy, *place.words)
        assert status == 1 and "aside has relkvanu.db already: name another folder" in told, told
        assert content(f"{place.database}-wal") == b"later calls" and not os.path.exists(f"{place.database}.restored")
        assert ran(place.copy, *place.words, "--aside", f"{place.at}/another")[0] == 0 and sorted(place.of(f"{place.at}/another")) == ["relkvanu.db", "relkvanu.db-wal"]
        # a new database that a service has made is not set aside beside the lost one
        place.fill({"relkvanu.db": "damaged"})
        assert ran("--none", *place.words)[0] == 0 and place.of(place.at) == {}
        save(place.database, "new")
        status, told = ran("--none", *place.words)
        assert status == 1 and "aside has relkvanu.db already: name another folder" in told and content(place.database) == b"new", told
        for words in ((), ("--none", "--back"), ("--none", place.copy), ("--back", place.copy)):
            assert ran(*words, *place.words)[0] == 2, words
        place.fill({})
        assert ran(place.copy, *place.words)[0] == 0
        # its disk was lost, with the folder, which systemd has behind a link
        os.rename(place.at, f"{at}/lost")
        os.mkdir(f"{at}/private")
        os.symlink("private/relkvanu", place.at)
        assert ran(place.copy, *place.words)[0] == 0 and content(f"{at}/private/relkvanu/relkvanu.db") == content(place.copy)
        # a copy over which no service can run
        save(f"{at}/bad.db", "no database")
        status, told = ran(f"{at}/bad.db", *place.words)
        assert status == 1 and "no service can run over this copy" in told and content(place.database) == content(place.copy), told
        assert ran(f"{at}/none.db", *place.words)[0] == 1 and "nothing is set aside" in ran("--back", *place.words, "--aside", f"{at}/none")[1]


def test_beside_a_service():
    with folder() as at:
        copy = made_copy(at)
        with served() as server:
            status, told = ran(copy, "--database", server.database)
            assert status == 1 and "another process serves this database" in told, told
            before = Service(server.url).open("others", SETTINGS, [1]).state()["seq"]
            server.kill()
            status, told = ran(copy, "--database", server.database)
            assert status == 0, told
            server.start()
            assert [it["name"] for it in Service(server.url).jobs()] == ["orders"], before


class Databases:
    """A PostgreSQL with databases that say what they are, and a dump of one that a service has made."""

    def __init__(self, at, server):
        self.at, self.server, self.url = at, server, f"postgres://postgres@127.0.0.1:{server.port}/relkvanu"
        self.words = ("--database", self.url)
        self.environment = {"PGHOST": "127.0.0.1", "PGPORT": str(server.port), "PGUSER": "postgres"}
        programs = {name: f"{server.bin}/{name}" for name in ("createdb", "dropdb", "pg_restore", "psql")}
        self.steps = Steps(at, PROGRAM, **programs)
        self.sql("create database relkvanu")
        service = Server(f"{at}/of", self.url).start()
        Service(service.url).open("orders", SETTINGS, [1]).call(savepoint())
        service.stop()
        self.sql("create table what as select 'dumped' text", "relkvanu")
        subprocess.run([f"{server.bin}/pg_dump", "--format=custom", f"--file={at}/copy.dump", self.url], check=True, timeout=COMMAND)

    def sql(self, text, database="postgres"):
        return self.server.run("psql", "-XAtq", self.server.url.rsplit("/", 1)[0] + f"/{database}", "-c", text).strip()

    def there(self):
        return set(self.sql("select datname from pg_database where datname like 'relkvanu%'").split())

    def of(self, name):
        return self.sql("select text from what", name) if name in self.there() else None

    def drop(self):
        self.server.quiet()
        for name in self.there():
            self.sql(f"drop database {name}")

    def fill(self):
        """A database that is damaged, of a service."""
        self.drop()
        self.sql("create database relkvanu")
        self.sql("create table what as select 'damaged' text; create table log_start as select 1::bigint number", "relkvanu")

    def put(self, *words):
        return self.steps.run("put-back", *words, *self.words, **self.environment)

    def ends(self, words, *checks):
        return self.steps.ends(("put-back", *words, *self.words), *checks, **self.environment)


def test_a_dump_gets_in_its_place():
    """Both databases have their names at each moment but for one transaction, and the one that was there is never lost."""
    with folder() as at, postgres() as server:
        os.mkdir(f"{at}/of")
        base = Databases(at, server)

        def is_put():
            assert base.there() == {"relkvanu", "relkvanu_aside"} and (base.of("relkvanu"), base.of("relkvanu_aside")) == ("dumped", "damaged"), base.there()

        def is_known():
            assert sorted([base.of("relkvanu"), base.of("relkvanu_aside") or "none"]) in (["damaged", "none"], ["damaged", "dumped"]), base.there()

        def put():
            base.fill()
            assert base.put("copy.dump")[0] == 0

        def is_back():
            assert (base.of("relkvanu"), base.of("relkvanu_not_used")) == ("damaged", "dumped"), base.there()

        puts = base.ends(("copy.dump",), base.fill, is_put, is_known)
        backs = base.ends(("--back",), put, is_back)
        # a service has run over it
        put()
        assert base.put("copy.dump")[0] == 0
        is_put()
        base.sql("update log_start set number = number + 1", "relkvanu")
        status, told = base.put("copy.dump")
        assert status == 1 and "there is a database relkvanu_aside already" in told, told
        assert base.put("copy.dump", "--aside", "relkvanu_more")[0] == 0 and base.of("relkvanu_more") == "dumped"
        check_databases_of_others(base)
        nones = check_an_empty_one(base)
        # the disk was lost, and the copy was checked before
        base.drop()
        assert base.put("copy.dump", "--checked")[0] == 0 and (base.there(), base.of("relkvanu")) == ({"relkvanu"}, "dumped")
        for url in ("postgres://db/relkvanu", "postgres://a@db", "postgres://a@db/x'y"):
            status, told = base.steps.run("put-back", "copy.dump", "--database", url)
            assert status == 1 and "the URL has to name a user and a database" in told, told
        assert puts > 10 and backs > 4 and nones > 8, (puts, backs, nones)
        return f"{puts} ends, {nones} of one of nothing, and {backs} of the way back"


def check_databases_of_others(base):
    """A database of somebody, and a dump over which no service can run."""
    base.fill()
    base.sql("create database relkvanu_restored")
    base.sql("create table x(y int)", "relkvanu_restored")
    status, told = base.put("copy.dump")
    assert status == 1 and "which is not of this command" in told and base.of("relkvanu") == "damaged", told
    base.sql("drop database relkvanu_restored")
    subprocess.run([f"{base.server.bin}/pg_dump", "--format=custom", f"--file={base.at}/bad.dump", base.url], check=True, timeout=COMMAND)
    status, told = base.put("bad.dump")
    assert status == 1 and "no service can run over this copy" in told and base.of("relkvanu") == "damaged" and "relkvanu_aside" not in base.there(), told
    status, told = base.put("none.dump")
    assert status == 1 and "none.dump: No such file" in told and base.of("relkvanu") == "damaged", told


def check_an_empty_one(base):
    """In the place of a database that is lost. Once a service has run over it, it is not replaced."""
    def is_empty():
        assert base.there() == {"relkvanu", "relkvanu_aside"} and base.of("relkvanu_aside") == "damaged", base.there()
        assert base.sql("select count(*) from pg_class where relnamespace = 'public'::regnamespace", "relkvanu") == "0"

    def is_known():
        assert base.of("relkvanu_aside" if "relkvanu_aside" in base.there() else "relkvanu") == "damaged", base.there()

    ended = base.ends(("--none",), base.fill, is_empty, is_known)
    base.sql("create table what as select 'later' text", "relkvanu")
    status, told = base.put("--none")
    assert status == 1 and "there is a database relkvanu_aside already" in told and base.of("relkvanu") == "later", told
    assert base.put("--back")[0] == 0 and (base.of("relkvanu"), base.of("relkvanu_not_used")) == ("damaged", "later")
    return ended
