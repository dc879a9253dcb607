"""Images of jobs with many files: they are made beside the writer and written in parts, so no call of another job waits for one. And images and
summaries that a database has no room for: calls go on, and they are made later. A metric tells it of images."""
import errno
import os

from harness import BUSY, SETTINGS, Server, Service, beside, caught_up, check_log, folder, lose_history, served, served_job, sqlite, until
from postgres import postgres
from preloaded import SHIM, built, shim
from relkvanu_service import ack, dispose, savepoint

LARGE = 10**15  # its first file
TICK = {"call": "tick"}
PART = 256 << 10
NOT_WHOLE = "select count(*) from image_part it where not exists (select 1 from image where image.job = it.job and image.seq = it.seq)"


def opened(service, name="large"):
    """A job with 300,000 files, whose image has some 5 MB."""
    job = service.open(name, SETTINGS, [76], 0)
    job.advance(1, LARGE)
    names = job.reserve(300_001)
    job.call(savepoint())
    for subtask in range(75):
        job.call(ack(1, f"0.{subtask}", names[subtask * 4000:][:4000]))
    return job


def ticked_to(job, seq):
    while job.call(TICK)["seq"] < seq:
        pass


def test_other_jobs_are_called_while_an_image_is_made():
    with folder() as at:
        held = f"{at}/held"
        server = Server(at, prefix=["env", f"LD_PRELOAD={built(at, 'held')}", f"HELD={held}"], args=["--image-calls", "90"]).start()
        large, others = opened(server.service), [server.service.open(f"j{number}", SETTINGS, [1], 0) for number in range(50)]
        with open(held, "w", encoding="utf-8"):
            ticked_to(large, 90)
        until(lambda: os.path.exists(f"{held}.waits"))
        # from here on the image is being made, until the file goes
        told = []
        waiting = beside(lambda: told.append(large.within(BUSY * 60).call(TICK)["seq"]))
        for round_ in range(1, 4):
            assert [job.call(TICK)["seq"] for job in others] == [round_ + 1] * len(others)
        states = {state["name"]: state for state in server.service.jobs()}
        assert states["large"] == {**large.state(), "now": states["large"]["now"]} and states["large"]["seq"] == 90, states["large"]
        assert states["large"]["image"] is None and len(states) == 51 and states["j7"]["seq"] == 4
        assert server.get("/metrics")[0] == 200 and waiting.is_alive() and not told
        os.remove(held)
        waiting.join(BUSY * 60)
        assert told == [91], told
        image = until(lambda: large.state()["image"])
        assert image["seq"] == 90 and image["bytes"] > 4_000_000, image
        parts = [length for (length,) in sqlite(server.database, "select length(text) from image_part order by part")]
        assert len(parts) == -(-image["bytes"] // PART) and sum(parts) == image["bytes"] and max(parts) == PART, parts
        before = large.state()
        server.kill()
        sqlite(server.database, "insert into image_part select job, seq - 1, part, text from image_part where part < 2")
        server.start()
        # those of an image that is not whole went at the start
        assert sqlite(server.database, NOT_WHOLE) == [(0,)] and sqlite(server.database, "select count(*) from image_part") == [(len(parts),)]
        assert server.replayed()[-1] == 1 + 4 * 50 and large.state()["files"] == before["files"], server.replayed()
        large.call(ack(1, "0.75", [LARGE + 300_000]))
        state, log = large.state(), list(large.log())
        check_log(state, [76], log)
        return f"{3 * len(others)} calls of other jobs while an image of {image['bytes'] / 1e6:.1f} MB was made; {len(parts)} parts"


def test_each_part_has_a_commit_of_its_own():
    with postgres() as database, served(database=database.url, args=["--image-calls", "90"]) as server:
        job = opened(Service(server.url))
        database.sql("""create table written(tx bigint, what text);
            create function noted() returns trigger language plpgsql as 'begin insert into written values(txid_current(), tg_table_name); return new; end';
            create trigger noted before insert on image_part for each row execute function noted();
            create trigger noted before insert on image for each row execute function noted()""")
        ticked_to(job, 90)
        image = until(lambda: job.state()["image"])
        parts, commits = map(int, database.sql("select count(*), count(distinct tx) from written where what = 'image_part'").split("|"))
        assert parts == commits == -(-image["bytes"] // PART), (parts, commits, image)
        assert database.sql("select (select tx from written where what = 'image') = (select max(tx) from written)") == "t"
        # the next image takes the place of this one, with its parts
        server.stop()
        server.args = ["--image-calls", "90", "--keep-calls", "0"]
        server.start()
        assert server.replayed()[-1] == 0, server.replayed()
        return f"{parts} commits"


FAILING = 'relkvanu_image_failing{{job_name="{}"}}'


def test_an_image_that_is_not_written_whole():
    """The database has no room for it. Its parts go: those of one that was put off, and those that a process left which was killed."""
    with postgres() as database, served(database=database.url, args=["--image-calls", "90"]) as server:
        job = opened(Service(server.url))
        database.sql("""create function refused() returns trigger language plpgsql as
            $$ begin raise exception 'no room' using errcode = '53100'; end $$;
            create trigger refused before insert on image_part for each row when (new.part = 3) execute function refused();
            create table gone(part bigint);
            create function noted() returns trigger language plpgsql as 'begin insert into gone values(old.part); return old; end';
            create trigger noted after delete on image_part for each row execute function noted()""")
        ticked_to(job, 90)

        def tries():
            return server.log().count("an image of job large is put off")

        until(lambda: tries() > 0, each=0.01)
        assert job.call(TICK)["seq"] == 91 and job.state()["image"] is None
        until(lambda: server.metric(FAILING.format("large")) == 1)
        # they are deleted before the next try, which comes after 2 s, and then after twice as long each time
        until(lambda: tries() > 1, each=0.01)
        server.kill()
        database.quiet()
        gone, left = database.sql("select string_agg(part::text, ' ' order by part) from gone"), database.sql(NOT_WHOLE)
        wanted = " ".join(str(part) for part in range(3) for _ in range(tries() - 1))
        assert left == "3" and gone == wanted, (left, gone, tries())
        database.sql("drop trigger refused on image_part; create trigger refused before insert on image_part for each row execute function refused()")
        server.start()
        assert database.sql(NOT_WHOLE) == "0" and server.replayed()[-1] == 91, server.replayed()
        # one that is too long for the database is no reason to end either
        database.sql("""create or replace function refused() returns trigger language plpgsql as
            $$ begin raise exception 'too long' using errcode = '54000'; end $$""")
        until(lambda: job.call(TICK) and "too long" in server.log(), each=0.2)
        database.sql("drop trigger refused on image_part")
        image = until(lambda: job.call(TICK) and job.state()["image"], 30)
        until(lambda: server.metric(FAILING.format("large")) == 0)
        assert database.sql(NOT_WHOLE) == "0" and int(database.sql("select sum(length(text)) from image_part")) == image["bytes"]
        before = job.state()
        server.again()
        after = job.state()
        assert after["files"] == before["files"] and server.replayed()[-1] == before["seq"] - image["seq"], (server.replayed(), before)
        return f"put off, then left by a kill, then whole: {image['bytes'] / 1e6:.1f} MB"


def tick(server):
    return server.request("POST", "/v1/jobs/orders/calls", {"calls": [TICK]})[0] == 200


def refuse(database, tables, text, code):
    """PostgreSQL answers each insert into these tables with an error of this SQLSTATE."""
    database.sql(f"""create or replace function refused() returns trigger language plpgsql as
        $$ begin raise exception '{text}' using errcode = '{code}'; end $$""")
    for table in tables:
        database.sql(f"create or replace trigger refused before insert on {table} for each row execute function refused()")


def allow(database, tables):
    for table in tables:
        database.sql(f"drop trigger refused on {table}")


def test_a_summary_that_postgresql_has_no_room_for():
    """The log is not cut without one. Once there is room, it is, and a history that begins anew has what was cut."""
    with postgres() as database, served_job("orders", SETTINGS, [1], database=database.url, args=["--image-calls", "20", "--keep-calls", "0"]) as (server, job):
        refuse(database, ["past", "summary"], "no room", "53100")
        for text, code in [("no room", "53100"), ("no memory", "53200"), ("too long", "54000")]:
            refuse(database, ["summary"], text, code)
            job.call(savepoint())
            ended = max(record["id"] for record in job.state()["live"])
            job.call(ack(ended, "0.0", [ended]))
            job.call(dispose(ended))
            said = f"a summary of the history was not written: ERROR:  {text}"
            until(lambda said=said: tick(server) and said in server.log() and job.state()["image"], 20, 0.02)
            assert job.state()["first"] == 1, job.state()
            assert database.sql("select count(*) from summary") == "0" and server.process.poll() is None
            if text == "no room":
                # a summary comes after the records that ended
                assert database.sql("select count(*) from past") == "0"
                allow(database, ["past"])
        allow(database, ["summary"])
        caught_up(job)
        before = [job.record(record)["history"] for record in (1, 2, 3)]
        until(lambda: tick(server) and job.state()["first"] > 1, 30, 0.02)
        lose_history(server)
        caught_up(job)
        assert [job.record(record)["history"] for record in (1, 2, 3)] == before


def test_an_image_that_sqlite_has_no_room_for():
    """The write-ahead log has room for calls, and not for a part of the image: on a full disk, and by a quota."""
    with served(args=["--image-calls", "0"]) as server:
        job = opened(Service(server.url), "orders")
        server.stop()
        server.args = ["--image-calls", "20"]
        library = built(server.folder, SHIM)
        for number in (errno.ENOSPC, errno.EDQUOT):
            server.prefix = shim(library, server.database, fault="grow", on="-wal$", grows=150000, error=number)
            server.start()
            put_off = server.log().count("an image of job orders is put off")
            until(lambda: tick(server) and server.log().count("an image of job orders is put off") > put_off)
            answered = sum(tick(server) for _ in range(20))
            assert answered == 20, (number, answered, server.log()[-400:])
            until(lambda: server.metric(FAILING.format("orders")) == 1)
            assert server.process.poll() is None
            server.kill()
        server.prefix = []
        server.start()
        until(lambda: tick(server) and job.state()["image"], 30, 0.2)
        until(lambda: server.metric(FAILING.format("orders")) == 0)
        log, state = list(job.log()), job.state()
        check_log(state, [76], log)
        return f"{len(log)} calls; an image of {state['image']['bytes'] / 1e6:.1f} MB was made later"
