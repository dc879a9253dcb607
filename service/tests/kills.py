"""SIGKILL at random moments, with writers at work, images made and the log cut: kills.py [KILLS] does it over SQLite."""
import random
import sys
import time
from contextlib import contextmanager

from harness import Archive, PgArchive, served, until
from relkvanu_service import Service
from writers import SETTINGS, Writer, check, end, made_by

JOBS = ["orders", "users"]
SETTINGS = {**SETTINGS, "interval": 15}
SHAPE = [4, 8]
# so kills come near images and cuts
KEEPING = "image_calls = 40\nkeep_calls = 100\n"
EACH = 20  # calls at least between two kills


@contextmanager
def writers_at(urls, told, archive=None, pause=Writer.PAUSE):
    """Writers at work, until the end, and until each job was restored. Then `told` has what `check` says of them."""
    service = Service(*urls)
    for job in JOBS:
        service.open(job, SETTINGS, SHAPE)
    writers = [Writer(urls, JOBS[number % len(JOBS)], number) for number in range(8)]
    for writer in writers:
        writer.PAUSE = pause
        writer.start()
    yield writers
    time.sleep(0.3)
    until(lambda: all(service.job(job).term()["term"] > 1 for job in JOBS), 60)
    end(writers)
    found = [check(writers, service, job, SHAPE, archive) for job in JOBS]
    acknowledged, logged = sum(one[0] for one in found), sum(one[1] for one in found)
    oracle = sum(one[2] or 0 for one in found)
    fenced = sum(writer.fenced for writer in writers)
    told.append(f"{acknowledged} acknowledged calls, {logged} in the log, {oracle} answered alike by the proved program, {fenced} of ended terms refused")
    told.append(acknowledged)


def check_images(server, archive):
    """Images were made and the log was cut behind one of them, and a start makes the calls after the last ones again. Returns a sentence on
    it."""
    calls = {job: len(archive.log(job)) for job in JOBS}
    images, cuts = {job: archive.images(job) for job in JOBS}, {job: archive.cut(job) for job in JOBS}
    assert all(images.values()) and all(cuts[job] <= images[job][0] for job in JOBS if cuts[job]), (cuts, images)
    again, cut = sum(calls[job] - images[job][-1] for job in JOBS), sum(cuts.values())
    server.start()
    assert server.replayed()[-1] == again and cut > 0, (server.replayed(), again, cut)
    return f"the last start made {again} of {sum(calls.values())} calls again, and {cut} were cut"


def run(kills, database=None, config=KEEPING, seed=1):
    chance = random.Random(seed)
    told = []
    with served(config, database=database and database.url) as server:
        archive = PgArchive(database) if database else Archive(server.database)
        with writers_at([server.url], told, archive) as writers:
            for _ in range(kills):
                # on a busy machine they make few calls meanwhile
                before = made_by(writers)
                until(lambda: made_by(writers) > before + EACH, 60)
                time.sleep(chance.uniform(0.05, 0.4))
                server.again()
            until(lambda: any(archive.cut(job) for job in JOBS) and all(archive.images(job) for job in JOBS), 60)
        server.kill()
        if database:
            database.quiet()
        images = check_images(server, archive)
        server.stop()
    assert told[1] > EACH * kills, f"the writers did next to nothing: {told[0]}"
    return f"{kills} kills, {told[0]}; {images}"


if __name__ == "__main__":
    print(run(int((sys.argv[1:] or ["25"])[0])))
