"""What `relkvanu clean` and `savepoints` do in a folder, and the same in a bucket: what is deleted and reported, and where nothing is."""
import glob
import json
import os
import re
import subprocess
import tempfile
import time

from harness import COMMAND, PROGRAM, SERVICE, content, counts, free_port, save, until
from places import Bucket, a_job, around, files, metrics_of, over_both, ran, words_of
from relkvanu_service import dispose, savepoint


def sums(lines):
    return dict(word.split("=") for word in lines[-1].split(" "))


def some_of(place, rows, count):
    """The rows of a rule that is the same for both: all in a folder, and so many in a bucket, where each takes a second."""
    return rows if place.kind == "folder" else rows[:count]


def released(job, task, place, count):
    """So many files that wait for deletion, and one in use."""
    names = [task.name() for _ in range(count + 1)]
    for name in names:
        place.put(f"s-{name}", b"state")
    first = job.call(savepoint())["id"]
    task.ack(first, "0.0", names[:count])
    task.ack(job.call(savepoint())["id"], "0.0", names[count:])
    job.call(dispose(first))
    return names


@over_both
def test_garbage_is_found_and_deleted(server, job, place):
    task = job.begin().session(block=10)
    for name in [task.name() for _ in range(6)]:
        place.put(f"s-{name}", b"x" * 10 * name)
    task.ack(job.call(savepoint())["id"], "0.0", [1, 2])
    task.forfeit([3])
    task.ack(job.call(savepoint())["id"], "0.0", [4])
    job.call(dispose(2))
    # in use: 1 and 2. Given up: 3. Waits: 4. May be acknowledged yet: 5 and 6. Never given out: 11
    for name in ("s-11", "s-x", "s-07", "other", "s-3.part"):
        place.put(name, b"12345")
    before, shown = files(place), place.shown
    # in a bucket no file is written in parts, so that is no file of the job
    parts = [f"{{}} {shown('s-3.part')} 5"] if place.has_parts else []
    wanted = [f"{{}} {shown('s-3')} 30", *parts]
    status, lines, _ = ran("look", server, place)
    assert (status, sorted(lines[:-1])) == (3, sorted([*(it.format("garbage") for it in wanted), f"unissued {shown('s-11')} 5"])), lines
    told = sums(lines)
    assert (told["listed"], told["garbage"], told["bytes"], told["deleted"]) == (str(7 + len(parts)), str(1 + len(parts)), str(30 + 5 * len(parts)), "0"), told
    assert files(place) == before
    status, lines, _ = ran("garbage", server, place)
    assert (status, sorted(lines[:-1])) == (3, sorted([*(it.format("deleted") for it in wanted), f"unissued {shown('s-11')} 5"])), lines
    gone = {"s-3", *(["s-3.part"] if place.has_parts else [])}
    assert files(place) == sorted(set(before) - gone)
    # the term has ended: what it may have written is garbage
    job.begin()
    place.remove("s-11")
    with place.keeping("s-6"):
        status, lines, _ = ran("garbage", server, place)
        # a folder is no file, so nothing is found in place of one
        failed = [line for line in lines if line.startswith(f"failed {shown('s-6')} 60 ")]
        assert (status, len(failed)) == ((0, 0) if place.kind == "folder" else (1, 1)) and f"deleted {shown('s-5')} 50" in lines, lines
    assert ran("garbage", server, place)[0] == 0
    assert {"s-1", "s-2", "s-4", "s-x", "s-07", "other"} <= set(files(place)) and not {"s-5", "s-6"} & set(files(place)), files(place)


@over_both
def test_many_files(server, job, place):
    """It deletes what waits and what a process left taken, and what can't be deleted waits again."""
    task = job.begin().session(block=1300)
    names = released(job, task, place, 1200)
    assert len(job.take(20)) == 20  # and the process ends
    place.remove(f"s-{names[30]}")
    with place.keeping(f"s-{names[40]}"):
        status, _, told = ran("released", server, place)
        assert status == 1 and f"s-{names[40]}: " in told and "failed=1" in told, (status, told[-500:])
        # those of its take, and those behind it, are gone or wait
        assert sum(counts(job)) >= 1 and f"s-{names[1200]}" in files(place)
    status, _, told = ran("released", server, place)
    assert (status, files(place), counts(job)) == (0, [f"s-{names[1200]}"], (0, 0)), (status, told[-500:])
    assert json.loads(place.all()[".relkvanu-a.names"]) == {"prefix": "s-", "suffix": ""}
    # garbage of a thousand files is more than a request of a bucket has
    job.begin()
    for name in names:
        place.put(f"s-{name}", b"")
    status, lines, _ = ran("garbage", server, place)
    assert (status, sums(lines)["deleted"], files(place)) == (0, "1200", [f"s-{names[1200]}"]), lines


@over_both
def test_a_place_without_the_marker(server, job, place):
    names = released(job, job.begin().session(), place, 2)
    name, text = job.marker()
    commands = (("released",), ("garbage",))
    for marker in (None, text.replace("opened at ", "opened at 9"), text.replace("the job a,", "the job b,")):
        place.remove(name)
        if marker is not None:
            place.put(name, marker.encode())
        for words in commands if marker is not None else commands[1:]:
            status, lines, told = ran(words[0], server, place, *words[1:])
            assert (status, lines) == (78, []) and name in told, (words, marker, status, told)
        place.put(name, text.encode())
    assert files(place) == [f"s-{it}" for it in names] and counts(job) == (2, 0)
    # none of the job's files was taken before: the cleaner makes the marker
    place.remove(name)
    assert ran("released", server, place)[0] == 0 and place.all()[name] == text.encode() and files(place) == [f"s-{names[2]}"]
    more = released(job, job.session(job.term()["term"]), place, 2)
    place.remove(name)
    status, _, told = ran("released", server, place)
    assert status == 78 and f"no file {name}" in told and "--init" in told and counts(job)[0] >= 2, (status, told)
    assert ran("released", server, place, "--init")[0] == 0 and place.all()[name] == text.encode()
    assert f"s-{more[2]}" in files(place) and f"s-{more[0]}" not in files(place)


@over_both
def test_a_marker_that_goes_while_it_works(server, job, place):
    """The file waits. A cleaner of one job ends, and one of all jobs goes on once the marker is there again."""
    name, text = job.marker()
    job.set_storage(place.storage("s-"))
    words = [words_of("released", server, place), [PROGRAM, "clean", "--url", server.url]]
    runs = [subprocess.Popen(words[0], env=around(place), stderr=subprocess.PIPE, text=True)]
    try:
        task = job.begin().session()
        released(job, task, place, 1)
        until(lambda: counts(job) == (0, 0))
        place.remove(name)
        names = released(job, task, place, 1)
        told = runs[0].communicate(timeout=COMMAND)[1]
        assert runs[0].returncode == 78 and f"no file {name}" in told and counts(job)[0] >= 1, (runs[0].returncode, told)
        runs.append(subprocess.Popen(words[1], env=around(place), stderr=subprocess.PIPE, text=True))
        assert next(line for line in runs[1].stderr if f"no file {name}" in line)
        assert f"s-{names[0]}" in files(place) and runs[1].poll() is None and counts(job) == (1, 0)
        place.put(name, text.encode())  # as a disk that is mounted again
        until(lambda: counts(job) == (0, 0))
    finally:
        for run in runs:
            run.kill()
            run.wait()


@over_both
def test_wrong_names(server, job, place):
    """A first run with wrong names reports nothing, and leaves none. Once they are known, others are refused at the start."""
    names = released(job, job.begin().session(), place, 3)
    status, _, told = ran("released", server, place, prefix="t-")
    assert status == 78 and "none of 3 files" in told and f"t-{names[0]}" in told and "--allow-absent" in told, (status, told)
    assert counts(job) == (3, 0) and ".relkvanu-a.names" not in place.all()
    assert ran("released", server, place)[0] == 0 and counts(job) == (0, 0) and files(place) == [f"s-{names[3]}"]
    more = released(job, job.session(job.term()["term"]), place, 2)
    before = place.all()
    status, _, told = ran("released", server, place, suffix=".dat")
    assert status == 78 and "is --prefix or --suffix wrong?" in told and place.all() == before, (status, told)
    # files that others have deleted, and those that a process had begun to delete
    for name in more[:2]:
        place.remove(f"s-{name}")
    status, _, told = ran("released", server, place)
    assert status == 78 and "none of 2 files" in told and counts(job) == (2, 0), (status, told)
    begun = " ".join(map(str, more[:2]))
    place.put(".relkvanu-a.begun", begun.encode())  # cut short
    assert ran("released", server, place)[0] == 78
    place.put(".relkvanu-a.begun", f"{begun}\n".encode())
    assert ran("released", server, place)[0] == 0 and counts(job) == (0, 0)
    last = released(job, job.session(job.term()["term"]), place, 1)
    place.remove(f"s-{last[0]}")
    assert ran("released", server, place, "--allow-absent")[0] == 0 and counts(job) == (0, 0)
    assert files(place) == sorted(f"s-{name}" for name in (names[3], more[2], last[1]))


@over_both
def test_the_names_of_another_job(server, job, place):
    """The files of another job are never touched, whatever its cleaner says of their names."""
    names = released(job, job.begin().session(), place, 1)
    job.begin()
    place.put("s-9.part", b"of the other job")
    place.put(".relkvanu-others", b"")
    commands = [("released", "--init"), ("garbage",)]
    rows = [("s-", "", True), ("t-", "", False), ("s-", ".part", True), ("s-1", "", True), ("s-", ".bin", False), ("", "", False)]
    for prefix, suffix, is_refused in some_of(place, rows, 2):
        place.put(".relkvanu-others.names", json.dumps({"prefix": prefix, "suffix": suffix}).encode())
        for command, *more in commands if is_refused else [("look",)]:
            status, lines, told = ran(command, server, place, *more)
            need = ".relkvanu-others says: so --prefix or --suffix is needed that differs from its own"
            assert (status == 78, need in told) == (is_refused, is_refused), (prefix, suffix, command, status, told)
            assert not is_refused or lines == [], lines
    # what says nothing of the names
    place.remove(".relkvanu-others.names")
    for text in some_of(place, [None, "{", "[]", '{"prefix": 1, "suffix": ""}', '{"prefix": ""}', "\0"], 2):
        if text is not None:
            place.put(".relkvanu-others.names", text.encode())
        status, lines, told = ran("garbage", server, place, prefix="")
        assert (status, lines) == (78, []) and ".relkvanu-others" in told, (text, status, told)
        assert ran("look", server, place)[0] in (0, 3), text
    assert set(files(place)) == {*(f"s-{name}" for name in names), "s-9.part"} and counts(job) == (1, 0)
    # before the place is marked as this job's somebody has to look, though the prefix differs
    place.remove(job.marker()[0])
    status, _, told = ran("released", server, place, prefix="u-")
    assert status == 78 and "that differs from its own. If it does" in told and job.marker()[0] not in place.all(), (status, told)


@over_both
def test_what_is_beside_a_marker(server, job, place):
    """Files that cleaners and clients leave there are no marker of another job. A job may be named as one of them, and its marker says so."""
    marker = job.marker()[1]
    for name in (".relkvanu-a.begun", ".relkvanu-a.names", ".relkvanu-a.claim"):
        place.put(name, b"" if "claim" not in name else marker.encode())
    place.remove(".relkvanu-a.claim")
    assert ran("look", server, place, prefix="")[0] == 0
    for other in some_of(place, ["a.names", "a.begun"], 1):
        place.put(f".relkvanu-{other}", marker.replace("the job a,", f"the job {other},").encode())
        for prefix in ("", "s-"):
            status, lines, told = ran("garbage", server, place, prefix=prefix)
            assert (status, lines) == (78, []) and f".relkvanu-{other} says: one of the two jobs" in told, (other, told)
            status, _, told = ran("released", server, place, "--init", prefix=prefix)
            assert status == 78 and f".relkvanu-{other} says: one of the two jobs" in told, (other, told)
        place.put(f".relkvanu-{other}", b"")
    # a job whose name begins with this one's is another job, but the storage of this job's engine is its own
    rows = [("storage", "relkvanu: state files of the job a\n", 0), ("a.2", "", 78), ("storage", "relkvanu: state files of the job b\n", 78),
            ("storage", marker.replace("the job a,", "the job storage,"), 78)]
    for other, text, status in some_of(place, rows, 2):
        place.put(f".relkvanu-{other}", text.encode())
        found, _, told = ran("look", server, place, prefix="")
        assert (found, f".relkvanu-{other} says" in told) == (status, status == 78), (other, text, found, told)
        place.remove(f".relkvanu-{other}")


@over_both
def test_records_that_have_all_their_files(server, job, place):
    task = job.begin().session()
    names = [task.name() for _ in range(3)]
    for name in names:
        place.put(f"s-{name}", b"state")
    for some in (names[:2], names[2:]):
        task.ack(job.call(savepoint())["id"], "0.0", some)
    for name in (f"s-{names[0]}.part", f"s-0{names[0]}"):
        place.put(name, b"state")
    status, lines, told = ran("savepoints", server, place)
    assert (status, [line.split()[:2] + line.split()[-2:] for line in lines[1:]]) == (0, [["1", "savepoint", "2", "none"], ["2", "savepoint,", "1", "none"]]) or (
        status == 0 and all(line.endswith("none") for line in lines[1:]) and len(lines) == 3), (status, lines)
    place.remove(f"s-{names[0]}")
    status, lines, _ = ran("savepoints", server, place)
    assert (status, [line.split()[-2:] for line in lines[1:]]) == (0, [["1:", str(names[0])], ["1", "none"]]), lines
    place.remove(f"s-{names[2]}")
    status, lines, told = ran("savepoints", server, place)
    assert status == 1 and f"no such record has all its files in the {place.kind}" in told and "no file of these records" not in told, (status, told)
    status, lines, told = ran("savepoints", server, place, suffix=".bin")
    assert status == 1 and "no file of these records is in" in told and f"s-{names[0]}.bin:" in told, (status, told)
    assert ran("savepoints", server, place, job="none")[0] == 1
    place.remove(job.marker()[0])
    status, _, told = ran("savepoints", server, place)
    assert (status == 78, "no marker of this job" in told) == ((False, True) if place.kind == "folder" else (True, False)), (status, told)


def metrics(port):
    return {key.replace('job_name="a"', "").replace("{,", "{").replace("{}", ""): value for key, value in metrics_of(port).items()}


@over_both
def test_metrics(server, job, place):
    """Of a cleaner, which goes on while the service is away, and deletes nothing while the place has no marker."""
    port = free_port()
    task = job.begin().session(block=5)
    job.set_storage(place.storage("s-"))
    words = [PROGRAM, "clean", "--url", server.url, "--every", "1s", "--within", "1", "--metrics", f"127.0.0.1:{port}"]
    run = subprocess.Popen(words, env=around(place), stdout=subprocess.DEVNULL, stderr=subprocess.DEVNULL)

    def comes(wanted, name, labels=""):
        until(lambda: metrics(port).get(name + labels) == wanted, told=lambda: metrics(port))

    try:
        names, released_files = released(job, task, place, 2), '{kind="released",outcome="deleted"}'
        comes(2, "relkvanu_clean_files_total", released_files)
        comes(1, "relkvanu_clean_works")
        place.put(f"s-{names[0]}", b"1234567")
        # a file of 5 bytes counts too that is deleted between a look at the garbage and the service's answer
        until(lambda: metrics(port).get("relkvanu_clean_garbage_bytes_total") in (7, 12, 17), told=lambda: metrics(port))
        place.put("s-99", b"")
        comes(1, "relkvanu_clean_unissued_files")
        looked = metrics(port)["relkvanu_clean_sweep_timestamp_seconds"]
        assert metrics(port)["relkvanu_clean_interval_seconds"] == 1
        server.kill()
        until(lambda: metrics(port).get("relkvanu_clean_lost_requests_total") and metrics(port)["relkvanu_clean_works"] == 0)
        server.start()
        released(job, task, place, 1)
        until(lambda: metrics(port).get(f"relkvanu_clean_files_total{released_files}", 0) >= 3 and metrics(port)["relkvanu_clean_sweep_timestamp_seconds"] > looked)
        comes(1, "relkvanu_clean_works")
        stays_without_a_marker(job, place, names[0], comes)
        named = set(re.findall(r"relkvanu_clean_[a-z_]+", content(f"{SERVICE}/deploy/alerts.yml")))
        served = {name.partition("{")[0] for name in metrics(port)}
        assert named and named <= served | {"relkvanu_clean_stopped"}, named - served
    finally:
        run.kill()
        run.wait()


def stays_without_a_marker(job, place, garbage, comes):
    """A file that nobody needs, as long as the cleaner finds no marker."""
    name, text = job.marker()
    place.remove(name)
    comes(1, "relkvanu_clean_stopped", '{reason="no_marker"}')
    comes(0, "relkvanu_clean_works")
    place.put(f"s-{garbage}", b"1")
    time.sleep(3)
    assert f"s-{garbage}" in files(place)
    place.put(name, text.encode())
    comes(1, "relkvanu_clean_works")
    comes(None, "relkvanu_clean_stopped", '{reason="no_marker"}')
    until(lambda: f"s-{garbage}" not in files(place))


@over_both
def test_what_is_refused(server, job, place):
    """A job that is not there, a token that is not known, and words that are wrong."""
    for command, more in (("garbage", []), ("released", [])):
        status, _, told = ran(command, server, place, *more, job="none")
        assert status == 1 and "404" in told, (status, told)
        status, _, told = ran(command, server, place, *more, "--token-file", f"{server.folder}/none")
        assert status == 1 and "--token-file" in told, told
        status, _, told = ran(command, server, place, *more, "--metrics", server.url.partition("//")[2])
        assert status == 1 and "--metrics" in told, told
        for words in (["--metrics", "7783"], ["--metrics", "localhost:7783"], ["--deleet"], ["--folder", "/tmp", "--bucket", "b"], ["--every", "0"]):
            assert ran(command, server, place, *more, *words)[0] == 2, words
        for given in ({"suffix": "/b"}, {"prefix": ".relkvanu-"}, *([{"prefix": "b/"}] if place.kind == "folder" else [])):
            assert ran(command, server, place, *more, **given)[0] == 1, given
    assert counts(job) == (0, 0)


def test_a_bucket_that_keeps_versions():
    with a_job(Bucket) as (server, job, place):
        names = released(job, job.begin().session(), place, 1)
        place.s3.put_bucket_versioning(Bucket=place.bucket, VersioningConfiguration={"Status": "Enabled"})
        for command, *more in (("released",), ("garbage",), ("savepoints",)):
            status, lines, told = ran(command, server, place, *more)
            assert (status, lines) == (78, []) and "keeps versions" in told, (command, status, told)
        assert counts(job) == (1, 0) and files(place) == [f"s-{name}" for name in names]
        assert ran("released", server, place, "--keeps-versions")[0] == 0 and counts(job) == (0, 0)


def test_a_server_that_is_away():
    """And a bucket that is not there, keys that are wrong, and a helper that is not installed: nothing is reported, and a cleaner goes on."""
    with a_job(Bucket) as (server, job, place):
        released(job, job.begin().session(), place, 2)
        away = [*place.words("s-", "")[:-3], "http://127.0.0.1:9", *place.words("s-", "")[-2:]]
        for command, more, wanted in (("released", ["--once"], 1), ("garbage", ["--once"], 1), ("savepoints", [], 75)):
            words = words_of(command, server, place, *more)
            elsewhere = [*words[:words.index("--bucket")], *away, *more]
            assert subprocess.run(elsewhere, env=around(place), capture_output=True, timeout=COMMAND, check=False).returncode == wanted, elsewhere
        words = words_of("released", server, place, "--once")

        def told_with(*words, **environment):
            told = subprocess.run(words, env={**around(place), **environment}, capture_output=True, text=True, timeout=COMMAND, check=False)
            return told.returncode, told.stderr

        with tempfile.TemporaryDirectory() as at:
            save(f"{at}/python3", "#!/bin/sh\nexit 1\n")
            os.chmod(f"{at}/python3", 0o755)
            for path in (f"{at}:/usr/bin", f"{at}/none"):
                status, told = told_with(*words, PATH=path)
                assert status == 1 and "a bucket needs python3-relkvanu and python3-boto3" in told, (path, told)
        status, told = told_with(*words, AWS_SECRET_ACCESS_KEY="wrong")
        assert status == 1 and "SignatureDoesNotMatch" in told, told
        status, told = told_with(*[*words[:words.index("--bucket") + 1], "nowhere", *words[words.index("--bucket") + 2:]])
        assert status == 78 and "NoSuchBucket" in told, told
        assert counts(job) == (2, 0)
        # one that runs waits for the server, which has it in the end
        words = words_of("released", server, place)
        run = subprocess.Popen([*words[:words.index("--bucket")], *away], env=around(place), stderr=subprocess.PIPE, text=True)
        try:
            for line in run.stderr:
                if "Could not connect" in line:
                    break
            assert run.poll() is None
        finally:
            run.kill()
            run.communicate()
        assert counts(job) == (2, 0) and ran("released", server, place)[0] == 0 and counts(job) == (0, 0)


def test_the_helper_ends_with_the_command():
    """Also if that is killed."""
    with a_job(Bucket) as (server, job, place):
        with subprocess.Popen(words_of("released", server, place), env=around(place), stderr=subprocess.DEVNULL) as run:
            def helper():
                found = []
                for path in glob.glob(f"/proc/{run.pid}/task/*/children"):
                    found += content(path).split()
                return found

            try:
                released(job, job.begin().session(), place, 1)
                until(lambda: counts(job) == (0, 0))
                [pid] = helper()
            finally:
                run.kill()
        until(lambda: has_ended(pid))


def has_ended(pid):
    """Whether there is no such process, or one that nobody has waited for."""
    try:
        return "Z" in content(f"/proc/{pid}/stat").rpartition(")")[2]
    except OSError:
        return True
