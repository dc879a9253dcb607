"""Manifests in a bucket of the server that the environment names (bindings/s3/start): a job over a bucket, that is made again once its file is lost; records that
are carried from a folder to a bucket and back; and each command killed at some of its requests, or with EACH=1 at each. SEED chooses which. bindings/s3/run runs
it."""
import contextlib
import json
import os
import pathlib
import random
import subprocess
import sys
import tempfile
import uuid
import zlib
from types import SimpleNamespace
from unittest import mock

import boto3

import s3
from relkvanu import AckCompleted, Settings
from relkvanu import manifests
from relkvanu import __main__ as command
from relkvanu.places import place
from relkvanu.s3 import Bucket, StateBucket
from relkvanu.storage import NotThere, OtherJob, StorageError
from relkvanu.store import Call, Store, StoreError

TASKS, CLAIM = 3, "--claim"
EACH, SEED = int(os.environ.get("EACH", "9")), os.environ.get("SEED", "1")  # of so many requests one is a kill's, on average
KILLED = 9
SETTINGS = Settings(interval=10, timeout=600_000)
COMMAND = [sys.executable, "-m", "relkvanu"]


def contents_of(file):
    return b"state %d" % file


def completes(job, files, term, savepoint=False, reused=()):
    """A record of one file for each task. Returns its number and the files."""
    triggered = job.call(Call.savepoint() if savepoint else Call.trigger()).reply
    names = job.reserve(term, TASKS)
    for task, name in enumerate(names):
        files.put(name, contents_of(name))
        reply = job.ack_in(term, triggered.id, 0, task, [name], list(reused) if task == 0 else []).reply
    assert isinstance(reply, AckCompleted), reply
    return triggered.id, list(names)


class OnAServer(s3.OnAServer):
    def setUp(self):
        super().setUp()
        self.work = pathlib.Path(self.enterContext(tempfile.TemporaryDirectory()))

    def url(self, prefix):
        return f"s3://{self.bucket}/{prefix}"

    def at(self, prefix):
        return place(self.url(prefix), self.s3)

    def keys(self, prefix):
        found = self.s3.list_objects_v2(Bucket=self.bucket, Prefix=prefix).get("Contents", [])
        return sorted(it["Key"][len(prefix):] for it in found)

    def numbers(self, prefix):
        return sorted(int(it) for it in self.keys(prefix) if it.isdecimal())

    @contextlib.contextmanager
    def opened(self, name="job.db", prefix="orders/", create=False, checksums=False):
        with Store(self.work / name, SETTINGS, [TASKS], create=create, manifests=checksums, checksums=checksums) as job:
            yield job, StateBucket(job, self.bucket, prefix, s3=self.s3)

    @contextlib.contextmanager
    def in_folder(self, name="folder.db", folder="state", create=False):
        (self.work / folder).mkdir(exist_ok=True)
        with Store(self.work / name, SETTINGS, [TASKS], storage=self.work / folder, manifests=True, create=create) as job:
            yield job, SimpleNamespace(put=job.put)

    def lose(self, name="job.db"):
        for it in self.work.glob(f"{name}*"):
            it.unlink()

    def check(self, job, files, record):
        """The job goes on from the record, whose files are whole."""
        made = job.restore()
        assert made.reply.id == record, (made, record)
        with job.read() as reads:
            used = [file for task in range(TASKS) for file in reads.files_of(record, 0, task)]
        for file in used:
            assert files.get(file) == contents_of(file), file
        later, _ = completes(job, files, made.term)
        assert later > record, later

    by_command = set()

    def runs(self, *words):
        """The command: once for each verb in a process of its own."""
        if words[0] in self.by_command:
            return self.ended(0, False, *words)
        self.by_command.add(words[0])
        env = {**os.environ, "AWS_ENDPOINT_URL": os.environ["S3_ENDPOINT"], "AWS_DEFAULT_REGION": os.environ["S3_REGION"]}
        ran = subprocess.run([*COMMAND, *map(str, words)], env=env, stdout=subprocess.PIPE, stderr=subprocess.STDOUT, text=True)
        return ran.returncode, ran.stdout

    def ended(self, at, after, *words):
        """Runs a command in a process of its own, which may end at a request. Returns its status, and what it said. A fork is a hundred times faster than an
        interpreter that imports boto3."""
        read, write = os.pipe()
        child = os.fork()
        if child == 0:
            os.dup2(write, 1)
            os.dup2(write, 2)
            runs_to(at, after, *words)
        os.close(write)
        with open(read, encoding="utf-8") as told:
            said = told.read()
        _, status = os.waitpid(child, 0)
        return os.waitstatus_to_exitcode(status), said

    def killed(self, at, after, *words):
        """Runs a command that ends at a request. Returns whether it came so far."""
        status, said = self.ended(at, after, *words)
        assert status in (0, KILLED), (words, status, said)
        return status == KILLED


class AJobOverABucket(OnAServer):
    def test_a_put_for_each_record(self):
        puts = []
        self.s3.meta.events.register("before-send.s3.PutObject", lambda request, **_: puts.append(request.url.rpartition("/")[2]))
        with self.opened(create=True) as (job, files):
            puts.clear()
            record, names = completes(job, files, job.report.term)
            self.assertEqual([it for it in puts if it.startswith("record-")], [f"record-{record}.manifest"])
            later, names = completes(job, files, job.report.term)
            self.assertEqual([it for it in self.keys("orders/") if it.startswith("record-")], [f"record-{later}.manifest"])
            text = self.s3.get_object(Bucket=self.bucket, Key=f"orders/record-{later}.manifest")["Body"].read()
            self.assertEqual({file for it in json.loads(text)["subtasks"] for file in it["files"]}, set(map(str, names)))

    def sums(self, record, prefix="orders/"):
        """The checksum that a manifest has of each file."""
        text = self.s3.get_object(Bucket=self.bucket, Key=f"{prefix}record-{record}.manifest")["Body"].read()
        body, _, told = text.rpartition(b',"sum":')
        self.assertEqual(told, b'"%08x"}\n' % zlib.crc32(body))
        return {int(file): it for part in json.loads(text)["subtasks"] for file, it in zip(part["files"], part.get("sums", ()))}

    def test_checksums_of_objects(self):
        """Each object is read once, also over openings; what changes later is found by a look."""
        gets = []
        self.s3.meta.events.register("before-send.s3.GetObject", lambda request, **_: gets.append(request.url.rpartition("/")[2]))
        with self.opened(create=True, checksums=True) as (job, files):
            kept, first = completes(job, files, job.report.term, savepoint=True)
            record, second = completes(job, files, job.report.term, reused=first[:1])
            self.assertEqual(self.sums(kept), {file: f"{zlib.crc32(contents_of(file)):08x}" for file in first})
            self.assertEqual(self.sums(record), {file: f"{zlib.crc32(contents_of(file)):08x}" for file in [*first[:1], *second]})
        with self.opened(checksums=True) as (job, files):
            later, third = completes(job, files, job.restore().term, reused=second[:1])
            self.assertEqual(self.sums(later), {file: f"{zlib.crc32(contents_of(file)):08x}" for file in [*second[:1], *third]})
        self.assertEqual(sorted(int(it) for it in gets if it.isdecimal()), sorted([*first, *second, *third]))
        status, told = self.runs("records", "--whole", self.url("orders"))
        self.assertEqual((status, told.count("each checksum is right")), (0, 2), told)
        self.s3.put_object(Bucket=self.bucket, Key=f"orders/{third[0]}", Body=b"damage" + contents_of(third[0])[6:])
        self.s3.delete_object(Bucket=self.bucket, Key=f"orders/{first[2]}")
        status, told = self.runs("records", "--whole", self.url("orders"))
        self.assertEqual(status, 1, told)
        self.assertIn(f"record {later}: file {third[0]} has another checksum", told)
        self.assertIn(f"record {kept}: file {first[2]} is missing", told)
        self.assertEqual(self.runs("records", self.url("orders"))[0], 0)  # it reads none

    def test_an_object_without_a_checksum(self):
        """One that can't be read has none; a store that does not ask for them writes none, and a look says so."""
        with self.opened(create=True, checksums=True) as (job, files):
            def fail(request, **_):
                if request.url.rpartition("/")[2].isdecimal():
                    raise OSError("no network")

            self.s3.meta.events.register("before-send.s3.GetObject", fail, unique_id="fail")
            record, names = completes(job, files, job.report.term)
            self.assertIsNone(job.manifest_fault)
            self.s3.meta.events.unregister("before-send.s3.GetObject", unique_id="fail")
            self.assertEqual(self.sums(record), {})
        status, told = self.runs("records", "--whole", self.url("orders"))
        self.assertEqual((status, f"checksums of {TASKS} files are not known" in told), (0, True), told)
        with self.opened(checksums=True) as (job, files):
            self.assertEqual(set(self.sums(record)), set(names))
        with self.opened() as (job, files):
            later, names = completes(job, files, job.restore().term)
            self.assertEqual(self.sums(later), {})
        self.assertIn(f"checksums of {TASKS} files are not known", self.runs("records", "--whole", self.url("orders"))[1])

    def test_a_put_that_fails(self):
        with self.opened(create=True) as (job, files):
            record, _ = completes(job, files, job.report.term)

            def fail(request, **_):
                if "manifest" in request.url:
                    raise OSError("no network")

            self.s3.meta.events.register("before-send.s3.PutObject", fail, unique_id="fail")
            later, _ = completes(job, files, job.report.term)
            self.assertIn("no network", str(job.manifest_fault))
            self.assertEqual(self.at("orders").names(), [f"record-{record}.manifest"])
            self.s3.meta.events.unregister("before-send.s3.PutObject", unique_id="fail")
            last, _ = completes(job, files, job.report.term)
            self.assertEqual(self.at("orders").names(), [f"record-{last}.manifest"])
            self.assertGreaterEqual(job.measures()["failed_manifests"], 1)

    def test_whose_place_it_is(self):
        with self.opened(create=True) as (job, files):
            completes(job, files, job.report.term)
        with self.assertRaises(OtherJob), self.opened("other.db", create=True):
            pass
        with self.assertRaises(NotThere), self.opened(prefix="another/"):
            pass
        self.s3.put_object(Bucket=self.bucket, Key="full/7", Body=b"")
        with self.assertRaises(StorageError), self.opened("third.db", "full/", create=True):
            pass
        with self.assertRaises(ValueError), self.opened(prefix="orders"):
            pass

    def test_a_lost_file(self):
        with self.opened(create=True) as (job, files):
            completes(job, files, job.report.term)
            record, _ = completes(job, files, job.report.term)
            os.link(self.work / "job.db", self.work / "old.db")
            old = files
        self.lose()
        status, told = self.runs("records", self.url("orders"))
        self.assertIn(f"{record} ", told)
        self.assertIn("whole; a recovery or an import begins from it", told)
        status, told = self.runs("recover", self.work / "job.db", self.url("orders"))
        self.assertEqual((status, f"checkpoint {record}," in told), (0, True), told)
        self.assertEqual(old.delete([1]).keys(), {1})  # of an earlier opening
        with self.opened() as (job, files):
            self.check(job, files, record)
        with self.assertRaisesRegex(OtherJob, "older copy"), self.opened("old.db"):
            pass
        status, told = self.runs("recover", self.work / "job.db", self.url("orders"))
        self.assertEqual((status, "there is a job" in told), (1, True), told)

    def test_a_file_of_it_is_missing(self):
        with self.opened(create=True) as (job, files):
            first, _ = completes(job, files, job.report.term, savepoint=True)
            record, names = completes(job, files, job.report.term)
        self.s3.delete_object(Bucket=self.bucket, Key=f"orders/{names[1]}")
        self.lose()
        _, told = self.runs("records", self.url("orders"))
        self.assertIn("1 files are missing", told)
        made = manifests.recover(self.work / "job.db", self.at("orders"))
        self.assertEqual((made.record, made.is_savepoint, made.passed), (first, True, 1))

    def test_a_way_back_without_a_file(self):
        """It is refused before the newer records are dropped."""
        with Store(self.work / "job.db", Settings(interval=1000, retained=2), [TASKS], create=True) as job:
            files = StateBucket(job, self.bucket, "orders/", s3=self.s3)
            savepoint, saved = completes(job, files, job.report.term, savepoint=True)
            first, names = completes(job, files, job.report.term)
            record, _ = completes(job, files, job.report.term)
            for name in (saved[0], names[0]):
                self.s3.delete_object(Bucket=self.bucket, Key=f"orders/{name}")
            for goes, lost in ((lambda: job.go_back(first, accept_published=True), names[0]), (lambda: job.restore(savepoint), saved[0])):
                self.assertRaisesRegex(StoreError, f"FileLost: file {lost} of record", goes)
            self.assertEqual(job.load().id, record)
            with job.read() as reads:
                self.assertEqual(reads.file_counts().waiting, 0)
            self.assertEqual(job.go_back(record, accept_published=True).reply.id, record)

    def test_nothing_there(self):
        self.assertEqual(self.runs("records", self.url("orders"))[1], "no record has a manifest\n")
        status, told = self.runs("recover", self.work / "job.db", self.url("orders"))
        self.assertEqual((status, "no marker" in told), (1, True), told)
        status, told = self.runs("export", self.url("orders"), self.work / "out")
        self.assertEqual((status, "no record" in told, (self.work / "out").exists()), (1, True, False), told)
        status, told = self.runs("records", "s3://none-of-this-name/x")
        self.assertEqual(status, 78, told)  # as for a job of the service: somebody has to look


class Carrying(OnAServer):
    def bases(self):
        """A job over a bucket and one over a folder, each with a record and a savepoint before it."""
        with self.opened(create=True) as (job, files):
            completes(job, files, job.report.term, savepoint=True)
            in_bucket, self.of_bucket = completes(job, files, job.report.term)
        with self.in_folder(create=True) as (job, files):
            completes(job, files, job.report.term, savepoint=True)
            in_folder, self.of_folder = completes(job, files, job.report.term)
        return in_bucket, in_folder

    def test_to_a_folder_and_back(self):
        in_bucket, in_folder = self.bases()
        self.assertEqual(self.runs("export", self.work / "state", self.url("copy"))[0], 0)
        self.assertEqual(self.numbers("copy/"), self.of_folder)
        self.assertEqual(self.runs("export", self.url("copy"), self.work / "back")[0], 0)
        self.assertEqual({it.id for it in Store.records(self.work / "back") if it.is_next}, {in_folder})
        for file in self.of_folder:
            self.assertEqual((self.work / "back" / str(file)).read_bytes(), contents_of(file))
        self.assertEqual(self.runs("export", self.url("orders"), self.url("other"))[0], 0)
        self.assertEqual(self.keys("other/"), sorted([*map(str, self.of_bucket), f"record-{in_bucket}.manifest"]))
        for target in (self.url("other"), self.work / "back"):
            status, told = self.runs("export", self.url("orders"), target)
            self.assertEqual(status, 1, told)

    def imports(self, source, target, record, *words):
        """An import, of which an engine goes on."""
        name = f"{uuid.uuid4().hex}.db"
        status, told = self.runs("import", *words, source, self.work / name, target)
        self.assertEqual((status, f"checkpoint {record}," in told), (0, True), told)
        if str(target).startswith("s3://"):
            with self.opened(name, str(target).split("/", 3)[3] + "/") as (job, files):
                self.check(job, files, record)
        else:
            with self.in_folder(name, target.name) as (job, files):
                files.get = lambda file: (target / str(file)).read_bytes()
                self.check(job, files, record)

    def test_imports(self):
        in_bucket, in_folder = self.bases()
        before = self.keys("orders/")
        self.imports(self.work / "state", self.url("a"), in_folder)
        self.imports(self.url("orders"), self.work / "b", in_bucket)
        self.imports(self.url("orders"), self.url("c"), in_bucket)
        self.assertEqual(self.keys("orders/"), before)
        with self.opened() as (job, files):
            self.check(job, files, in_bucket)  # the first job was not fenced

    def test_claims(self):
        in_bucket, in_folder = self.bases()
        self.imports(self.work / "state", self.url("a"), in_folder, CLAIM)
        self.assertFalse({int(it.name) for it in (self.work / "state").iterdir() if it.name.isdecimal()} & set(self.of_folder))
        self.imports(self.url("orders"), self.work / "b", in_bucket, CLAIM)
        self.assertFalse(set(self.numbers("orders/")) & set(self.of_bucket))
        self.assertEqual([it.missing for it in manifests.records(self.at("orders"))], [0])  # the savepoint stays
        with self.assertRaisesRegex(OtherJob, "older copy"), self.opened():
            pass
        with self.assertRaises(StoreError), self.in_folder():
            pass
        self.assertEqual(self.runs("export", self.work / "b", self.url("d"))[0], 0)
        (later,) = [it.id for it in manifests.records(self.at("d"))]
        self.imports(self.url("d"), self.url("e"), later, CLAIM)
        self.assertEqual(self.keys("d/"), [])

    def test_a_claim_after_an_import(self):
        """The old job runs until it is fenced, and that comes before its files leave."""
        self.bases()
        with self.opened() as (job, files):
            manifests.import_job(self.at("orders"), self.work / "new.db", self.at("a"))
            made = manifests.claim(self.at("orders"), self.work / "new.db", self.at("a"))
            self.assertEqual(made.files, TASKS)
            self.assertFalse(set(self.numbers("orders/")) & set(self.of_bucket))
            self.assertRaises(OtherJob, files.put, 5000, b"x")

    def test_two_claims_at_once(self):
        """The second one comes to its end before a step of the first one, which is refused then: also where an earlier record is still there."""
        for nth, step in enumerate(("begin", "hold", "mark")):
            prefix = f"orders-{nth}/"
            with self.opened(f"{nth}.db", prefix, create=True) as (job, files):
                completes(job, files, job.report.term, savepoint=True)
                record, _ = completes(job, files, job.report.term)
            does, made = getattr(manifests, step), []

            def comes_second(*words, nth=nth, prefix=prefix, step=step, does=does, made=made):
                with mock.patch.object(manifests, step, does):
                    made.append(manifests.claim(self.at(prefix), self.work / f"second-{nth}.db", self.at(f"b-{nth}")))
                return does(*words)

            with mock.patch.object(manifests, step, comes_second), self.assertRaisesRegex((OtherJob, StoreError), "meanwhile|was claimed for"):
                manifests.claim(self.at(prefix), self.work / f"first-{nth}.db", self.at(f"a-{nth}"))
            self.assertEqual([it.record for it in made], [record])
            with self.opened(f"second-{nth}.db", f"b-{nth}/") as (job, files):
                self.check(job, files, record)
            self.is_claimed(prefix, record, f"{self.url('b-')}{nth}")

    def is_claimed(self, prefix, record, place):
        """Nothing is made of an earlier record that is still there, unless somebody gives its number. Then the mark goes with the first opening."""
        words = f"record {record} was claimed for {place}: "
        for begins in (manifests.recover, lambda at, source: manifests.import_job(source, at, self.at("new")), lambda at, source: manifests.export(source, self.at("new"))):
            with self.assertRaisesRegex(StoreError, words):
                begins(self.work / "new.db", self.at(prefix))
        status, told = self.runs("records", self.url(prefix))
        self.assertEqual((status, told.startswith(words[:-2]), "a recovery or an import begins from it" in told), (0, True, False), told)
        (earlier,) = [it.id for it in manifests.records(self.at(prefix))]
        name = f"{prefix.strip('/')}-again.db"
        self.assertGreater(manifests.recover(self.work / name, self.at(prefix), earlier).next_number, record)
        with self.opened(name, prefix):
            self.assertFalse([it for it in self.keys(prefix) if it.endswith(".claimed")])

    def test_a_claim_on_a_server_without_conditional_writes(self):
        """It is refused before the old job is fenced. A recovery is not: whoever gives it has ended each process."""
        in_bucket, _ = self.bases()
        put_if = Bucket._put_if
        with mock.patch.object(Bucket, "_put_if", lambda bucket, name, contents, _: put_if(bucket, name, contents, {})):
            with self.opened() as (job, files):
                with self.assertRaisesRegex(StorageError, "no conditional writes"):
                    manifests.claim(self.at("orders"), self.work / "new.db", self.at("a"))
                self.assertEqual(self.keys("a/"), [])
                self.check(job, files, in_bucket)
            self.assertEqual(manifests.recover(self.work / "new.db", self.at("orders")).record, in_bucket + 1)  # the check has completed one

    def test_a_claim_beside_an_opening(self):
        """An opening that has read the marker does not take the fence of a claim away that came since."""
        in_bucket, _ = self.bases()
        read = Bucket.read_marker

        def reads(bucket):
            found = read(bucket)
            with mock.patch.object(Bucket, "read_marker", read):
                manifests.claim(self.at("orders"), self.work / "new.db", self.at("a"))
            return found

        with mock.patch.object(StateBucket, "read_marker", reads), self.assertRaisesRegex(OtherJob, "meanwhile"), self.opened():
            pass
        with self.opened("new.db", "a/") as (job, files):
            self.check(job, files, in_bucket)

    def test_an_engine_that_is_fenced(self):
        """It is not told that its record is complete."""
        self.bases()
        with self.opened() as (job, files):
            term = job.restore().term
            manifests.recover(self.work / "new.db", self.at("orders"))
            id, names = job.trigger().reply.id, job.reserve(term, TASKS)
            with self.assertRaises(StoreError) as caught:
                for index, name in enumerate(names):
                    job.ack_in(term, id, 0, index, [name])
            self.assertEqual((caught.exception.name, caught.exception.closes), ("Storage", True))

    def test_a_job_that_another_process_makes(self):
        """It is found before the old job is fenced."""
        in_bucket, _ = self.bases()
        with self.opened() as (job, files), Store(self.work / "new.db", SETTINGS, [TASKS], create=True):
            for end in ("", "-wal", "-shm"):
                (self.work / f"new.db{end}").unlink(missing_ok=True)  # the lock of its process is beside them
            for begins in (manifests.recover, lambda at, source: manifests.claim(source, at, self.at("a"))):
                with self.assertRaisesRegex(StoreError, "InUse"):
                    begins(self.work / "new.db", self.at("orders"))
            self.assertEqual(self.keys("a/"), [])
            self.check(job, files, in_bucket)

    def test_beside_a_damaged_manifest(self):
        """A manifest whose sum is wrong may name any file. One of tasks without files is whole."""
        in_bucket, _ = self.bases()
        (other,) = [it.id for it in manifests.records(self.at("orders")) if it.is_savepoint]
        key = f"orders/record-{other}.manifest"
        text = self.s3.get_object(Bucket=self.bucket, Key=key)["Body"].read()
        self.s3.put_object(Bucket=self.bucket, Key=key, Body=text.replace(b'"sum":"', b'"sum":"0'))
        with self.assertRaisesRegex(StoreError, "can't be read"):
            manifests.leave(self.at("orders"), in_bucket, self.at("a"))
        self.assertLessEqual(set(self.of_bucket), set(self.numbers("orders/")))

    def test_a_claim_of_shared_objects(self):
        """An object of the claimed record stays if another record has it."""
        with self.opened(create=True) as (job, files):
            _, first = completes(job, files, job.report.term, savepoint=True)
            record, second = completes(job, files, job.report.term, reused=first[:1])
        self.imports(self.url("orders"), self.url("claimed"), record, CLAIM)
        self.assertEqual(self.numbers("orders/"), sorted(first))
        self.assertLessEqual({*first[:1], *second}, set(self.numbers("claimed/")))

    def test_claims_in_place(self):
        in_bucket, _ = self.bases()
        self.assertEqual(self.runs("export", self.url("orders"), self.url("d"))[0], 0)
        self.imports(self.url("d"), self.url("d"), in_bucket, CLAIM)
        self.imports(self.url("orders"), self.url("orders"), in_bucket, CLAIM)
        with self.assertRaisesRegex(OtherJob, "older copy"), self.opened():
            pass

    def test_what_is_there_already(self):
        in_bucket, _ = self.bases()
        self.s3.put_object(Bucket=self.bucket, Key="full/7", Body=b"")
        for words in (("export", self.url("orders"), self.url("full")), ("import", self.url("orders"), self.work / "n.db", self.url("full")),
                      ("import", CLAIM, self.url("orders"), self.work / "n.db", self.url("full"))):
            status, told = self.runs(*words)
            self.assertEqual((status, "there" in told, self.keys("full/")), (1, True, ["7"]), told)
        with self.opened() as (job, files):
            self.check(job, files, in_bucket)  # a claim that is refused fences nobody


class Kills(OnAServer):
    """Each command ends before and after its requests. The same command goes on, and nothing is lost."""

    chance = random.Random(SEED)

    def base(self, prefix):
        name = f"{prefix.strip('/')}.db"
        with self.opened(name, prefix, create=True) as (job, files):
            completes(job, files, job.report.term, savepoint=True)
            record, names = completes(job, files, job.report.term)
        self.lose(name)
        return record, names

    def each(self, base, words, check):
        """words(n, prefix) are those of a command over the nth copy of the base. Checks that it came to at least two ends, and through in the last run."""
        ends, at, goes_on = 0, 0, True
        while goes_on:
            at += self.chance.randint(1, 2 * EACH - 1 if at else min(3, 2 * EACH - 1))  # the first is one that each command has
            for after in (False, True):
                prefix = f"n{at}-{int(after)}/"
                for key in self.keys(base):
                    self.s3.copy_object(Bucket=self.bucket, Key=prefix + key, CopySource={"Bucket": self.bucket, "Key": base + key})
                given = words(f"{at}-{int(after)}", prefix)
                goes_on = self.killed(at, after, *given)
                ends += goes_on
                check(given, prefix, goes_on)
        self.assertGreater(ends, 1)

    def again(self, given, is_killed):
        """Gives the same command again: it goes on, or says that all is there."""
        status, said = self.ended(0, False, *given)
        assert (is_killed and status == 0) or "there" in said, (given, is_killed, status, said)
        return status, said

    def test_recover(self):
        record, _ = self.base("base/")

        def check(given, prefix, is_killed):
            is_there = given[1].exists()
            status, told = self.again(given, is_killed)
            assert status == is_there, told
            with self.opened(given[1].name, prefix) as (job, files):
                self.check(job, files, record)

        self.each("base/", lambda n, prefix: ("recover", self.work / f"{n}.db", self.url(prefix)), check)

    def test_export(self):
        record, names = self.base("base/")

        def check(given, prefix, is_killed):
            self.again(given, is_killed)
            target = place(given[2], self.s3)
            assert [(it.id, it.missing) for it in manifests.records(target)] == [(record, 0)], manifests.records(target)
            assert sorted(target.sizes()) == names and target.read(manifests.PART) is None, target.sizes()

        self.each("base/", lambda n, prefix: ("export", self.url(prefix), self.url(f"out-{n}")), check)
        self.each("base/", lambda n, prefix: ("export", self.url(prefix), self.work / f"out-{n}"), check)
        self.assertFalse(list(self.work.glob("*.part")))

    def test_import_and_claim(self):
        record, names = self.base("base/")

        def rivals(source, job, target):
            """Another claim is refused, or has the record before there is a job of the first one, which is refused then. Returns the job and the place that have it."""
            other, elsewhere = job.with_name(f"rival-{job.name}"), f"{target}-rival"
            status, said = self.ended(0, False, "import", CLAIM, source, other, elsewhere)
            assert "was claimed for" in said if status else not job.exists(), (status, said)
            return (job, target) if status else (other, elsewhere)

        def check(given, prefix, is_killed):
            is_claim, (source, job, target) = given[1] == CLAIM, given[-3:]
            has_it = rivals(source, job, target) if is_claim and is_killed else (job, target)
            if has_it == (job, target):
                self.again(given, is_killed)
            else:
                status, said = self.ended(0, False, *given)
                assert status and "was claimed for" in said and not job.exists(), said
            job, target = has_it
            left = place(source, self.s3)
            assert bool(set(names) & set(left.sizes())) != is_claim, (given, left.sizes())
            assert all(it.missing == 0 for it in manifests.records(left)), manifests.records(left)
            with self.opened(job.name, target.split("/", 3)[3] + "/") as (store, files):
                self.check(store, files, record)

        for words in ((), (CLAIM,)):
            def given(n, prefix, words=words):
                return ("import", *words, self.url(prefix), self.work / f"{n}{len(words)}.db", self.url(f"in{len(words)}-{n}"))
            self.each("base/", given, check)


def ends_at(at, after):
    """The process ends at a request, without a word."""
    count = 0

    def end(**_):
        nonlocal count
        count += 1
        if count == at:
            os._exit(KILLED)

    events = boto3.DEFAULT_SESSION._session.get_component("event_emitter")  # of this fork; the session has read what a new one would read again
    events.register_first("response-received.s3" if after else "before-send.s3", end)


def runs_to(at, after, *words):
    """Never returns."""
    status = 70
    try:
        ends_at(at, after)
        status = command.main([*map(str, words), "--endpoint", os.environ["S3_ENDPOINT"], "--region", os.environ["S3_REGION"]])
    except BaseException as error:
        print(repr(error))
    finally:
        sys.stdout.flush()
        os._exit(status)
