"""State files in a bucket of the server that the environment names (bindings/s3/start): what is put, deleted and listed, what counts as deleted
when the server fails, and what a sweeper deletes. bindings/s3/run runs it."""
import contextlib
import json
import os
import pathlib
import signal
import time
import unittest
import uuid
from unittest import mock

import boto3
from botocore.config import Config
from botocore.exceptions import ClientError

import relkvanu.sweep
from relkvanu import Coordinator, Settings
from relkvanu.s3 import Bucket, KeepsVersions
from relkvanu.storage import Exists, Marker, NotThere, OtherJob, StorageError
from jobs_with_files import MARKER, SweepsAnyStorage, run_beside_sweepers
from storages import OfAnyStorage


def client(**words):
    how = Config(retries={"max_attempts": 0}, connect_timeout=60, read_timeout=words.pop("patience", 300), s3={"addressing_style": "path"})
    return boto3.client("s3", **{"endpoint_url": os.environ["S3_ENDPOINT"], "region_name": os.environ["S3_REGION"], "config": how, **words})


def is_still(process):
    states = [it.read_text().rpartition(")")[2].split()[0] for it in pathlib.Path(f"/proc/{process}/task").glob("*/stat")]
    return set(states) == {"T"}


@contextlib.contextmanager
def suspended(process):
    """All threads of the process stand still: a signal may take a moment to reach the last one."""
    os.kill(process, signal.SIGSTOP)
    try:
        while not is_still(process):
            os.kill(process, signal.SIGSTOP)  # it is there
            time.sleep(0.01)
        yield
        assert is_still(process), "somebody else has woken it"
    finally:
        os.kill(process, signal.SIGCONT)


class OnAServer(unittest.TestCase):
    def setUp(self):
        self.s3 = client()
        self.bucket = f"b{uuid.uuid4().hex}"
        self.s3.create_bucket(Bucket=self.bucket)

    def opened(self, job="orders", is_new=False, s3=None, **words):
        return Bucket(self.bucket, job, is_new, s3=s3 or self.s3, **words)

    def keys(self):
        return sorted(it["Key"] for it in self.s3.list_objects_v2(Bucket=self.bucket).get("Contents", []) if ".relkvanu" not in it["Key"])


class Alike(OnAServer, OfAnyStorage):
    """Below a prefix, beside objects of others."""

    strangers = (*OfAnyStorage.strangers, "1/2.sst", "../others/99.sst")

    def opened(self, job="orders", is_new=False, prefix="", **words):
        return super().opened(job, is_new, prefix=f"jobs/{prefix}", **words)

    def names(self):
        return [os.path.relpath(it, "jobs") for it in self.keys()]

    def plant(self, name, contents=b""):
        self.s3.put_object(Bucket=self.bucket, Key=os.path.normpath(f"jobs/{name}"), Body=contents)

    def take_away(self, name):
        self.s3.delete_object(Bucket=self.bucket, Key=f"jobs/{name}")


class Opening(OnAServer):
    def test_no_bucket(self):
        self.s3.delete_bucket(Bucket=self.bucket)
        for is_new in (False, True):
            self.assertRaises(NotThere, self.opened, is_new=is_new)

    def test_a_bucket_with_versions_is_refused(self):
        self.s3.put_bucket_versioning(Bucket=self.bucket, VersioningConfiguration={"Status": "Enabled"})
        self.assertRaises(KeepsVersions, self.opened, is_new=True)
        self.assertEqual(self.s3.list_objects_v2(Bucket=self.bucket)["KeyCount"], 0)
        self.opened(is_new=True, keeps_versions=True)

    def test_a_wrong_secret(self):
        with self.assertRaises(StorageError):
            self.opened(is_new=True, s3=client(aws_access_key_id=os.environ["AWS_ACCESS_KEY_ID"], aws_secret_access_key="wrong"))


class Files(OnAServer):
    def setUp(self):
        super().setUp()
        self.files = self.opened(is_new=True, prefix="jobs/orders/", suffix=".sst")

    def requests(self, *calls):
        """The requests that are made by each of the calls."""
        made = []
        self.s3.meta.events.register("before-call.s3.*", lambda model, **_: made.append(model.name), unique_id="test")
        return [(call(), made[:], made.clear())[1] for call in calls]

    def test_put_is_one_request(self):
        first, *later = self.requests(*(lambda file=file: self.files.put(file, b"state") for file in (1, 2, 3)))
        self.assertEqual((first, later), (["GetObject", "PutObject", "PutObject"], [["PutObject"]] * 2))
        self.assertRaises(Exists, self.files.put, 2, b"state")

    def test_a_thousand_are_deleted_by_one_request(self):
        self.files.put(1, b"state")
        self.assertEqual(self.requests(lambda: self.files.delete(range(1, 1001)), lambda: self.files.delete(range(1001))), [
            ["GetObject", "DeleteObjects", "GetObject"], ["GetObject", "DeleteObjects", "DeleteObjects", "GetObject"]])
        self.assertEqual(list(self.files.pages()), [])

    def test_a_server_that_does_not_refuse_an_object_that_is_there(self):
        put_if = Bucket._put_if
        with mock.patch.object(Bucket, "_put_if", lambda bucket, name, contents, _: put_if(bucket, name, contents, {})):
            self.files.put(1, b"first")
            self.assertEqual(self.requests(lambda: self.files.put(2, b"state")), [["HeadObject", "PutObject"]])
            self.assertRaises(Exists, self.files.put, 1, b"second")
        self.assertEqual((self.files.get(1), self.files.check()), (b"first", None))

    def test_a_server_that_knows_no_such_condition(self):
        error = ClientError({"Error": {"Code": "NotImplemented"}}, "PutObject")
        with mock.patch.object(self.s3, "put_object", side_effect=[error, {}]) as put:
            self.files.put(1, b"state")
        self.assertEqual([it.kwargs["Key"] for it in put.mock_calls], ["jobs/orders/.relkvanu-storage", "jobs/orders/1.sst"])

    def test_a_put_that_the_client_makes_twice(self):
        self.files.put(1, b"state")
        self.s3.put_object(Bucket=self.bucket, Key="jobs/orders/2.sst", Body=b"state")
        error = ClientError({"Error": {"Code": "PreconditionFailed"}, "ResponseMetadata": {"RetryAttempts": 1}}, "PutObject")
        with mock.patch.object(self.s3, "put_object", side_effect=error):
            self.files.put(2, b"state")
            self.assertRaises(Exists, self.files.put, 2, b"other")

    def test_an_error_within_an_answer_that_succeeds(self):
        for file in range(4):
            self.files.put(file, b"")
        denied = {"Effect": "Deny", "Principal": "*", "Action": "s3:DeleteObject", "Resource": f"arn:aws:s3:::{self.bucket}/jobs/orders/2.sst"}
        self.s3.put_bucket_policy(Bucket=self.bucket, Policy=json.dumps({"Version": "2012-10-17", "Statement": [denied]}))
        told = self.s3.delete_objects(Bucket=self.bucket, Delete={"Objects": [{"Key": "jobs/orders/2.sst"}]})
        self.assertEqual((told["ResponseMetadata"]["HTTPStatusCode"], len(told["Errors"])), (200, 1), "the server is as the test needs it")
        failed = self.files.delete([1, 2, 3])
        self.assertEqual(list(failed), [2])
        self.assertIn("AccessDenied", failed[2])
        self.assertEqual(sorted(sum(self.files.pages(), [])), [0, 2])

    def test_no_bucket_is_not_deleted(self):
        self.files.put(1, b"")
        for key in ("jobs/orders/1.sst", "jobs/orders/.relkvanu-storage"):
            self.s3.delete_object(Bucket=self.bucket, Key=key)
        self.s3.delete_bucket(Bucket=self.bucket)
        self.assertEqual(set(self.files.delete([1, 2])), {1, 2})
        self.assertRaises(NotThere, self.files.put, 3, b"")
        with self.assertRaises(NotThere):
            list(self.files.pages())

    def test_versions_that_are_switched_on_later(self):
        self.files.put(1, b"")
        self.s3.put_bucket_versioning(Bucket=self.bucket, VersioningConfiguration={"Status": "Enabled"})
        self.assertEqual(list(self.files.delete([1])), [1], "its contents are still there")


class Failing(OnAServer):
    def setUp(self):
        super().setUp()
        self.opened(is_new=True).put(1, b"")

    def test_a_time_out_is_not_deleted(self):
        files = self.opened()
        # impatient from now on alone: on a busy machine any request may take a second
        with suspended(int(os.environ["S3_OSD"])), mock.patch.object(files, "_s3", client(patience=1)):
            self.assertEqual(set(files.delete([1, 2])), {1, 2})
            self.assertRaises(StorageError, files.put, 3, b"")
            with self.assertRaises(StorageError):
                list(files.pages())
        self.assertEqual(self.opened().delete([1, 2]), {})

    def test_nobody_listens(self):
        files = self.opened()
        with mock.patch.object(files, "_s3", client(endpoint_url="http://127.0.0.1:9")):
            self.assertEqual(set(files.delete([1, 2])), {1, 2})
            for call in (files.check, lambda: files.put(3, b""), lambda: files.get(1), lambda: list(files.pages())):
                self.assertRaises(StorageError, call)

    def test_a_key_that_the_server_does_not_name(self):
        files = self.opened()
        with mock.patch.object(self.s3, "delete_objects", return_value={"Deleted": [{"Key": "1"}]}):
            self.assertEqual(list(files.delete([1, 2])), [2])


class Sweeping(OnAServer, SweepsAnyStorage):
    def setUp(self):
        super().setUp()
        self.files = self.opened(is_new=True, prefix="orders/state-", suffix=".sst", marker=Marker(".relkvanu-orders", MARKER))
        self.begin()

    def take_place_away(self):
        for it in self.s3.list_objects_v2(Bucket=self.bucket)["Contents"]:
            self.s3.delete_object(Bucket=self.bucket, Key=it["Key"])
        self.s3.delete_bucket(Bucket=self.bucket)

    def test_the_marker_is_beside_the_files(self):
        self.assertEqual(self.s3.get_object(Bucket=self.bucket, Key="orders/.relkvanu-orders")["Body"].read().decode(), MARKER)
        self.assertEqual((self.files.beside(".relkvanu-"), self.keys()), ([".relkvanu-orders"], [f"orders/state-{file}.sst" for file in range(4, 10)]))
        with self.assertRaises(OtherJob):
            self.opened(prefix="orders/state-", marker=Marker(".relkvanu-orders", "another"))

    def test_pages_while_it_deletes(self):
        """Each third file is in use. The listing goes on behind the last key of a page, though files of the page are gone."""
        self.files.delete([9])  # a name that is given out next
        names = list(self.job.reserve(1, 300))
        self.job.tick(20)
        self.job.ack_in(1, 20, 2, 0, 0, names[::3])
        self.job.restore(30)
        for file in names:
            self.files.put(file, b"")
        found = list(relkvanu.sweep.pages(self.files, self.job.garbage, delete=True, most=50))
        self.assertGreaterEqual(len(found), 7)
        self.assertEqual(self.left(), [5, 6, *names[::3]])  # the first two are of checkpoint 1, which a discarder has not fetched

    def test_beside_a_job_that_runs(self):
        files = self.opened(is_new=True, prefix="other/")
        with Coordinator.open_fenced(Settings(interval=10), [1], 0, 1, 1) as job:
            last = run_beside_sweepers(self, job, files, 40)
        self.assertEqual([it for it in self.keys() if it.startswith("other/")], sorted(f"other/{file}" for file in last))
