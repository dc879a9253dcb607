"""The two kinds of places where a job's files are, a folder and a bucket of a server of its own: what tests put there, and what they look at."""
import atexit
import functools
import json
import os
import shutil
import subprocess
import tempfile
import urllib.request
import uuid
from contextlib import contextmanager

from harness import COMMAND, PROGRAM, SETTINGS, TOP, content, needed, served
from relkvanu_service import Service

S3 = f"{TOP}/bindings/s3"


class Folder:
    kind, has_parts = "folder", True

    def __init__(self, at):
        self.path = f"{at}/files"
        os.mkdir(self.path)

    def words(self, prefix, suffix):
        return ["--folder", self.path, "--prefix", prefix, "--suffix", suffix]

    def storage(self, prefix):
        """What a job says of it."""
        return {"folder": self.path, "prefix": prefix}

    def shown(self, name):
        return name

    def put(self, name, contents):
        with open(f"{self.path}/{name}", "wb") as it:
            it.write(contents)

    def remove(self, name):
        os.remove(f"{self.path}/{name}")

    def names(self):
        """The names of what is there, though somebody deletes it."""
        return os.listdir(self.path)

    def all(self):
        """What is there, with its contents."""
        found = {}
        for entry in filter(os.DirEntry.is_file, os.scandir(self.path)):
            with open(entry.path, "rb") as it:
                found[entry.name] = it.read()
        return found

    @contextmanager
    def keeping(self, name):
        """Meanwhile this file can't be deleted."""
        self.remove(name)
        os.mkdir(f"{self.path}/{name}")
        try:
            yield
        finally:
            os.rmdir(f"{self.path}/{name}")
            self.put(name, b"state")


class Bucket:
    """A folder of a new bucket."""

    kind, has_parts = "bucket", False

    def __init__(self, _):
        import boto3  # of Debian, which not each machine has

        self.said = s3_server()
        self.s3 = boto3.client("s3", endpoint_url=self.said["S3_ENDPOINT"], region_name=self.said["S3_REGION"],
                               aws_access_key_id=self.said["AWS_ACCESS_KEY_ID"], aws_secret_access_key=self.said["AWS_SECRET_ACCESS_KEY"])
        self.bucket = f"b{uuid.uuid4().hex}"
        self.s3.create_bucket(Bucket=self.bucket)

    def words(self, prefix, suffix):
        return ["--bucket", self.bucket, "--prefix", f"orders/{prefix}", "--suffix", suffix, "--endpoint", self.said["S3_ENDPOINT"],
                "--region", self.said["S3_REGION"]]

    def storage(self, prefix):
        return {"bucket": self.bucket, "prefix": f"orders/{prefix}", "endpoint": self.said["S3_ENDPOINT"], "region": self.said["S3_REGION"]}

    def shown(self, name):
        return f"orders/{name}"

    def put(self, name, contents):
        self.s3.put_object(Bucket=self.bucket, Key=f"orders/{name}", Body=contents)

    def remove(self, name):
        self.s3.delete_object(Bucket=self.bucket, Key=f"orders/{name}")

    def names(self):
        keys = [it["Key"] for page in self.s3.get_paginator("list_objects_v2").paginate(Bucket=self.bucket) for it in page.get("Contents", [])]
        assert all(key.startswith("orders/") for key in keys), keys
        return [key.partition("/")[2] for key in keys]

    def all(self):
        return {name: self.s3.get_object(Bucket=self.bucket, Key=f"orders/{name}")["Body"].read() for name in self.names()}

    @contextmanager
    def keeping(self, name):
        key = f"arn:aws:s3:::{self.bucket}/orders/{name}"
        denied = {"Effect": "Deny", "Principal": "*", "Action": "s3:DeleteObject", "Resource": key}
        self.s3.put_bucket_policy(Bucket=self.bucket, Policy=json.dumps({"Version": "2012-10-17", "Statement": [denied]}))
        try:
            yield
        finally:
            self.s3.delete_bucket_policy(Bucket=self.bucket)


@functools.lru_cache(None)
def s3_server():
    """What the server says of itself, which this process has started and ends."""
    needed("radosgw")
    folder = tempfile.mkdtemp(prefix="relkvanu-s3-")
    server = f"{folder}/server"
    atexit.register(lambda: (subprocess.run([f"{S3}/stop", server], check=False), shutil.rmtree(folder, ignore_errors=True)))
    # another process may take a port that was free: then it is started once more
    if subprocess.run([f"{S3}/start", server], check=False).returncode:
        subprocess.run([f"{S3}/stop", server], check=False)
        subprocess.run([f"{S3}/start", server], check=True)
    return dict(line.split("=", 1) for line in content(f"{server}/env").splitlines())


def around(place):
    """The environment of a command: Debian's Python has what a bucket needs, and the package is that of this repository."""
    said = getattr(place, "said", {})
    keys = {name: value for name, value in said.items() if name.startswith("AWS_")}
    return {**os.environ, **keys, "PATH": f"/usr/bin:{os.environ['PATH']}", "PYTHONPATH": f"{TOP}/bindings/python"}


# What a cleaner does of one kind alone: delete the files that a job hands out, or its garbage; or look at the garbage.
KINDS = {"released": ["--only", "released"], "garbage": ["--only", "garbage"], "look": ["--look"]}


def words_of(command, server, place, *more, job="a", prefix="s-", suffix=""):
    """A command over a place, by its name or by the kind of a cleaner."""
    named = ["clean", *KINDS[command], "--job", job] if command in KINDS else [command, job]
    return [PROGRAM, *named, "--url", server.url, *place.words(prefix, suffix), *more]


def ran(command, server, place, *more, **given):
    """The status of a command over a place, its lines and its errors. A cleaner ends once it has nothing to do."""
    more = ["--once", *more] if command in KINDS else more
    told = subprocess.run(words_of(command, server, place, *more, **given), env=around(place), capture_output=True, text=True, timeout=COMMAND, check=False)
    return told.returncode, told.stdout.splitlines(), told.stderr


def metrics_of(port):
    """What a process serves of its metrics, by their names with labels; nothing if it serves none now."""
    try:
        with urllib.request.urlopen(f"http://127.0.0.1:{port}/metrics", timeout=COMMAND) as told:
            lines = [line for line in told.read().decode().splitlines() if not line.startswith("#")]
    except OSError:
        return {}
    return {line.rpartition(" ")[0]: float(line.rpartition(" ")[2]) for line in lines}


def files(place):
    return sorted(name for name in place.all() if not name.startswith("."))


@contextmanager
def a_job(kind):
    """A service, a job that gives out names, and a place that has its marker."""
    with served() as server:
        job, place = Service(server.url).open("a", SETTINGS, [1]), kind(server.folder)
        name, text = job.marker()
        place.put(name, text.encode())
        yield server, job, place


def over_both(test):
    """A test over a folder, and over a bucket if there is a server."""

    def both():
        for kind in (Folder, Bucket):
            with a_job(kind) as given:
                told = test(*given)
        return told

    return both
