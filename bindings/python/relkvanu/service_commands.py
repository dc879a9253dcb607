"""What the verbs of `python3 -m relkvanu` do with a job of the service, whose files are in a folder or a bucket."""
import argparse
import copy
import functools
import glob
import importlib
import os
import pathlib
import sys
from typing import Any, Callable, Dict, List, Optional

from relkvanu import manifests
from relkvanu.__main__ import FAILED, LOCAL, LOOK_FIRST, OF_JOB
from relkvanu.errors import Error, Stop
from relkvanu.places import Place, place
from relkvanu.service_manifests import MARK, Manifests, identity_of, service_bucket, service_folder
from relkvanu.service_moves import Imported, Recovery, export, import_job, is_making, state_of

PART_OF = ".part"  # behind the name of a folder that is not whole


def module(name: str, what: str) -> Any:
    """One that not each command needs."""
    try:
        return importlib.import_module(name)
    except ImportError as error:
        raise Stop(FAILED, f"{what}: {error}") from error


def s3_of(given: argparse.Namespace) -> Any:
    return module("relkvanu.s3", "a bucket needs boto3, python3-boto3 of Debian").client(given.endpoint, given.region)


def place_of(given: argparse.Namespace, url: str) -> Place:
    return place(url, s3_of(given) if url.startswith("s3://") else None)


def files_of(given: argparse.Namespace, job: str) -> Any:
    """Where the files of a job are."""
    if given.folder is None:
        return service_bucket(job, given.bucket, given.prefix, given.suffix, s3_of(given))
    return service_folder(job, given.folder, given.prefix, given.suffix)


def token(path: Optional[str]) -> Optional[str]:
    if path is None:
        return None
    try:
        with open(path, encoding="utf-8") as file:
            return file.readline().strip()
    except OSError as error:
        raise Stop(FAILED, f"--token-file: {error}") from error


def records(given: argparse.Namespace) -> None:
    source = files_of(given, given.job)
    source.of(identity_of(source.marked()))
    manifests.show_all(source, given.whole)


def marked(folder: str) -> List[str]:
    """The jobs whose markers are in such folders: the text of a marker names its job, and that of another file beside it does not."""
    found = set()
    for path in glob.glob(os.path.join(glob.escape(folder).replace(glob.escape(OF_JOB), "*"), f"{MARK}*")):
        job = os.path.basename(path)[len(MARK):]
        if os.path.isfile(path) and os.path.dirname(path) == folder.replace(OF_JOB, job).rstrip("/"):
            with open(path, "rb") as file:
                found.update([job] if f" of the job {job}, ".encode() in file.read() else [])
    return sorted(found)


class Served:
    """What the words of a command stand for that asks a service."""

    def __init__(self, given: argparse.Namespace) -> None:
        self.given = given
        self.client = module("relkvanu_service", "the client of the service is service/client/python/relkvanu_service.py, and needs python3-requests")
        urls = given.url or os.environ.get("RELKVANU_URL", "").split() or [LOCAL]
        file = given.token_file or os.environ.get("RELKVANU_TOKEN_FILE")
        self.service = self.client.Service(*urls, token=token(file), patience=given.within, ca=given.ca)
        self.job = self.service.job(given.job or "")
        self.faults = self.client.Failed, self.client.Refused, self.client.Fenced

    def of(self, job: str) -> "Served":
        """The same of one job: its name is in the place of `{job}` in the words."""
        words = {name: value.replace(OF_JOB, job) for name, value in vars(self.given).items() if name in ("folder", "bucket", "prefix", "suffix") and value}
        it = copy.copy(self)
        it.given, it.job = argparse.Namespace(**{**vars(self.given), **words, "job": job}), self.service.job(job)
        return it

    def files(self) -> Any:
        return files_of(self.given, self.given.job)

    def recovery(self) -> Recovery:
        return Recovery(self.client, self.service, self.given.job, self.files())

    def keep(self) -> None:
        kept = Manifests(self.job, self.files(), self.given.checksums).keep()
        print("no record is complete" if kept is None else f"record {kept} has a manifest")

    def recover(self) -> None:
        if self.given.all is None:
            self.tell(self.recovery().run(self.given.record))
        else:
            self.end_with(self.recover_all(marked(self.given.folder)))

    def recover_all(self, jobs: List[str]) -> List[str]:
        """Returns what failed."""
        if not jobs:
            raise Stop(LOOK_FIRST, f"{self.given.folder}: there is no marker of a job: are the disks mounted?")
        each = [self.of(job) for job in jobs]
        return [why for it in each for why in it.faults_of(it.recover_unless_there)]

    def recover_unless_there(self) -> None:
        """Unless an earlier run has: its marker names the job that is there, which is whole."""
        marker, state = self.files().text(), state_of(self.client, self.job)
        if marker is not None and state is not None and not is_making(state) and self.recovery().identity() == identity_of(marker):
            print(f"{self.job.name} is there already")
        else:
            self.tell(self.recovery().run(self.given.record))

    def tell(self, made: Imported) -> None:
        """The new job knows where its files are, for the cleaner."""
        it = self.given
        at = {"folder": os.path.abspath(it.folder)} if it.folder is not None else {"bucket": it.bucket, "endpoint": it.endpoint, "region": it.region}
        self.job.set_storage({**{name: value for name, value in at.items() if value is not None}, "prefix": it.prefix, "suffix": it.suffix})
        manifests.tell(self.job.name, made)

    def export(self) -> None:
        if self.given.all is None:
            self.export_to(self.given.to, self.given.record)
        else:
            self.end_with(self.export_all(pathlib.Path(self.given.all)))

    def export_to(self, to: str, record: int) -> None:
        manifests.tell_carried(to, export(self.job, self.files(), place_of(self.given, to), record))

    def export_all(self, to: pathlib.Path) -> List[str]:
        """Carries the record of each job from which it would begin into a folder of the job. A job whose record is there is passed over. Returns what failed."""
        failed = [f"{name}: it is damaged, and is kept out: {why}" for name, why in self.service.damaged().items()]
        to.mkdir(exist_ok=True)
        for state in self.service.jobs():
            failed += self.of(state["name"]).export_in(to, state)
        return failed

    def export_in(self, to: pathlib.Path, state: Dict[str, Any]) -> List[str]:
        name, id = self.job.name, state["choice"].get("id")
        if state["mode"] == "cancelled" or id is None:
            print(f"{name}: {'it was cancelled' if state['mode'] == 'cancelled' else 'no record is complete'}, so nothing is carried")
            return []
        if name.endswith(PART_OF):
            return [f"{name}: export it alone, since {to}/{name} is where another job may be carried"]
        return self.faults_of(functools.partial(self.export_unless_there, str(to / name), id))

    def export_unless_there(self, to: str, record: int) -> None:
        target = place_of(self.given, to)
        there = None if target.is_empty() else max(manifests.manifests_of(target), default=None)
        if there is None:
            self.export_to(to, record)
        elif there != record:
            raise Stop(FAILED, f"{to} has record {there}, and the job has gone on to {record}: move that folder away")
        else:
            print(f"{to} has record {record} already")

    def import_(self) -> None:
        it = self.given
        if it.all is None:
            self.tell(import_job(self.recovery(), place_of(it, it.source), it.record, it.claim))
        else:
            self.end_with(self.import_all(pathlib.Path(it.all)))

    def import_all(self, source: pathlib.Path) -> List[str]:
        """Makes a job of each folder of an export of all jobs. One that was made by the same command is passed over. Returns what failed."""
        failed: List[str] = []
        for folder in sorted(it for it in source.iterdir() if it.is_dir() and not it.name.endswith(PART_OF)):
            it = self.of(folder.name)
            failed += it.faults_of(functools.partial(it.import_unless_there, str(folder)))
        return failed

    def import_unless_there(self, source: str) -> None:
        """Unless it was imported, and no engine has opened it since."""
        if self.given.folder is not None:
            pathlib.Path(self.given.folder).parent.mkdir(parents=True, exist_ok=True)
        target, recovery = self.files(), self.recovery()
        marker = target.text()
        state = None if marker is None else state_of(self.client, self.job)
        if marker is not None and state is not None and not is_making(state):
            target.of(identity_of(marker))
            if recovery.identity() == identity_of(marker) and manifests.imported(place_of(self.given, source), target) is not None:
                print(f"{self.job.name} is there already")
                return
        self.tell(import_job(recovery, place_of(self.given, source), 0, False))

    def faults_of(self, work: Callable[[], None]) -> List[str]:
        """Does the work of one job. The others go on if it fails."""
        try:
            work()
        except (*self.faults, Error, Stop, OSError) as error:
            return [f"{self.job.name}: {error}"]
        sys.stdout.flush()
        return []

    def end_with(self, failed: List[str]) -> None:
        if failed:
            raise Stop(FAILED, "\nrelkvanu: ".join(failed))

    def run(self, work: Callable[["Served"], None]) -> None:
        try:
            work(self)
        except self.faults as error:
            raise Stop(FAILED, str(error)) from error


def verb(work: Callable[[Served], None]) -> Callable[[argparse.Namespace], None]:
    return lambda given: Served(given).run(work)


keep, recover, export_, import_ = map(verb, (Served.keep, Served.recover, Served.export, Served.import_))
