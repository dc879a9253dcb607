"""python3 -m relkvanu VERB ..: the verbs of the program `relkvanu` for what lies on a disk or in a bucket. It runs this."""
import argparse
import importlib
import os
import sys
from typing import Any, Callable, Dict, List, NamedTuple, Optional, Tuple

from relkvanu.errors import Error, Stop
from relkvanu.service_manifests import MARK
from relkvanu.storage import NotThere, OtherJob

LOCAL = "http://127.0.0.1:7780"
OF_JOB = "{job}"  # in the words of a place: the name of the job
FAILED, LOOK_FIRST = 1, 78  # exit statuses

STATUSES = """exit status:
  0   it is done
  1   it is not, and nothing has changed; or the service or the storage did not answer: give the same command again
  2   a word is wrong
  78  somebody has to look first: the place is not that of the job, or a discarder works in it

Killed at any moment, a command is given again, with the same words. A place is a folder, or s3://BUCKET/PREFIX."""


class Word(NamedTuple):
    """One that stands for itself."""

    name: str
    metavar: str
    help: str
    is_needed: bool = True


class Verb(NamedTuple):
    name: str
    help: str
    words: Tuple[Word, ...]
    examples: str


JOB = Word("job", "JOB", "a job of the service, or the file of a durable job")
STORAGE = Word("storage", "STORAGE", "the storage of a durable job", False)
VERBS = (
    Verb("keep", "writes the manifests of a job's complete records beside its files, of which `recover` makes the job again",
         (Word("job", "JOB", "a job of the service"),), "relkvanu keep orders --folder /srv/orders --prefix state- --suffix .bin"),
    Verb("records", "lists the records that have manifests, and which one a recovery begins from, without a service",
         (Word("job", "JOB", "a job of the service, or the storage of a durable job"),),
         "relkvanu records state\n  relkvanu records orders --folder /srv/orders --prefix state- --suffix .bin"),
    Verb("recover", "makes a job again that was lost, of the manifests beside its files", (JOB._replace(is_needed=False), STORAGE),
         "relkvanu recover job.db state\n  relkvanu recover orders --folder /srv/orders --prefix state- --suffix .bin\n"
         "  relkvanu recover --all --folder '/srv/{job}' --prefix state- --suffix .bin"),
    Verb("export", "carries a complete record out of a job, which may run",
         (Word("job", "JOB", "a job of the service, or the storage of a durable job", False), Word("to", "TO", "a place that is not there yet, or is empty", False)),
         "relkvanu export state /srv/export\n  relkvanu export orders /srv/export --folder /srv/orders --prefix state- --suffix .bin"),
    Verb("import", "begins another job from a record of an export, or of the storage of a durable job",
         (Word("source", "FROM", "what an export has made, or the storage of a durable job", False), JOB._replace(is_needed=False), STORAGE),
         "relkvanu import /srv/export job.db state\n  relkvanu import --claim /srv/export orders-2 --folder /srv/orders-2 --prefix state- --suffix .bin"),
    Verb("put-back", "puts a backup in the place of a durable job, whose file is set aside",
         (Word("backup", "BACKUP", "what a backup of the job has made, and stays"), Word("job", "JOB", "the file of the job"),
          Word("storage", "STORAGE", "its storage, which is a folder")), "relkvanu put-back backup.db job.db state"),
)


class Help(argparse.RawDescriptionHelpFormatter):
    """As help2man reads it."""

    def add_usage(self, usage: Any, actions: Any, groups: Any, prefix: Optional[str] = None) -> None:
        super().add_usage(usage, actions, groups, prefix or "Usage: ")


def record(text: str) -> int:
    number = int(text)
    if number < 1:
        raise ValueError
    return number


def add_files(it: argparse.ArgumentParser) -> None:
    group = it.add_argument_group("the files of a job of the service")
    files = group.add_mutually_exclusive_group()
    files.add_argument("--folder", metavar="DIR", help="the folder that they are in")
    files.add_argument("--bucket", metavar="NAME", help="the bucket that they are in")
    group.add_argument("--prefix", metavar="TEXT", default="", help="the part of a file's name before its number; in a bucket of its key")
    group.add_argument("--suffix", metavar="TEXT", default="", help="the part of a file's name after its number")
    it.add_argument("--endpoint", metavar="URL", default=os.environ.get("AWS_ENDPOINT_URL"), help="another S3 server than that of AWS, by default AWS_ENDPOINT_URL")
    it.add_argument("--region", metavar="NAME", help="the region of the S3 server")


def add_service(it: argparse.ArgumentParser) -> None:
    group = it.add_argument_group("the service")
    group.add_argument("--url", metavar="URL", action="append", help=f"its address, by default RELKVANU_URL or {LOCAL}; again: its next address")
    group.add_argument("--token-file", metavar="FILE", help="a file whose first line is a write token, by default RELKVANU_TOKEN_FILE")
    group.add_argument("--ca", metavar="FILE", help="certificates that https trusts, by default the system's")
    group.add_argument("--within", metavar="SECONDS", type=int, default=60, help="for how long a request that is not answered is made again")


def add_options(it: argparse.ArgumentParser, verb: str) -> None:
    it.set_defaults(all=None, whole=False, backup=None)
    if verb in ("export", "import"):
        it.add_argument("--all", metavar="DIR", help="all jobs of the service, each in a folder of DIR; {job} in the words of a place is the job's name")
    if verb == "recover":
        it.add_argument("--all", action="store_true", default=None, help="each job whose marker is in one of the folders; {job} in the words of a place is its name")
    if verb in ("export", "import", "recover"):
        it.add_argument("--record", metavar="ID", type=record, default=0, help="another record than the last one")
    if verb == "import":
        it.add_argument("--claim", action="store_true", help="the files leave FROM, whose job is refused from then on")
    if verb == "keep":
        it.add_argument("--checksums", action="store_true", help="manifests have a checksum of each file, which is read once")
    if verb == "records":
        it.add_argument("--whole", action="store_true", help="reads the files too, and compares them with the checksums of the manifests")
        it.add_argument("--backup", metavar="FILE", help="the records of this backup of a durable job, whose files are in the storage JOB, and which one a put-back begins from")


def parser() -> argparse.ArgumentParser:
    it = argparse.ArgumentParser(prog="relkvanu")
    verbs = it.add_subparsers(dest="verb", required=True, metavar="VERB")
    for verb in VERBS:
        one = verbs.add_parser(verb.name, help=verb.help, description=f"{verb.help[0].upper()}{verb.help[1:]}.",
                               epilog=f"examples:\n  {verb.examples}\n\n{STATUSES}", formatter_class=Help, allow_abbrev=False)
        for word in verb.words:
            if word.is_needed:
                one.add_argument(word.name, metavar=word.metavar, help=word.help)
            else:
                one.add_argument(word.name, metavar=word.metavar, help=word.help, nargs="?")
        add_options(one, verb.name)
        if verb.name != "put-back":
            add_files(one)
        if verb.name not in ("put-back", "records"):
            add_service(one)
        one.set_defaults(of=one)
    return it


def is_of_service(given: argparse.Namespace) -> bool:
    return given.verb != "put-back" and (given.folder or given.bucket) is not None


def check(given: argparse.Namespace) -> None:
    """What the words say together."""
    it, is_served = given.of, is_of_service(given)
    if is_served and (given.folder is not None and "/" in given.prefix + given.suffix or os.path.basename(given.prefix).startswith(MARK)):
        it.error(f"--prefix and --suffix: a '/' would name another folder, and files that begin with {MARK} say whose place it is")
    if given.all is not None:
        if not is_served or OF_JOB not in (given.folder or given.bucket) + given.prefix:
            it.error(f"--all: the jobs have different places, so --folder, --bucket or --prefix has {OF_JOB} in it, which stands for the name of each")
        if given.verb == "recover" and (given.folder is None or given.job is not None):
            it.error("--all: it looks for markers in folders; a job in a bucket is recovered by its name")
        return
    words: Dict[str, Tuple[str, ...]] = {"export": ("job", "to"), "import": ("source", "job"), "recover": ("job",)}
    wanted = words.get(given.verb, ())
    if not is_served and given.verb in ("keep", "recover", "import"):
        wanted = (*wanted, "storage")
    if any(getattr(given, name, None) is None for name in wanted):
        it.error("a job of the service has --folder or --bucket, and one of the durable coordinator its storage")
    if is_served and getattr(given, "storage", None) is not None:
        it.error("a job of the service has --folder or --bucket alone")


def work_of(given: argparse.Namespace) -> Callable[[argparse.Namespace], None]:
    """What does the work of a verb. Its module loads the library."""
    name = {"export": "export_", "import": "import_", "put-back": "put_back"}.get(given.verb, given.verb)
    work: Callable[[argparse.Namespace], None] = getattr(importlib.import_module(f"relkvanu.{'service' if is_of_service(given) else 'job'}_commands"), name)
    return work


def main(words: Optional[List[str]] = None) -> int:
    given = parser().parse_args(words)
    check(given)
    try:
        work_of(given)(given)
        sys.stdout.flush()
    except Stop as stop:
        why, status = str(stop), stop.status
    except (NotThere, OtherJob) as error:
        why, status = str(error), LOOK_FIRST
    except (Error, ImportError, OSError, ValueError) as error:  # those of requests are OSErrors
        why, status = str(error), FAILED
    except KeyboardInterrupt:
        return 130
    else:
        return 0
    if why:
        print(f"relkvanu: {why}", file=sys.stderr)
    return status


if __name__ == "__main__":
    sys.exit(main())
