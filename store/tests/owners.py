#!/usr/bin/env python3
"""owners.py: root recovers and imports jobs in the folder of another user.

- What it makes is that user's: the file, its lock, the marker, the manifests, and what is copied. An import into an empty folder gives all to the user of that one.
- A link that the user has put where root writes is not followed, and the file to which it leads stays as it is. So is it with a second name of that file.
- Where root may not give to that user, as in a namespace of users, what it makes stays root's, and the command does its work.

It needs root."""
import os
import pathlib
import shutil
import subprocess
import tempfile

from recoveries import COMMAND, Recoveries, base_of, lose

USER, GROUP, OTHER = 12345, 12346, 12347
ROOTS = b"root's"


def may_give(at):
    """Whether this root has these users: a namespace of users may have root alone."""
    it = at / "given"
    it.touch()
    try:
        os.chown(it, USER, GROUP)
    except OSError:
        return False
    return True


def all_in(folder):
    return [folder, *folder.rglob("*")]


def users(it, base, name="job"):
    """A copy of a job whose file is lost, in which all is the user's."""
    folder = it.work / name
    shutil.rmtree(folder, ignore_errors=True)
    shutil.copytree(base, folder)
    for path in all_in(folder):
        os.chown(path, USER, GROUP)
    return folder


def owners(paths):
    found = {path: path.lstat() for path in paths}
    return {path.name: (one.st_uid, one.st_gid) for path, one in found.items()}


def are_of(paths, user=USER):
    found = owners(paths)
    assert set(found.values()) == {(user, GROUP)}, {name: one for name, one in found.items() if one != (user, GROUP)}
    return len(found)


def recovered(it, base):
    """A lock that an earlier try has made, and not given, is empty. One that has something is not given away."""
    folder = users(it, base)
    for left, user in ((None, USER), (b"", USER), (b"1\n", 0)):
        if left is not None:
            (folder / "job.db.lock").write_bytes(left)
            os.chown(folder / "job.db.lock", 0, 0)
        told = it.recovers(folder)
        assert told.returncode == 0, told.stdout
        assert (folder / "job.db.lock").stat().st_uid == user, left
        count = are_of([path for path in all_in(folder) if path.name != "job.db.lock"])
        assert (folder / "job.db").stat().st_mode & 0o777 == 0o600
        lose(folder)
    return count


def imported(it, base):
    """Links have the user that they had. So an import on another file system shows what is copied: FROM is root's."""
    folder = users(it, base)
    other = next(at for at in ("/dev/shm", "/tmp", "/var/tmp", "/") if os.stat(at).st_dev != it.work.stat().st_dev)
    with tempfile.TemporaryDirectory(dir=other) as elsewhere:
        out = pathlib.Path(elsewhere) / "out"
        assert it.runs("export", base / "state", out).returncode == 0
        assert owners([out])["out"] == (0, 0)
        told = it.runs("import", out, folder / "new.db", folder / "new")
        assert told.returncode == 0, told.stdout
        count = are_of(all_in(folder))
        (folder / "empty").mkdir()
        os.chown(folder / "empty", OTHER, GROUP)
        told = it.runs("import", out, folder / "other.db", folder / "empty")
        assert told.returncode == 0 and are_of([folder / "other.db"]) == 1, told.stdout
        return count + are_of(all_in(folder / "empty"), OTHER)


def links(it, base):
    """In the place of each name that root writes."""
    target, refused = it.work / "roots", 0
    for name in ("job.db", ".job.db.relkvanu-new", ".job.db.relkvanu-new.lock", ".job.db.relkvanu-new-shm", ".job.db.relkvanu-new-wal", "job.db.lock", "job.db-shm",
                 "state/.relkvanu-job.new"):
        for make, lacks in ((os.symlink, False), (os.link, False), (os.symlink, True)):
            folder = users(it, base)
            target.unlink(missing_ok=True)
            if not lacks:
                target.write_bytes(b"" if name == "job.db" else ROOTS)
            make(target, folder / name)
            os.chown(folder / name, USER if make is os.symlink else 0, GROUP if make is os.symlink else 0, follow_symlinks=False)
            before = None if lacks else target.read_bytes()
            told = it.recovers(folder)
            found = target.read_bytes() if target.exists() else None
            assert found == before, (name, make.__name__, told.stdout, found)
            assert lacks or target.stat().st_uid == 0, (name, make.__name__)
            refused += told.returncode != 0
    return refused


def in_a_namespace(it, base):
    """There root can't give to the user, who lets everybody write."""
    folder = users(it, base)
    for path in all_in(folder):
        path.chmod(0o777 if path.is_dir() else 0o666)
    it.work.chmod(0o755)
    words = ["unshare", "--user", "--map-root-user", *COMMAND, "recover", folder / "job.db", folder / "state"]
    told = subprocess.run(words, stdout=subprocess.PIPE, stderr=subprocess.STDOUT, text=True)
    if "unshare" in told.stdout:
        return "no namespace of users"
    assert told.returncode == 0 and owners([folder / "job.db"])["job.db"] == (0, 0), told.stdout
    return "a namespace of users"


def main():
    with tempfile.TemporaryDirectory() as name:
        it = Recoveries("", [], pathlib.Path(name))
        if os.geteuid() != 0 or not may_give(it.work):
            print("skipped: users: what root makes in the folder of another user")
            return
        base, _ = base_of(it)
        made, copied, refused = recovered(it, base), imported(it, base), links(it, base)
        print(f"store: {made} files of a recovery and {copied} of imports are the user's, links led nowhere ({refused} refusals), and {in_a_namespace(it, base)}")


if __name__ == "__main__":
    main()
