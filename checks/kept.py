"""What bindings/build_archive and tests/try_wrong_bodies keep of earlier runs on this machine, so that the same files are not judged twice. `rt ci` keeps its
proofs so, in the folder rattle-kept beside the toolchain's. These are in rattle-kept-relkvanu there.

An entry's name is a checksum of all that it was made from, so it is never out of date. One that is not whole, or can't be read, counts
for nothing. It is written apart and then renamed. Without a folder that is the user's own nothing is kept."""
import contextlib
import hashlib
import os
import shutil
import stat
import tempfile

TOP = os.path.dirname(os.path.dirname(os.path.realpath(__file__)))
# The toolchain's folder: `rt` is in its folder bin.
KIT = os.path.dirname(os.path.dirname(os.path.realpath(shutil.which("rt") or "bin/rt")))
PLACE = os.environ.get("RELKVANU_KEPT", f"{os.path.dirname(KIT)}/rattle-kept-relkvanu")
# How many entries stay: some runs' verdicts and archives of a few MB. The longest unused go first.
MOST = 600
# What a check of a crate reads of its folder, and of the toolchain.
PARTS_OF_CRATE = ("src", "specs", "proofs", "c")
PARTS_OF_KIT = ("bin", "toolchain", "logic_built", "c", "rattle/logic", "rattle/antt")


def sum_of(*values):
    """A checksum of texts, bytes and numbers."""
    return hashlib.sha256(repr(values).encode()).hexdigest()


def bytes_of(path):
    with open(path, "rb") as file:
        return file.read()


def files_below(folder):
    return sorted(f"{at}/{name}" for at, _, names in os.walk(folder) for name in names)


def kit_sum():
    """A checksum of what names the toolchain, and of the size and the time of each file that a check reads of it."""
    paths = [path for part in PARTS_OF_KIT for path in files_below(f"{KIT}/{part}") if "/__pycache__/" not in path]
    paths += [path for path in files_below(f"{KIT}/rlibs") if path.endswith("/format")]
    found = [(path, os.lstat(path)) for path in paths]
    return sum_of(bytes_of(f"{KIT}/KIT-ID"), [(path, it.st_mode, it.st_size, it.st_mtime_ns) for path, it in found])


def crate_sum(crate, top=TOP):
    """A checksum of the files of a crate that a check reads, by their names, and of HANDLES."""
    paths = [path for part in PARTS_OF_CRATE for path in files_below(f"{top}/crates/{crate}/{part}")]
    handles = bytes_of(f"{top}/HANDLES") if os.path.isfile(f"{top}/HANDLES") else b""
    return sum_of(crate, handles, [(os.path.relpath(path, top), bytes_of(path)) for path in paths])


def library_sum(crate, top=TOP):
    """A checksum of a library that `rt ci` left: its format has the sum of its files."""
    return sum_of(crate, bytes_of(f"{top}/crates/{crate}/out/rlib/{crate}.rlib/format"))


def place():
    """The folder, if it is this user's alone and can be written."""
    with contextlib.suppress(OSError):
        os.makedirs(PLACE, 0o700, exist_ok=True)
        found = os.lstat(PLACE)
        if stat.S_ISDIR(found.st_mode) and found.st_uid == os.geteuid() and not found.st_mode & 0o022 and os.access(PLACE, os.W_OK):
            return PLACE
    return None


def given(name):
    """The bytes that an earlier run kept under this name, or nothing."""
    at = place()
    with contextlib.suppress(OSError):
        told, _, data = bytes_of(f"{at}/{name}").partition(b"\n") if at else (b"", b"", b"")
        if told.decode(errors="replace") == sum_of(name, data):
            os.utime(f"{at}/{name}")
            return data
    return None


def keep(name, data):
    """Keeps these bytes, if that is possible."""
    at = place()
    if not at:
        return
    with contextlib.suppress(OSError), tempfile.TemporaryDirectory(prefix="new-", dir=at) as room:
        with open(f"{room}/it", "wb") as file:
            file.write(sum_of(name, data).encode() + b"\n" + data)
        os.replace(f"{room}/it", f"{at}/{name}")
    shrink(at)


def shrink(at):
    """Removes the longest unused entries above MOST."""
    with contextlib.suppress(OSError):
        entries = sorted((it.stat().st_mtime, it.path) for it in os.scandir(at) if it.is_file())
        for _, path in entries[:-MOST]:
            os.remove(path)
