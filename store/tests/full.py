#!/usr/bin/env python3
"""full.py SHIM COMMAND..: runs the engine `COMMAND FOLDER LAST` while one write of a state file finds the disk full. The engine restores its job and goes
on, at each of some places, and leaves no file that the coordinator does not know."""
import os
import pathlib
import subprocess
import sys
import tempfile

from engines import LONGEST, NEW, known, listed

LAST = 20


def main(shim, *command):
    for place in (9, 14, 22):  # the first record is complete then
        with tempfile.TemporaryDirectory() as name:
            folder = pathlib.Path(name)
            (folder / "state").mkdir()
            told = {"STORE_IN": name, "STORE_FAULT": "full", "STORE_ON": "/state/", "STORE_AT": str(place), "STORE_FOR": "1"}
            ran = subprocess.run([*command, name, str(LAST), NEW], env={**os.environ, "LD_PRELOAD": shim, **told}, stderr=subprocess.PIPE, text=True, timeout=LONGEST)
            assert ran.returncode == 0, ran.stderr
            assert "is complete" in ran.stderr, "no write failed: the job was not restored, or had nothing to begin from"
            used, waiting, taken, last = known(folder)
            assert not taken and listed(folder) == used | waiting, (listed(folder), used, waiting, taken)
            assert last >= LAST and len(used) == 3, (last, used)
    print("3 faults")


if __name__ == "__main__":
    main(*sys.argv[1:])
