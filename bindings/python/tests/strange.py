"""Libraries that do not fit the package (bindings/build_odd_libraries): RELKVANU_LIB names one of another version, and UNKNOWN one with answers that no
header has."""
import os
import pathlib
import re
import subprocess
import sys
import unittest

HEADER = pathlib.Path(__file__).resolve().parents[1] / "relkvanu/header.py"
TOLD = """
import relkvanu
from relkvanu import Aligner, Coordinator, Settings, lines

with Coordinator(Settings(interval=1000), [1], 0) as job:
    for call in (
        lambda: job.tick(0), lambda: job.ack(0, 1, 0, 0, []), lambda: job.decline(0, 1, 0, 0), lambda: job.restore(0), lambda: job.line(b""),
        lambda: job.line(b"x"), lambda: lines.line_says(b""), job.mode, job.choice, lambda: job.standing(1), lambda: job.live(0),
        job.term, lambda: job.reserve(1, 1), lambda: job.savepoint(0), lambda: job.dispose(1), lambda: job.cancel(0), lambda: job.take(0),
        lambda: job.deleted(1), lambda: job.undeleted(1), lambda: job.count(1), job.save, lambda: Aligner(1).element(0),
    ):
        try:
            print(call())
        except relkvanu.Error as error:
            print(type(error).__name__, *error.args)
"""
# What these calls print, by their places, beside "Unknown 0 999".
OTHERS = {1: "Refused Unknown 999 None", 2: "Unknown 999 7", 3: "Unknown 4 999", 5: "Unknown 6 999", 11: "Unknown 7 999", 20: "OutOfMemory"}


def ran(program, **more):
    return subprocess.run([sys.executable, "-c", program], env={**os.environ, **more}, capture_output=True, text=True, check=False)


class Strange(unittest.TestCase):
    def test_a_library_of_another_version_is_refused_at_import(self):
        told = ran("from relkvanu import Coordinator")
        self.assertEqual(told.returncode, 1)
        own = re.findall(r'^VERSION = "(.*)"$', HEADER.read_text(encoding="utf-8"), re.M)[0]
        wanted = rf"^ImportError: the package relkvanu {re.escape(own)} can't use .*, which is version 0\.99\.0 "
        self.assertRegex(told.stderr.strip().split("\n")[-1], wanted)

    def test_an_answer_that_nobody_knows_is_an_exception_of_the_package(self):
        told = ran(TOLD, RELKVANU_LIB=os.environ["UNKNOWN"])
        wanted = [OTHERS.get(place, "Unknown 0 999") for place in range(22)]
        self.assertEqual((told.stdout.splitlines(), told.stderr, told.returncode), (wanted, "", 0))
