"""What the tests of the durable coordinator begin with: a folder, and waits for what has to come."""
import os
import pathlib
import tempfile
import time
import unittest

LONGEST = float(os.environ.get("RELKVANU_LONGEST", "2400")) / 4  # seconds that a busy machine may take for a step


def until(ask):
    """Waits for an answer that is true, and returns it."""
    end = time.monotonic() + LONGEST
    while not (told := ask()):
        assert time.monotonic() < end, "what is waited for does not come"
        time.sleep(0.001)
    return told


class InFolder(unittest.TestCase):
    """A folder for a job, and in it that of its state files."""

    def setUp(self):
        self.folder = pathlib.Path(self.enterContext(tempfile.TemporaryDirectory()))
        (self.folder / "state").mkdir()
