"""What the package raises: one base, copies that are whole, and a library that is missing."""
import copy
import os
import pickle
import subprocess
import sys
import tempfile
import unittest

import relkvanu
from relkvanu import (
    BadArgument, BadLine, BadStep, Closed, Coordinator, Error, Fenced, OutOfMemory, OutOfRange, Refused, Settings, TooShort, Triggered, Unknown, header,
)

ALL = [
    (Refused("NotRunning", None), "NotRunning", ("name", "file")),
    (Refused("NameTaken", 7), "NameTaken 7", ("name", "file")),
    (Fenced("OldTerm", None), "OldTerm", ("name", "file")),
    (Fenced("Spent", 7), "Spent 7", ("name", "file")),
    (TooShort(5), "the line would fetch 5 files", ("places",)),
    (BadArgument("BadShape"), "BadShape", ("name",)),
    (BadLine("Missing"), "Missing", ("name",)),
    (BadStep("HeldInput"), "HeldInput", ("name",)),
    (OutOfRange("8 has more than 3 bits"), "8 has more than 3 bits", ()),
    (OutOfMemory(), "", ()),
    (Closed(), "", ()),
    (Unknown(0, 999), f"version {header.VERSION} of the library gave an answer that the package does not know: code 0, what 999", ("code", "what")),
]


class Exceptions(unittest.TestCase):
    def test_a_copy_says_the_same(self):
        for raised, text, fields in ALL:
            copies = [copy.copy(raised), copy.deepcopy(raised), *(pickle.loads(pickle.dumps(raised, protocol)) for protocol in range(6))]
            for again in copies:
                self.assertIs(type(again), type(raised))
                self.assertEqual((str(again), str(raised)), (text, text))
                self.assertEqual([getattr(again, it) for it in fields], [getattr(raised, it) for it in fields])

    def test_all_are_an_error(self):
        exceptions = [it for it in (getattr(relkvanu, name) for name in dir(relkvanu)) if isinstance(it, type) and issubclass(it, BaseException)]
        self.assertEqual(set(exceptions), {type(it) for it, _, _ in ALL} | {Error})
        self.assertTrue(all(issubclass(it, Error) for it in exceptions))
        with Coordinator(Settings(interval=1000), [1], 0) as job:
            for call in (
                lambda: job.tick(1 << 64), lambda: job.restore(0, 0), lambda: job.restore(0, None, []), lambda: job.line(b"tick"),
                lambda: job.ack(0, 1, 0, 0, []), lambda: relkvanu.lines.restore_line(0, 0), lambda: Coordinator(Settings(interval=1), [1], 0),
            ):
                self.assertRaises(Error, call)

    def test_a_coordinator_is_not_copied(self):
        with Coordinator(Settings(interval=1000), [1], 0) as job:
            for make in (copy.copy, copy.deepcopy, pickle.dumps):
                self.assertRaisesRegex(TypeError, "open_saved", make, job)
            self.assertEqual(job.tick(1000), Triggered(expired=0, id=1))

    def test_a_missing_library_is_told_at_import(self):
        for program in ("from relkvanu import Coordinator", "from relkvanu import *", "import relkvanu; relkvanu.Outbox", "import relkvanu.lines"):
            told = self.without_library(program)
            self.assertEqual(told.returncode, 1)
            self.assertRegex(told.stderr.strip().split("\n")[-1], "^ImportError: the library of Relkvanu .*librelkvanu.so.0.*RELKVANU_LIB")
            self.assertNotIn("Exception ignored", told.stderr)

    def test_a_task_that_puts_files_needs_no_library(self):
        told = self.without_library("import tempfile; from relkvanu import Error, storage\n"
                                    "with tempfile.TemporaryDirectory() as folder, storage.Folder(folder, 'orders', is_new=True) as files:\n"
                                    "    files.put(7, b'state'); print(files.get(7), issubclass(storage.StorageError, Error))")
        self.assertEqual((told.stdout, told.stderr, told.returncode), ("b'state' True\n", "", 0))

    def test_the_names_of_the_package(self):
        self.assertEqual([it for it in relkvanu.__all__ if not hasattr(relkvanu, it)], [])
        self.assertFalse(hasattr(relkvanu, "nothing"))

    def without_library(self, program):
        with tempfile.TemporaryDirectory() as empty:
            return subprocess.run(
                [sys.executable, "-c", program], env={**os.environ, "RELKVANU_LIB": empty}, stdout=subprocess.PIPE, stderr=subprocess.PIPE, text=True)
