"""What tests over a folder of state files begin with, and what each storage does: a folder (test_storage.py) and a bucket (s3.py)."""
import errno
import pathlib
import tempfile
import unittest

from relkvanu.storage import Exists, NotThere, OtherJob, StorageError


class InFolder(unittest.TestCase):
    """An empty folder, which goes with the test."""

    def setUp(self):
        self.path = pathlib.Path(self.enterContext(tempfile.TemporaryDirectory())) / "state"
        self.path.mkdir()

    def names(self):
        """Its files, but for markers."""
        return sorted(path.name for path in self.path.iterdir() if ".relkvanu" not in path.name)

    def plant(self, name, contents=b""):
        (self.path / name).write_bytes(contents)

    def take_away(self, name):
        (self.path / name).unlink()


class OfAnyStorage:
    """Of a test that has opened(), names(), and plant() and take_away() for a file that is made or removed by hand."""

    strangers = ("x.sst", "01.sst", "1.sst.old", "3", "-6.sst", "7.SST", "184467440737095516150.sst")  # beside files with this suffix

    def test_whose_it_is(self):
        for _ in range(2):  # the first one makes nothing
            self.assertRaises(NotThere, self.opened)
        for is_new in (True, True, False):  # a new job that was killed begins again
            self.opened(is_new=is_new)
        for is_new in (True, False):
            self.assertRaises(OtherJob, self.opened, "payments", is_new)

    def test_a_new_job_needs_a_place_without_state_files(self):
        """Also beside those of a job whose log is missing."""
        self.plant("7")
        self.assertRaises(StorageError, self.opened, is_new=True)
        self.take_away("7")
        self.plant("notes.txt")
        self.opened(is_new=True).put(1, b"state")
        with self.assertRaises(StorageError) as told:
            self.opened(is_new=True)
        self.assertEqual((told.exception.errno, self.names()), (errno.ENOTEMPTY, ["1", "notes.txt"]))

    def test_two_jobs_in_one_place_have_two_prefixes(self):
        one, other = self.opened("a", True, prefix="a-"), self.opened("b", True, prefix="b-", suffix=".bin")
        one.put(1, b"one")
        other.put(1, b"other")
        self.assertEqual((self.names(), one.get(1), other.get(1)), (["a-1", "b-1.bin"], b"one", b"other"))
        self.assertEqual((one.delete([1]), list(other.pages())), ({}, [[1]]))

    def test_a_file_has_its_contents(self):
        storage = self.opened(is_new=True)
        for file, contents in ((0, b""), (7, b"state"), (18446744073709551615, bytes(range(256)) * 5000)):
            storage.put(file, contents)
            self.assertEqual(storage.get(file), contents)
        self.assertRaises(Exists, storage.put, 7, b"second")
        self.assertEqual((storage.get(7), self.names()), (b"state", ["0", "18446744073709551615", "7"]))
        self.assertRaises(StorageError, storage.get, 1)

    def test_pages_and_deletions(self):
        storage = self.opened(is_new=True, suffix=".sst")
        for file in range(25):
            storage.put(file, b"")
        for name in self.strangers:
            self.plant(name)
        pages = list(storage.pages(10))
        self.assertEqual((sorted(sum(pages, [])), max(map(len, pages)) <= 10), (list(range(25)), True))
        self.assertEqual(storage.delete([1, 3, 77, *range(1000, 2500)]), {})  # present and missing
        self.assertEqual(sorted(sum(storage.pages(), [])), [0, 2, *range(4, 25)])
        self.assertLessEqual(set(self.strangers), set(self.names()))

    def test_what_is_not_the_job_s_stays(self):
        """Another job has got the place since this one opened it, or the marker is gone. A sweep that is under way asks for all of its pages."""
        storage = self.opened(is_new=True)
        storage.put(1, b"")
        self.plant(".relkvanu-storage", b"relkvanu: state files of the job payments\n")
        self.assertEqual((set(storage.delete([1, 77])), self.names()), ({1, 77}, ["1"]))
        self.take_away(".relkvanu-storage")
        self.assertEqual((set(storage.delete([1, 77])), self.names()), ({1, 77}, ["1"]))
