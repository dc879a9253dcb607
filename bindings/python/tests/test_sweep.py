"""The sweeper over a folder: only garbage goes, at any time, and beside a job that runs."""
import threading
from concurrent.futures import ThreadPoolExecutor
from unittest import mock

from relkvanu import Coordinator, Error, Fenced, Settings
from relkvanu.storage import Folder, NotThere
from relkvanu.sweep import pages, sweep
from storages import InFolder
from jobs_with_files import SweepsAnyStorage, run_beside_sweepers


class Sweeping(InFolder, SweepsAnyStorage):
    def setUp(self):
        super().setUp()
        self.files = self.enterContext(Folder(self.path, "orders", is_new=True))
        self.begin()

    def take_place_away(self):
        self.take_away(".relkvanu-storage")

    def test_a_file_that_was_put_in_part(self):
        (self.path / "8").rename(self.path / "8.part")
        self.assertEqual(list(pages(self.files, self.job.garbage))[0].garbage, {4: 4, 8: 8})
        self.assertEqual(sweep(self.files, self.job.garbage, delete=True).deleted, 2)
        self.assertEqual(self.left(), [5, 6, 7, 9])

    def test_pages(self):
        self.job.reserve(1, 95)  # 9 to 103, in use and held
        for file in range(1000, 1040):
            (self.path / str(file)).write_bytes(b"")
        (self.path / "0").write_bytes(b"")
        asked = []

        def ask(files):
            asked.append(len(files))
            return self.job.garbage(files)

        found = list(pages(self.files, ask, delete=True, most=10))
        self.assertEqual((sum(asked), max(asked)), (6 + 40 + 1, 10))
        self.assertEqual(sum(len(page.unissued) for page in found), 40)
        self.assertEqual(self.names(), sorted(map(str, [5, 6, 7, 9, *range(1000, 1040)])))

    def test_what_can_not_be_deleted_is_told(self):
        with mock.patch("os.unlink", side_effect=PermissionError(1, "planted")):
            swept = sweep(self.files, self.job.garbage, delete=True)
        self.assertEqual((swept.garbage, swept.deleted, sorted(swept.failed)), (2, 0, [4, 8]))
        self.assertIn("planted", swept.failed[4])

    def test_nothing_without_the_marker(self):
        self.take_place_away()
        with self.assertRaises(NotThere):
            sweep(self.files, lambda files: self.fail("it asks"), delete=True)
        self.assertEqual(len(self.names()), 6)

    def test_a_coordinator_without_names_is_refused(self):
        with Coordinator(Settings(interval=10), [1], 0) as plain, self.assertRaises(Fenced) as told:
            sweep(self.files, plain.garbage, delete=True)
        self.assertEqual((told.exception.name, len(self.names())), ("NoNames", 6))

    def test_an_answer_to_another_question(self):
        with self.assertRaises(Error):
            sweep(self.files, lambda files: self.job.garbage([4, 2]), delete=True)
        self.assertEqual(len(self.names()), 6)

    def test_two_at_once(self):
        """Both have their answers before either deletes."""
        both = threading.Barrier(2)

        def ask(files):
            told = self.job.garbage(files)
            both.wait(300)
            return told

        with ThreadPoolExecutor(2) as sweepers:
            swept = sweepers.map(lambda _: sweep(self.files, ask, delete=True), range(2))
        self.assertEqual([(it.deleted, it.failed) for it in swept], [(2, {}), (2, {})])
        self.assertEqual(self.left(), [5, 6, 7, 9])


class BesideAJob(InFolder):
    def test_no_file_of_a_record_is_ever_missing(self):
        with Folder(self.path, "orders", is_new=True) as files, Coordinator.open_fenced(Settings(interval=10), [1], 0, 1, 1) as job:
            self.assertEqual(self.names(), [])
            last = run_beside_sweepers(self, job, files, 300)
            self.assertEqual(self.names(), sorted(map(str, last)))
