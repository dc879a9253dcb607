"""State files in a folder: put whole or not at all, deleted for good, listed by pages, and never in a folder that is not the job's."""
import errno
import itertools
import os
import unittest
from unittest import mock

from storages import InFolder, OfAnyStorage
from relkvanu.storage import Exists, Folder, NotThere, StorageError, bucket_and_prefix


# What a sync may say, but for EINVAL.
SYNC_ERRORS = (errno.EIO, errno.ENOSPC, errno.EDQUOT, errno.EROFS, errno.EPERM, errno.EACCES, errno.EBADF, errno.EAGAIN, errno.ENOSYS,
               errno.EOPNOTSUPP, errno.ENODEV, errno.ESTALE)


def failing_syncs(end, error):
    """The sync of a file or folder whose path ends so fails with this errno."""
    real = os.fsync

    def fails(fd):
        if os.readlink(f"/proc/self/fd/{fd}").endswith(end):
            raise OSError(error, os.strerror(error))
        real(fd)

    return mock.patch("os.fsync", fails)


class WithStorage(InFolder):
    def opened(self, job="orders", is_new=False, **words):
        folder = Folder(self.path, job, is_new, **words)
        self.addCleanup(folder.close)
        return folder


class AddressesOfBuckets(unittest.TestCase):
    def test_their_parts(self):
        self.assertEqual(bucket_and_prefix("s3://b/orders"), ("b", "orders/"))
        self.assertEqual(bucket_and_prefix("s3://b/of/orders/"), ("b", "of/orders/"))
        self.assertEqual(bucket_and_prefix("s3://b"), ("b", ""))

    def test_no_part_is_left_out(self):
        for url in ("s3://b/orders#eu/", "s3://b/orders?eu", "s3://b/orders#"):
            with self.assertRaisesRegex(ValueError, "no # and no"):
                bucket_and_prefix(url)


class Opening(WithStorage, OfAnyStorage):
    def test_a_missing_folder_is_refused(self):
        self.path.rmdir()
        for is_new in (False, True):
            self.assertRaises(NotThere, self.opened, is_new=is_new)

    def test_what_is_put_in_part(self):
        """That of a marker is of a new job that was killed, and that of a file was of a job."""
        self.plant(".relkvanu-storage.part", b"rel")
        self.plant("3.part")
        self.assertRaises(StorageError, self.opened, is_new=True)
        self.take_away("3.part")
        self.opened(is_new=True)

    def test_a_symbolic_link_is_no_marker(self):
        elsewhere = self.path.parent / "marker"
        elsewhere.write_bytes(b"relkvanu: state files of the job orders\n")
        (self.path / ".relkvanu-storage").symlink_to(elsewhere)
        with self.assertRaises(StorageError) as told:
            self.opened()
        self.assertEqual(told.exception.errno, errno.ELOOP)


class Putting(WithStorage):
    def setUp(self):
        super().setUp()
        self.folder = self.opened(is_new=True)

    def test_file_and_folder_are_synced_before_it_returns(self):
        done = []
        with mock.patch("os.fsync", lambda fd: done.append(os.readlink(f"/proc/self/fd/{fd}"))), \
                mock.patch("os.rename", side_effect=lambda *of, **words: done.append("rename")):
            self.folder.put(7, b"state")
        self.assertEqual(done, [f"{self.path}/7.part", "rename", str(self.path)])

    def test_a_part_of_another_keeps_the_number(self):
        (self.path / "7.part").write_bytes(b"fir")
        self.assertRaises(Exists, self.folder.put, 7, b"second")
        self.assertEqual(self.names(), ["7.part"], "it is that of a task that may still write")

    def test_each_failure_leaves_no_file(self):
        for call in ("write", "fsync", "stat", "rename"):
            with mock.patch(f"os.{call}", side_effect=OSError(errno.EIO, "planted")):
                with self.assertRaises(StorageError) as told:
                    self.folder.put(7, b"state")
            self.assertEqual((told.exception.errno, self.names()), (errno.EIO, []), call)
        self.folder.put(7, b"state")

    def test_a_file_or_folder_that_is_not_synced_leaves_no_file(self):
        for end, error in (("/7.part", errno.EINVAL), *itertools.product(("/7.part", f"/{self.path.name}"), SYNC_ERRORS)):
            with failing_syncs(end, error), self.assertRaises(StorageError) as told:
                self.folder.put(7, b"state")
            self.assertEqual((told.exception.errno, self.names()), (error, []), end)

    def test_a_file_system_that_syncs_no_folder(self):
        with failing_syncs(f"/{self.path.name}", errno.EINVAL):
            self.folder.put(7, b"state")
            self.assertEqual((self.folder.get(7), self.folder.delete([7])), (b"state", {}))

    def test_a_short_write_goes_on(self):
        real = os.write
        with mock.patch("os.write", lambda to, data: real(to, bytes(data[:3]))):
            self.folder.put(7, b"0123456789")
        self.assertEqual(self.folder.get(7), b"0123456789")

    def test_a_link_is_not_followed(self):
        target = self.path.parent / "target"
        (self.path / "7.part").symlink_to(target)
        self.assertRaises(Exists, self.folder.put, 7, b"state")
        (self.path / "8").symlink_to(target)
        self.assertRaises(Exists, self.folder.put, 8, b"state")
        self.assertRaises(StorageError, self.folder.get, 8)
        self.assertFalse(target.exists())

    def test_nothing_is_put_without_the_marker(self):
        (self.path / ".relkvanu-storage").unlink()
        self.assertRaises(NotThere, self.folder.put, 7, b"state")
        self.assertEqual(self.names(), [])


class Deleting(WithStorage):
    def setUp(self):
        super().setUp()
        self.folder = self.opened(is_new=True)
        for file in range(1, 6):
            self.folder.put(file, b"")

    def test_present_missing_and_parts(self):
        (self.path / "4.part").write_bytes(b"")
        (self.path / "9.part").write_bytes(b"")
        self.assertEqual(self.folder.delete([1, 4, 9, 77]), {})
        self.assertEqual(self.names(), ["2", "3", "5"])

    def test_a_marker_that_goes_during_deletions(self):
        """It may be the folder of another storage, so no file counts as deleted."""
        unlink, marker = os.unlink, self.path / self.folder.marker.name

        def unlink_and_move(name, **words):
            unlink(name, **words)
            if marker.exists():
                marker.rename(self.path / "away")

        with mock.patch("os.unlink", unlink_and_move):
            self.assertEqual(sorted(self.folder.delete([1, 2])), [1, 2])

    def test_in_a_folder_that_was_moved_away(self):
        """A path would lead to the other folder, and all files would count as deleted."""
        self.path.rename(self.path.parent / "away")
        self.path.mkdir()
        self.assertEqual(self.folder.delete([1, 2]), {})
        self.assertFalse((self.path.parent / "away/1").exists())

    def test_one_that_fails_is_told_and_the_others_go(self):
        (self.path / "3").unlink()
        (self.path / "3").mkdir()
        failed = self.folder.delete([2, 3, 4])
        self.assertEqual(list(failed), [3])
        self.assertEqual(self.names(), ["1", "3", "5"])

    def test_a_folder_that_is_not_synced_has_deleted_nothing(self):
        for error in SYNC_ERRORS:
            with failing_syncs(f"/{self.path.name}", error):
                self.assertEqual(set(self.folder.delete([1, 77])), {1, 77}, error)

    def test_a_link_is_deleted_and_its_target_stays(self):
        target = self.path.parent / "target"
        target.write_bytes(b"")
        (self.path / "8").symlink_to(target)
        self.assertEqual(self.folder.delete([8]), {})
        self.assertTrue(target.exists())
        self.assertNotIn("8", self.names())


class Listing(WithStorage):
    def setUp(self):
        super().setUp()
        self.folder = self.opened(is_new=True, suffix=".sst")

    def test_two_listings_at_once(self):
        for file in range(25):
            self.folder.put(file, b"")
        first = self.folder.pages(10)
        pages = [next(first)]
        self.assertEqual(sorted(sum(self.folder.pages(10), [])), list(range(25)))
        self.assertEqual(sorted(sum([*pages, *first], [])), list(range(25)))

    def test_only_files_and_their_parts(self):
        for name in ("1.sst", "2.sst.part"):
            self.plant(name)
        (self.path / "8.sst").mkdir()
        (self.path / "9.sst").symlink_to("1.sst")
        self.assertEqual(sorted(sum(self.folder.pages(), [])), [1, 2])

    def test_a_listing_that_fails_says_so(self):
        with mock.patch("os.scandir", side_effect=OSError(errno.EIO, "planted")), self.assertRaises(StorageError):
            list(self.folder.pages())
