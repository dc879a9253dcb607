"""What root makes in a job's folder belongs to the user of that folder, and nothing that this user puts there is followed."""
import os
import tempfile
import unittest

from storages import InFolder
from relkvanu.manifests import part_folder
from relkvanu.places import InFolder as Place, make_file

USER, GROUP = 12345, 12346


def may_give():
    """Whether this is root, and has these users: a namespace of users may have root alone."""
    with tempfile.TemporaryFile() as file:
        try:
            os.fchown(file.fileno(), USER, GROUP)
        except OSError:
            return False
    return True


@unittest.skipUnless(may_give(), "only root gives files away")
class WhatRootMakes(InFolder):
    def setUp(self):
        super().setUp()
        os.chown(self.path, USER, GROUP)

    def owners(self, *names):
        found = [os.lstat(self.path / name) for name in names]
        return [(it.st_uid, it.st_gid) for it in found]

    def test_it_is_the_users(self):
        place = Place(self.path, at=".relkvanu.records/orders/")
        place.write(place.manifest(7), b"one")
        place.write(place.manifest(7), b"two")
        self.assertEqual(place.read(place.manifest(7)), b"two")
        names = (".relkvanu.records", ".relkvanu.records/orders", place.manifest(7))
        self.assertEqual(self.owners(*names), [(USER, GROUP)] * 3)

    def test_a_link_is_not_followed(self):
        other = self.path.parent / "other"
        other.write_bytes(b"root's")
        for make in (os.symlink, os.link):
            place = Place(self.path)
            make(other, self.path / f"name{place.new}")
            place.write("name", b"text")
            self.assertEqual((other.read_bytes(), place.read("name"), other.stat().st_uid), (b"root's", b"text", 0))
            self.assertEqual(self.owners("name"), [(USER, GROUP)])

    def test_what_is_carried_has_the_user_of_an_empty_folder(self):
        for name, user in (("state", USER), ("other", 0)):
            with part_folder(Place(self.path.parent / name)) as part:
                make_file(part / "7", [b"state"])
                self.assertEqual([os.stat(it).st_uid for it in (part, part / "7")], [user, user])

    def test_a_folder_of_roots_stays_so(self):
        os.chown(self.path, 0, 0)
        Place(self.path).write("name", b"text")
        self.assertEqual(self.owners("name"), [(0, 0)])
