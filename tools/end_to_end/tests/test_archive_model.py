"""Tests of archive_model.py: what its model of docs/FORMATS.md comes to, over the archives of archive_vectors.py, of Python's
tarfile and of evidence_forms.py; and that archives which are turned at random are others, again the same by the same seed."""

import collections
import random
import tarfile
import unittest

from archive_model import FIELDS, NoArchive, files_of, members_of, padded, turned, with_field
from archive_vectors import END, TURNED
from evidence_forms import RIGHT, archive_of, by_tarfile, member


def refusal_of(archive):
    """What an archive is refused for, or its files."""
    try:
        return files_of(archive)
    except NoArchive as refused:
        return refused.args


class Model(unittest.TestCase):
    def test_archives_of_the_table(self):
        for name, (archive, refused) in TURNED.items():
            with self.subTest(name):
                found = refusal_of(archive)
                self.assertEqual(found if refused else found["f"], refused or b"abc")

    def test_fields_of_the_table(self):
        for name, field in FIELDS.items():
            with self.subTest(name):
                found = refusal_of(with_field(*field) + END)
                self.assertEqual(found, (0, field[2]) if field[2] else {"a/file": b"" if field[2] == 0 else b"abc"})

    def test_archives_of_other_hands(self):
        for form in (tarfile.USTAR_FORMAT, tarfile.GNU_FORMAT, tarfile.PAX_FORMAT):
            for before in ("", "./"):
                self.assertEqual(files_of(by_tarfile(RIGHT, form, before)), RIGHT)

    def test_own_archives(self):
        for with_folders in (False, True):
            self.assertEqual(files_of(archive_of(RIGHT, "./", with_folders)), RIGHT)
        long = "/".join(["x" * 60] * 3)
        self.assertEqual(files_of(member(long, b"long") + END), {long: b"long"})

    def test_offsets(self):
        found = [(at, end) for at, end, *_ in members_of(archive_of(RIGHT))]
        sizes = [512 + padded(len(it)) for it in RIGHT.values()]
        self.assertEqual(found, [(sum(sizes[:it]), sum(sizes[: it + 1])) for it in range(len(sizes))])


class Turned(unittest.TestCase):
    def test_by_their_seeds(self):
        archive = archive_of(RIGHT)
        first, second = ([turned(random.Random(seed), archive) for seed in range(50)] for _ in range(2))
        self.assertEqual(first, second)
        self.assertGreater(len(set(first)), 40)

    def test_many_ways(self):
        """They come to each of the eleven refusals, to the same files and to others."""
        found = collections.Counter()
        for seed in range(1000):
            came = refusal_of(turned(random.Random(seed), archive_of(RIGHT, "./", with_folders=True)))
            found["files" if came == RIGHT else "other files" if isinstance(came, dict) else came[1]] += 1
        self.assertEqual(len(found), 13, found)
        self.assertGreater(min(found["files"], found["other files"]), 40, found)
