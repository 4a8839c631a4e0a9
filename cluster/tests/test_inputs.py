import os
import tempfile
import unittest

from pads_cluster import inputs


class Inputs(unittest.TestCase):
    def setUp(self):
        folder = tempfile.TemporaryDirectory()
        self.addCleanup(folder.cleanup)
        self.paths = []
        for number, data in enumerate((b"one\ntw", b"", b"o\nthree")):
            self.paths.append(f"{folder.name}/{number}")
            with open(self.paths[-1], "wb") as file:
                file.write(data)
        self.files = inputs.joined(self.paths)
        self.all = b"one\ntwo\nthree"

    def test_files_are_joined_as_cat_joins_them(self):
        self.assertEqual(inputs.size_of(self.files), len(self.all))
        for begin in range(len(self.all) + 1):
            for end in range(begin, len(self.all) + 1):
                for most in (1, 2, 100):
                    self.assertEqual(b"".join(inputs.pieces(self.files, begin, end, most)), self.all[begin:end])

    def test_find_and_count(self):
        for begin in range(len(self.all)):
            for end in range(begin, len(self.all) + 1):
                found = self.all.find(b"\n", begin, end)
                self.assertEqual(inputs.find(self.files, 10, begin, end), None if found < 0 else found)
                self.assertEqual(inputs.count(self.files, 10, begin, end), self.all.count(b"\n", begin, end))

    def test_find_beyond_the_first_piece(self):
        with open(self.paths[1], "wb") as file:
            file.write(b"." * 10000)
        files = inputs.joined(self.paths)
        self.assertEqual(inputs.find(files, 10, 4, 10013), 10007)

    def test_relative_paths_become_absolute(self):
        here = os.path.relpath(self.paths[0])
        self.assertEqual(inputs.joined([here])[0].path, os.path.abspath(here))

    def test_what_is_no_file(self):
        with self.assertRaises(FileNotFoundError):
            inputs.joined([self.paths[0] + "-"])
        with self.assertRaisesRegex(OSError, "not a regular file"):
            inputs.joined(["/dev/null"])

    def test_a_file_that_became_shorter(self):
        os.truncate(self.paths[0], 3)
        with self.assertRaisesRegex(OSError, "it ends at byte 3, and had 6 bytes"):
            inputs.read(self.files, 0, 5)
