import json
import os
import random
import tempfile
import unittest
from pathlib import Path

from pads_cluster import inputs, words
from pads_cluster.bounds import Bound


class Index(unittest.TestCase):
    def setUp(self):
        folder = tempfile.TemporaryDirectory()
        self.addCleanup(folder.cleanup)
        self.data, self.index = Path(folder.name, "data"), Path(folder.name, "index")
        dice = random.Random(5)
        sizes = [dice.randrange(4, 300) for _ in range(3000)]
        self.data.write_bytes(b"".join(size.to_bytes(2, "big") + bytes(size - 2) for size in sizes))
        self.files = inputs.joined([str(self.data)])
        self.size = sum(sizes)

    def bounds(self, part, index=None):
        return words.of_words(self.files, self.size, part, index and str(index))

    def test_windows_do_not_matter(self):
        wanted = self.bounds(1000)
        for window in (4, 5, 299, 1 << 20):
            words.WINDOW, before = window, words.WINDOW
            try:
                self.assertEqual(self.bounds(1000), wanted)
            finally:
                words.WINDOW = before

    def test_kept_and_read_again(self):
        wanted = self.bounds(500, self.index)
        self.assertEqual(wanted, self.bounds(500))
        kept = json.loads(self.index.read_text())
        self.assertEqual([Bound(*bound) for bound in kept["bounds"]], wanted)
        words.walk, walk = None, words.walk
        try:
            self.assertEqual(self.bounds(500, self.index), wanted)
            larger = self.bounds(1500, self.index)
        finally:
            words.walk = walk
        self.assertEqual(larger, self.bounds(1500))

    def test_another_size_or_file_or_no_index_is_walked_anew(self):
        self.bounds(500, self.index)
        self.assertEqual(self.bounds(700, self.index), self.bounds(700))
        self.assertEqual(json.loads(self.index.read_text())["part"], 700)
        os.utime(self.data, ns=(1, 1))
        self.assertIsNone(words.stored(str(self.index), self.files, 700))
        self.index.write_text("{}")
        self.assertEqual(self.bounds(700, self.index), self.bounds(700))
