import unittest
from unittest import mock

from pads_cluster import joining
from pads_cluster.joining import InProcess, PartFailed, parse
from pads_cluster.options import Discipline
from pads_cluster.splitting import Cut, Part

LINES = Discipline("term", 10)
PARTS = [Part(0, 10, 0), Part(10, 20, None), Part(20, 30, None)]


class Joining(unittest.TestCase):
    def parse(self, parts, read, count=lambda job, part, byte: 2):
        """The status, and what is written by then, or the error with it."""
        written = []
        with mock.patch.object(joining, "read_part", read), mock.patch.object(joining, "counted", count):
            try:
                return parse(InProcess(), None, Cut(parts, 0), LINES, written.append), written
            except PartFailed as failed:
                return failed, written

    def test_order_numbers_and_status(self):
        for statuses, wanted in (((0, 0, 0), 0), ((0, 1, 0), 1), ((1, 0, 0), 1)):
            read = lambda job, part: (statuses[part.begin // 10], part.record, 2, b"%d from record %d" % (part.begin, part.record))
            self.assertEqual(self.parse(PARTS, read), (wanted, [b"0 from record 0", b"10 from record 2", b"20 from record 4"]))
        self.assertEqual(self.parse([], None), (0, []))

    def test_known_numbers_are_not_counted(self):
        parts = [part._replace(record=part.begin // 5) for part in PARTS]
        self.assertEqual(self.parse(parts, lambda job, part: (0, part.record, 2, b"%d" % part.record), None), (0, [b"0", b"2", b"4"]))

    def test_a_part_that_fails_leaves_whole_parts(self):
        def read(job, part):
            if part.begin == 10:
                raise ChildProcessError(7, "out of memory")
            return 0, part.record, 2, b"lines"

        failed, written = self.parse(PARTS, read)
        self.assertEqual((failed.part[:2], failed.reason.errno, written), ((10, 20), 7, [b"lines"]))

    def test_a_count_that_fails(self):
        def count(job, part, byte):
            if part.begin == 10:
                raise OSError(5, "broken disk", "file")
            return 2

        failed, written = self.parse(PARTS, lambda job, part: (0, part.record, 2, b"lines"), count)
        # The part before is counted and numbered, and so it is read; the one behind isn't.
        self.assertEqual((failed.part[:2], failed.reason.errno, written), ((20, 30), 5, [b"lines", b"lines"]))

    def test_an_input_that_changes(self):
        failed, written = self.parse(PARTS, lambda job, part: (0, part.record, 3, b"lines"))
        self.assertEqual((failed.part[:2], written), ((10, 20), [b"lines"]))
        self.assertIn("record 3 begins there, and 2 was counted", str(failed.reason))
