import os
import tempfile
import unittest
from pathlib import Path

from pads_cluster import VERSION, inputs
from pads_cluster.running import Job, counted, read_part, run, tried
from pads_cluster.splitting import Part

# Stands for pads: writes a line of its form for each line of its input, with the number and the offsets in that.
PADS = '''#!/usr/bin/python3
import sys
assert sys.argv[1] == "parse" and open(sys.argv[2], "rb").read() == b"the description", sys.argv
at = 0
for number, line in enumerate(sys.stdin.buffer):
    end = at + len(line) - 1
    print('{"class":"Ok","faults":[],"nerr":0,"next":%d,"record":%d,"span":[%d,%d],"value":"%s"}' % (end, number, at, end, line[:-1].decode()))
    at = end + 1
'''


class Running(unittest.TestCase):
    def setUp(self):
        folder = tempfile.TemporaryDirectory()
        self.addCleanup(folder.cleanup)
        self.folder = Path(folder.name)
        (self.folder / "data").write_bytes(b"head\none\ntwo\nthree\n")
        self.files = inputs.joined([str(self.folder / "data")])

    def job(self, program):
        path = self.folder / "program"
        path.write_text(program)
        path.chmod(0o755)
        return Job(VERSION, str(path), b"the description", ("--max=99",), self.files, 5)

    def test_parts(self):
        job = self.job(PADS)
        line = '{"class":"Ok","faults":[],"nerr":0,"next":%d,"record":%d,"span":[%d,%d],"value":"%s"}\n'
        self.assertEqual(read_part(job, Part(0, 9, 0)), (0, 0, 2, (line % (4, 0, 0, 4, "head") + line % (8, 1, 5, 8, "one")).encode()))
        self.assertEqual(read_part(job, Part(9, 19, 2)), (0, 2, 2, (line % (12, 2, 9, 12, "two") + line % (18, 3, 13, 18, "three")).encode()))
        self.assertEqual(counted(job, Part(9, 19, None), 10), 2)

    def test_statuses_and_words(self):
        job = self.job("#!/bin/sh\ncat >/dev/null\necho pads: out of memory >&2\nexit 7\n")
        self.assertEqual(tried(job), (7, "pads: out of memory"))
        with self.assertRaises(ChildProcessError) as raised:
            read_part(job, Part(0, 9, 0))
        self.assertEqual((raised.exception.errno, raised.exception.strerror), (7, "pads: out of memory"))

    def test_a_program_that_reads_nothing(self):
        outcome = run(self.job("#!/bin/sh\nexit 3\n"), (bytes(1 << 20) for _ in range(5)))
        self.assertEqual(outcome.status, 3)

    def test_a_program_that_is_not_there_or_is_killed(self):
        with self.assertRaisesRegex(RuntimeError, "can't be started: No such file"):
            tried(self.job(PADS)._replace(program="no-such-program"))
        with self.assertRaisesRegex(RuntimeError, "signal 9"):
            tried(self.job("#!/bin/sh\nkill -9 $$\n"))

    def test_another_version(self):
        with self.assertRaisesRegex(RuntimeError, "another version"):
            tried(self.job(PADS)._replace(version="earlier"))

    def test_an_input_that_cannot_be_read(self):
        job = self.job(PADS)
        os.truncate(self.folder / "data", 12)
        with self.assertRaisesRegex(OSError, "it ends at byte 12"):
            read_part(job, Part(9, 19, 2))
