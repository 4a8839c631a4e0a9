import contextlib
import io
import os
import subprocess
import tempfile
import unittest
from pathlib import Path

from pads_cluster import command

TOP = Path(__file__).resolve().parents[1]
EXAMPLES = TOP.parent / "examples"


class Command(unittest.TestCase):
    def said(self, *words):
        """The status and the last words of what ends before it comes to a cluster."""
        stderr = io.StringIO()
        with contextlib.redirect_stderr(stderr):
            status = command.main(list(words))
        return status, stderr.getvalue()

    def test_usage(self):
        desc, file = str(EXAMPLES / "readings.pads"), str(EXAMPLES / "readings.txt")
        for words in ((), ("check", desc), ("parse",), ("parse", desc), ("parse", desc, file), ("parse", desc, file, "--local=1", "--scheduler=tcp://x:1"),
                      ("parse", desc, file, "--local=1", "--part=0"), ("parse", desc, file, "--local=1", "--part=64k"), ("parse", desc, file, "--local=1", "--top=4"),
                      ("parse", desc, file, "--local=1", "--records=bars"), ("move",), ("move", file)):
            status, said = self.said(*words)
            self.assertEqual(status, 2, words)
            self.assertTrue(said.startswith("pads-cluster: usage: "), said)

    def test_files_that_are_not_there(self):
        desc, file = str(EXAMPLES / "readings.pads"), str(EXAMPLES / "readings.txt")
        self.assertEqual(self.said("parse", "none", file, "--local=1"), (4, "pads-cluster: file fault: none: No such file or directory\n"))
        self.assertEqual(self.said("parse", desc, file, "none", "--local=1"), (5, "pads-cluster: read fault: none: No such file or directory\n"))
        status, said = self.said("parse", desc, "/dev/null", "--local=1")
        self.assertEqual((status, "not a regular file" in said), (5, True))

    def test_sizes(self):
        self.assertEqual([command.bytes_of(text) for text in ("1", "64K", "16M", "2G")], [1, 1 << 16, 1 << 24, 1 << 31])

    def moved(self, sizes, number, lines, *words):
        with tempfile.TemporaryDirectory() as folder:
            Path(folder, "sizes").write_text(sizes)
            run = subprocess.run([TOP / "pads-cluster", "move", f"{folder}/sizes", str(number), *words], input=lines, capture_output=True, check=False)
        return run.returncode, run.stdout

    def test_move(self):
        line = b'{"class":"Ok","faults":[],"nerr":0,"next":%d,"record":%d,"span":[%d,%d],"value":1}\n'
        sizes = "      3    30\n      2    25\n 4 9\n"
        self.assertEqual(self.moved(sizes, 1, line % (7, 1, 5, 9)), (0, line % (7, 1, 5, 9)))
        self.assertEqual(self.moved(sizes, 3, line % (7, 1, 5, 9)), (0, line % (62, 6, 60, 64)))
        # The first four bytes of each part are the input's first record.
        both = line % (3, 0, 0, 3) + line % (7, 1, 5, 9)
        self.assertEqual(self.moved(sizes, 1, both, "--head=4"), (0, both))
        self.assertEqual(self.moved(sizes, 3, both, "--head=4"), (0, line % (54, 4, 52, 56)))
        self.assertEqual(self.moved(sizes, 4, both)[0], 2)
        self.assertEqual(self.moved(sizes, 2, b"{}\n")[0], 5)

    def test_the_command_needs_no_package_for_this(self):
        run = subprocess.run(["/usr/bin/python3", "-S", TOP / "pads-cluster"], capture_output=True, text=True, check=False, env={"PATH": os.environ["PATH"]})
        self.assertEqual(run.returncode, 2)
        self.assertIn("usage: pads-cluster parse", run.stderr)
