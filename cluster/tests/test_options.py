import unittest

from pads_cluster.options import Discipline, Unknown, discipline_of


class Options(unittest.TestCase):
    def test_disciplines(self):
        for options, wanted in (([], Discipline("term", 10)), (["--records=nl"], Discipline("term", 10)), (["--records=term:1E"], Discipline("term", 30)),
                                (["--max=99", "--records=fixed:35", "--coding=ebcdic"], Discipline("fixed", 35)), (["--records=rdw"], Discipline("rdw")),
                                (["--records=whole"], Discipline("whole"))):
            self.assertEqual(discipline_of(options), wanted)

    def test_what_parts_cannot_have(self):
        for option in ("--limit=3", "--records=bars", "--records=", "--records=fixed", "--records=fixed:x", "--records=fixed:0", "--records=term:1", "--records=term:xx", "--records", "--coding", "--"):
            with self.assertRaises(Unknown):
                discipline_of([option])
