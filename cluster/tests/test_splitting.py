import random
import tempfile
import unittest

from pads_cluster import inputs
from pads_cluster.bounds import Alone
from pads_cluster.options import Discipline
from pads_cluster.splitting import Cut, Part, cut

LINES, WORDS = Discipline("term", 10), Discipline("rdw")


def records_of(data, discipline):
    """Where the records of an input begin, by the rules of docs/FORMATS.md, and where the input ends."""
    begins, at = [], 0
    while at < len(data):
        begins.append(at)
        if discipline.kind == "term":
            found = data.find(bytes([discipline.number]), at)
            at = len(data) if found < 0 else found + 1
        elif discipline.kind == "fixed":
            at = min(at + discipline.number, len(data))
        else:
            size = int.from_bytes(data[at:at + 2], "big")
            good = len(data) - at >= 4 and size >= 4 and data[at + 2:at + 4] == b"\0\0" and size <= len(data) - at
            at = at + size if good else len(data)
    return begins, len(data)


def word(data):
    return (len(data) + 4).to_bytes(2, "big") + b"\0\0" + data


class Splitting(unittest.TestCase):
    def cut(self, data, discipline, part, index=None):
        with tempfile.NamedTemporaryFile() as file:
            file.write(data)
            file.flush()
            return cut(inputs.joined([file.name]), discipline, part, index)

    def parts(self, *given):
        return self.cut(*given).parts

    def test_lines(self):
        self.assertEqual(self.cut(b"ab\ncd\nef\n", LINES, 3), Cut([Part(0, 3, 0), Part(3, 6, None), Part(6, 9, None)], 3))
        self.assertEqual(self.cut(b"ab\ncd\nef\n", LINES, 4), Cut([Part(0, 6, 0), Part(6, 9, None)], 3))
        self.assertEqual(self.parts(b"ab\ncd\nef\n", LINES, 8), [Part(0, 9, 0)])

    def test_a_last_line_without_newline_at_the_bound(self):
        self.assertEqual(self.parts(b"ab\ncd", LINES, 3), [Part(0, 3, 0), Part(3, 5, None)])
        self.assertEqual(self.parts(b"ab\ncd", LINES, 4), [Part(0, 5, 0)])
        self.assertEqual(self.parts(b"ab\n", LINES, 2), [Part(0, 3, 0)])
        self.assertEqual(self.parts(b"ab\n\n", LINES, 3), [Part(0, 3, 0), Part(3, 4, None)])

    def test_a_record_longer_than_a_part(self):
        with self.assertRaisesRegex(Alone, "none begins from byte 4 to byte 8"):
            self.parts(b"ab\n" + b"c" * 12 + b"\n", LINES, 4)
        with self.assertRaisesRegex(Alone, "none begins from byte 4 to byte 8"):
            self.parts(b"c" * 9, LINES, 4)
        # No longer than a part, wherever it lies: never refused.
        for before in range(9):
            self.parts(b"\n" * before + b"ccc\n" * 5, LINES, 4)

    def test_blocks(self):
        self.assertEqual(self.cut(b"." * 35, Discipline("fixed", 10), 15), Cut([Part(0, 20, 0), Part(20, 30, 2), Part(30, 35, 3)], 10))
        for size in (35, 10, 9):
            with self.assertRaises(Alone):
                self.parts(b"." * size, Discipline("fixed", 10), 4)
        self.assertEqual(self.parts(b"." * 8, Discipline("fixed", 10), 4), [Part(0, 8, 0)])

    def test_words(self):
        self.assertEqual(self.cut(word(b"ab") * 3, WORDS, 6), Cut([Part(0, 6, 0), Part(6, 12, 1), Part(12, 18, 2)], 6))
        self.assertEqual(self.parts(word(b"ab") * 3, WORDS, 7), [Part(0, 12, 0), Part(12, 18, 2)])

    def test_a_broken_frame_stays_in_one_part(self):
        for bad in (b"\0\3\0\0", b"\0\4\0\1", b"\0\x99\0\0", b"\0\4"):
            rest = bad + word(b"ab") * (9 if len(bad) == 4 else 0)
            self.assertEqual(self.parts(word(b"ab") * 2 + rest, WORDS, 6), [Part(0, 6, 0), Part(6, 12, 1), Part(12, 12 + len(rest), 2)])

    def test_a_record_behind_a_word_longer_than_a_part(self):
        with self.assertRaises(Alone):
            self.parts(word(b"") + word(b"." * 99) + word(b""), WORDS, 30)

    def test_whole_and_empty(self):
        with self.assertRaisesRegex(Alone, "one record"):
            self.parts(b"ab", Discipline("whole"), 99)
        for discipline in (LINES, WORDS, Discipline("fixed", 5)):
            self.assertEqual(self.cut(b"", discipline, 4), Cut([], 0))

    def test_random_inputs(self):
        dice = random.Random(43)
        for _ in range(3000):
            discipline = dice.choice((LINES, WORDS, Discipline("fixed", dice.randrange(1, 9))))
            if discipline is WORDS:
                data = b"".join(word(b"x" * dice.randrange(9)) for _ in range(dice.randrange(20)))
                data += dice.choice((b"", b"", b"\0", b"\0\3\0\0abc", b"\0\x20\0\0abc"))
            else:
                data = bytes(dice.choice(b"\n..") for _ in range(dice.randrange(60)))
            part = dice.randrange(1, 30)
            begins, size = records_of(data, discipline)
            # Whether a record covers the bytes from a multiple of the part's size to beyond the next. A broken one may.
            ends = [*begins[1:], size]
            broken = discipline is WORDS and begins and data[begins[-1]:][:2] != (size - begins[-1]).to_bytes(2, "big")
            covers = [(begin // part + 2) * part < end for begin, end in zip(begins, ends)]
            try:
                given = self.cut(data, discipline, part)
            except Alone:
                self.assertTrue(any(covers), (discipline, data, part))
                continue
            self.assertFalse(any(covers[:-1] if broken else covers), (discipline, data, part))
            self.assertEqual([part.begin for part in given.parts[1:]], [part.end for part in given.parts[:-1]])
            if data:
                self.assertEqual((given.parts[0].begin, given.parts[-1].end), (0, size))
            for one in given.parts:
                self.assertIn(one.begin, begins)
                self.assertIn(one.record, (begins.index(one.begin), None))
                self.assertTrue(one.end - one.begin <= 2 * part or one.end == size and discipline is WORDS)
            if len(given.parts) > 1:
                self.assertEqual(given.head, begins[1])


if __name__ == "__main__":
    unittest.main()
