import json
import unittest
from pathlib import Path

from pads_cluster.lines import Form, moved

EXAMPLES = Path(__file__).resolve().parents[2] / "examples"


def line(value, faults=b"", kind=b"Err", at=b'"next":20,"record":3,"span":[18,26]'):
    return b'{"class":"%b","faults":[%b],"nerr":1,%b,"value":%b}\n' % (kind, faults, at, value)


class Moving(unittest.TestCase):
    def test_the_known_fields_move(self):
        before = line(b"null", b'{"at":"hour","cause":"INVALID","span":[21,22]},{"at":".","cause":"EXTRA_BEFORE_EOR","span":[0,9]}')
        after = line(b"null", b'{"at":"hour","cause":"INVALID","span":[121,122]},{"at":".","cause":"EXTRA_BEFORE_EOR","span":[100,109]}',
                     at=b'"next":120,"record":10,"span":[118,126]')
        self.assertEqual(moved(before, 7, 100), after)
        self.assertEqual(moved(after, -7, -100), before)

    def test_the_value_stays_byte_for_byte(self):
        for value in (b'{"a":18446744073709551615,"b":-9223372036854775808,"c":9007199254740993}', rb'"\u0000\n\"\\ \u001f"', '"ÿ é \x7f"'.encode(),
                      rb'"],\"nerr\":1,\"next\":5,\"record\":3,\"span\":[1,2],\"value\":"', b'{"next":5,"record":3,"span":[1,2],"value":{"span":[1,2]}}', b'"\r\x85"'):
            self.assertEqual(moved(line(value, kind=b"Ok"), 1, 2), line(value, kind=b"Ok", at=b'"next":22,"record":4,"span":[20,28]'))

    def test_texts_in_a_place_do_not_mislead(self):
        fault = rb'{"at":"a\",\"cause\":\"X\",\"span\":[1,1]}],\"nerr\":","cause":"RANGE","span":[%b]}'
        self.assertEqual(moved(line(b"1", fault % b"5,6"), 0, 10), line(b"1", fault % b"15,16", at=b'"next":30,"record":3,"span":[28,36]'))

    def test_offsets_up_to_two_to_the_sixty_second(self):
        big = 1 << 62
        self.assertEqual(moved(line(b"1"), big, big - 26), line(b"1", at=b'"next":%d,"record":%d,"span":[%d,%d]' % (big - 6, big + 3, big - 8, big)))

    def test_the_head_is_dropped(self):
        self.assertEqual(moved(line(b"1") + line(b"2"), 0, 0, 1), line(b"2"))
        self.assertEqual(moved(line(b"1"), 5, 5, 1), b"")
        self.assertEqual(moved(b"", 5, 5), b"")

    def test_another_form_is_an_error(self):
        for lines in (b"{}\n", line(b"1")[:-1], line(b"1").replace(b"nerr", b"Nerr"), b"\n", b" " + line(b"1"), line(b"1", b'{"at":"a","span":[1,1],"cause":"X"}')):
            with self.assertRaises(Form):
                moved(lines, 1, 1)

    def test_all_lines_of_the_examples(self):
        for file in sorted(EXAMPLES.glob("*.lines")):
            lines = file.read_bytes()
            for before, after in zip(lines.splitlines(), moved(lines, 1000, 1 << 60).splitlines(), strict=True):
                wanted = json.loads(before)
                wanted["next"] += 1 << 60
                wanted["record"] += 1000
                for extent in [wanted["span"], *(fault["span"] for fault in wanted["faults"])]:
                    extent[:] = [offset + (1 << 60) for offset in extent]
                self.assertEqual(after.decode(), json.dumps(wanted, sort_keys=True, separators=(",", ":"), ensure_ascii=False))
            self.assertEqual(moved(moved(lines, 1000, 1 << 60), -1000, -(1 << 60)), lines)
