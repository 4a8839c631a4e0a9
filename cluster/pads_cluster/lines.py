"""The lines of a part, as they are in the lines of the whole input.

The form of a line is fixed (docs/FORMATS.md): its keys come in the order of their bytes, so what a number or an offset
is stands before the value. The known fields are found by their place and written anew; all else, the value with its
numbers and texts above all, stays byte for byte what `pads` wrote.
"""

import re

PLACE = rb'"(?:[^"\\]|\\.)*"'
FAULT = re.compile(rb'(\{"at":' + PLACE + rb',"cause":"[A-Z_]+","span":\[)(\d+),(\d+)(\]\})')
FAULTS = rb'(?:\{"at":' + PLACE + rb',"cause":"[A-Z_]+","span":\[\d+,\d+\]\},?)*'
LINE = re.compile(rb'(\{"class":"(?:Ok|Err|Fail)","faults":\[)(' + FAULTS + rb')(\],"nerr":\d+,"next":)(\d+),"record":(\d+),"span":\[(\d+),(\d+)(\],"value":)')


class Form(ValueError):
    """A line has another form than is known here."""


def moved_line(line: bytes, record: int, by: int) -> bytes:
    """The line of a record whose number is raised by `record`, and its offsets by `by`."""
    found = LINE.match(line)
    if found is None:
        raise Form(f"a line of another form than docs/FORMATS.md gives: {line[:80]!r}")
    head, faults, counts, after, number, begin, end, tail = found.groups()
    if faults:
        faults = FAULT.sub(lambda at: b"%b%d,%d%b" % (at[1], int(at[2]) + by, int(at[3]) + by, at[4]), faults)
    known = (head, faults, counts, int(after) + by, int(number) + record, int(begin) + by, int(end) + by, tail)
    return b'%b%b%b%d,"record":%d,"span":[%d,%d%b' % known + line[found.end():]


def moved(lines: bytes, record: int, by: int, dropped: int = 0) -> bytes:
    """Lines whose records' numbers are raised by `record` and whose offsets by `by`, without the first `dropped`."""
    if lines and not lines.endswith(b"\n"):
        raise Form("the last line has no end")
    if record == by == dropped == 0:
        return lines
    each = lines.split(b"\n")[dropped:-1]
    return b"".join([moved_line(line, record, by) + b"\n" for line in each])
