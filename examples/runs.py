#!/usr/bin/env python3
"""Holds the rows of test_runs, which were worked out by hand, against the second reader of reader.py: runs of `check`, `parse`,
`print`, `query` and `summary` that end as Done, Dirty or Refused without a call that fails. The second reader
remembers nothing, so it leaves out records that would take it more than 100,000 steps, and descriptions of more than 10,000 bytes.

    examples/runs.py --check
"""
import re
import sys
from pathlib import Path

import reader
import tables

ROWS = Path(__file__).resolve().parent.parent / 'crates' / 'test_runs' / 'data'
STATUSES = {'Done': 0, 'Dirty': 1, 'Refused': 3}
STEPS, LONGEST = 100000, 10000
COMMANDS = ('check', 'parse', 'print', 'query', 'summary')
# Heads of rows in which a call fails, or which don't have all that is written.
OTHERS = {'read fails', 'write fails', 'note fails', 'file read fails', 'room', 'out bytes', 'complete after', 'calls'}


def text_of(quoted):
    """The bytes of a part: those between its first quote and its last, N times where that is said."""
    times, text = re.fullmatch(r'(?:(\d+) times )?"(.*)"', quoted).groups()
    plain = {'n': b'\n', '\\': b'\\'}
    parts = [text] if times is None else [re.sub(r'\{(\d+)\}', lambda m: str(int(m[1]) + at), text) for at in range(int(times))]
    shown = lambda part: re.sub(rb'\\(x..|.)', lambda m: plain.get(m[1].decode()) or bytes([int(m[1][1:], 16)]), part.encode())
    return b''.join(map(shown, parts))


def rows(text):
    """The rows of a table, each with its lines by their heads."""
    for block in re.split(r'\n\n+', re.sub(r'^#.*\n', '', text, flags=re.M)):
        found = {}
        for line in block.strip('\n').splitlines():
            head, _, said = line.partition(': ')
            found.setdefault(head, []).append(said)
        if 'words' in found:
            yield found


def differs(row):
    """How a row's output differs, or nothing; None where the row isn't looked at."""
    try:
        return compared(row)
    except tables.Slow:
        return None


def compared(row):
    words = row['words'][0].split() + row.get('word', [])
    options = [word for word in words if word.startswith('--')]
    plain = [word for word in words if word not in options]
    if OTHERS & {*row} or row['status'][0] not in STATUSES or plain[0] not in COMMANDS:
        return None
    parts = lambda head: b''.join(map(text_of, row.get(head, [])))
    description, data, status = parts('description').decode('latin-1'), parts('input'), STATUSES[row['status'][0]]
    if len(description) > LONGEST:
        return None
    told = reader.answer(plain, description, data, options)
    if status == 3 and told[2] != 3:
        return None                                        # (a limit)
    want = parts('out'), parts('notes'), status
    return '' if told == want else f'{row["row"][0]}: the table has {want!r}, the second reader {told!r}'


def main():
    sys.setrecursionlimit(100000)
    tables.Reader.most = STEPS
    found = [differs(row) for table in sorted(ROWS.glob('*.txt')) for row in rows(table.read_text(encoding='latin-1'))]
    looked = [wrong for wrong in found if wrong is not None]
    wrong = [line for line in looked if line]
    print('\n'.join([*wrong[:9], f'{len(looked)} runs of test_runs (of {len(found)}), {len(wrong)} with another output']))
    return int(bool(wrong))


if __name__ == '__main__':
    sys.exit(main())
