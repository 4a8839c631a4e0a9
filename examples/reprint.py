#!/usr/bin/env python3
"""Prints the examples of table.txt and reads them again: the values of the records that `pads print` writes are those of
the clean records in the stored lines, in their order, short of the ambiguous ones; what isn't clean is named; and what is
printed twice is what is printed once.

    examples/reprint.py PROGRAM
"""
import json
import subprocess
import sys

import gallery

# Records that would read otherwise once they are printed. A latitude and a longitude stand side by side in zone.tab, and
# a plus isn't written: `+4230+00131` becomes `4230131`, one number.
AMBIGUOUS = {'zone-tab.txt': [1, 3]}


def run(program, command, example, data):
    """What a command writes, and the records that it names."""
    words = [program, command, example.description, *example.options]
    done = subprocess.run(words, input=data, capture_output=True)
    return done.stdout, [line.split(' ', 3)[2:] for line in done.stderr.decode().splitlines()]


def rows_of(lines):
    return [json.loads(line) for line in lines.splitlines()]


def differs(program, example):
    """How many records are printed, and whether anything is otherwise than it should be."""
    rows, ambiguous = rows_of(example.lines.read_text(encoding='utf-8')), AMBIGUOUS.get(example.data, [])
    want = [row['value'] for row in rows if row['class'] == 'Ok' and row['record'] not in ambiguous]
    named = [[str(row['record']), 'ambiguous' if row['class'] == 'Ok' else 'not clean']
             for row in rows if row['class'] != 'Ok' or row['record'] in ambiguous]
    once, notes = run(program, 'print', example, example.file.read_bytes())
    back = [row['value'] for row in rows_of(run(program, 'parse', example, once)[0].decode())]
    twice = run(program, 'print', example, once)[0]
    return len(want), not (back == want and notes == named and twice == once)


def main():
    failed = 0
    for example in gallery.examples():
        count, wrong = differs(sys.argv[1], example)
        failed += wrong
        print(f"{example.data}: {count} clean records, {'DIFFERS' if wrong else 'the same when they are printed'}")
    return 1 if failed else 0


if __name__ == '__main__':
    sys.exit(main())
