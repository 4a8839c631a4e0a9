#!/usr/bin/env python3
"""usage: pads faults DESC [FILE ..] [OPTION ..]

Reads each file, or standard input, by the description in the file DESC, and writes a line for each fault:

    [FILE:]LINE:COLUMN: PLACE CAUSE 'BYTES'

Lines and columns count from 1, a column in bytes. Where records aren't lines, @OFFSET stands in their place: the
offset in the input, from 0. Where a fault has no bytes, those that come next follow: '' before 'BYTES'. At the end
come the records and faults in all, and how many faults each place and cause has. Options and exit statuses are
those of `pads parse` (docs/COMMANDS.md), places and causes those of its lines (docs/FORMATS.md, docs/CAUSES.md).
"""
import collections
import json
import re
import shutil
import sys
import tempfile
import runs

CLEAN = b'{"class":"Ok"'
AHEAD, READ_FAULT = 20, 5


class Input:
    """The bytes of an input, which can be read at any place while the program reads them too."""

    def __init__(self, name):
        self.name = f"{name}:" if name else ""
        if name:
            self.file = open(name, "rb")
        else:
            self.file = tempfile.NamedTemporaryFile()
            shutil.copyfileobj(sys.stdin.buffer, self.file)
            self.file.flush()
        # The program has a file of its own: a place that is set in one isn't set in the other.
        self.source = open(self.file.name, "rb")

    def bytes(self, begin, end):
        self.file.seek(begin)
        return self.file.read(max(0, end - begin))


def place(row, fault, lines):
    """Where a fault begins: line and column, or the offset."""
    if not lines:
        return f"@{fault['span'][0]}"
    return f"{row['record'] + 1}:{fault['span'][0] - row['span'][0] + 1}"


def at(fault, row, data, coding):
    """The bytes of a fault, or those that come next."""
    begin, end = fault["span"]
    if begin < end:
        return runs.shown(data.bytes(begin, min(end, begin + 41)), coding)
    rest = data.bytes(begin, min(row["span"][1], begin + AHEAD + 1))
    return f"'' before {runs.shown(rest, coding, AHEAD)}" if rest else "'' at the record's end"


def faults_of(description, data, options, counts):
    """Writes the faults of one input, and counts them. The answer is how its run ended."""
    coding = runs.option(options, "coding", "ascii")
    lines = runs.option(options, "records", "nl") in ("nl", "term:0a", "term:0A")
    run = runs.Run(description, options, data.source)
    for line in run.lines():
        counts["records"] += 1
        if line.startswith(CLEAN):
            continue
        row = json.loads(line)
        counts["bad"] += 1
        for fault in row["faults"]:
            print(f"{data.name}{place(row, fault, lines)}: {fault['at']} {fault['cause']} {at(fault, row, data, coding)}")
            counts[re.sub(r"\[\d+\]", "[*]", fault["at"]), fault["cause"]] += 1
    if run.status > runs.DIRTY:
        runs.told(run, description)
    return run.status


def totals(counts):
    """Records and faults in all, then places and causes, those that come most often first."""
    kinds = [(key, number) for key, number in counts.items() if isinstance(key, tuple)]
    many = lambda number, word: f"{number} {word}{'' if number == 1 else 's'}"
    print(f"{many(counts['records'], 'record')}, {counts['bad']} not clean, {many(sum(n for _, n in kinds), 'fault')}")
    for (where, cause), number in sorted(kinds, key=lambda kind: (-kind[1], kind[0])):
        print(f"{number:7} {where} {cause}")


def main(words):
    options, names = runs.split_words(words)
    if not names or "--help" in options:
        return runs.usage(__doc__, options)
    description, *files = names
    counts, worst = collections.Counter(), 0
    for name in files or [None]:
        try:
            data = Input(name)
        except OSError as fault:
            print(f"pads: {name}: {fault.strerror}", file=sys.stderr)
            worst = max(worst, READ_FAULT)
            continue
        status = faults_of(description, data, options, counts)
        worst = max(worst, status)
        if status in (2, 3, 4):
            return status
    totals(counts)
    return worst


if __name__ == "__main__":
    runs.guarded(main)
