#!/usr/bin/env python3
"""A second reader: the commands as docs/ have them, by tables.py and the cutting below. Limits of size aren't looked at.

    examples/reader.py check DESC
    examples/reader.py parse|print|summary DESC [OPTION ..] < INPUT
    examples/reader.py query DESC PATH [EXPR] [OPTION ..] < INPUT

The options are `--records`, `--coding`, `--max`, `--mask`, `--scan` and `--top`, as in docs/COMMANDS.md.

It shares no code with the program. With PADS_BIN=examples/reader.py the commands of the pages run on it.
"""
import signal
import sys
from pathlib import Path

import prints
import queries
import summaries
import tables
import verdicts

# Cutting, by docs/FORMATS.md: frames are a mark, the first offset and the bytes, or where they aren't read the end.

def frames(data, discipline, most=2 ** 20):
    kind, _, number = discipline.partition(':')
    if kind == 'whole':
        found = [('plain', 0, data)] if data else []
    elif kind == 'fixed':
        size = int(number)
        found = [('plain' if at + size <= len(data) else 'short', at, data[at:at + size]) for at in range(0, len(data), size)]
    elif kind == 'rdw':
        found = words(data)
    else:
        found = lines_of(data, bytes([int(number, 16)]) if kind == 'term' else b'\n')
    return [('long', at, at + len(held)) if isinstance(held, bytes) and len(held) > most else (mark, at, held) for mark, at, held in found]


def lines_of(data, end):
    found, at = [], 0
    for record in data.split(end):
        found.append(('plain', at, record))
        at += len(record) + 1
    return found if found[-1][2] else found[:-1]


def words(data):
    found, at = [], 0
    while at < len(data):
        size = int.from_bytes(data[at:at + 2], 'big')
        if len(data) - at < 4 or data[at + 2:at + 4] != b'\0\0' or not 4 <= size <= len(data) - at:
            return found + [('broken', at, len(data))]
        found.append(('plain', at + 4, data[at + 4:at + size]))
        at += size
    return found


def option(options, name, default):
    return next((word.split('=')[1] for word in options if word.startswith(f'--{name}=')), default)


def module_of(description, options):
    coding = 'cp037' if option(options, 'coding', 'ascii') == 'ebcdic' else 'latin-1'
    return tables.Translation(description, coding, tables.modes(option(options, 'mask', 'both')))


def refused(words, text, options):
    """Why a command is refused, or None."""
    verdict = verdicts.verdict(text)
    if not verdict.startswith('accepted'):
        return f'description {verdict}'
    module = module_of(text, options)
    item = tables.unknown_item(module, option(options, 'mask', 'both'))
    if item is not None:
        return f'mask item {item}'
    return verdicts.question_fault(text, module.each, *(words + [None])[2:4]) if words[0] == 'query' else None


def scan_of(options):
    return int(option(options, 'scan', 2 ** 24))


def rows(module, data, options):
    most = int(option(options, 'max', 2 ** 20))
    for number, (mark, first, held) in enumerate(frames(data, option(options, 'records', 'nl'), most)):
        yield tables.Row(module, f'{number} {mark} {first} {held.hex() if isinstance(held, bytes) else held}', scan_of(options))


def lines(description, data, options):
    """The lines that `pads parse` must write."""
    return written(['parse'], module_of(description, options), data, options)[0].decode().splitlines(keepends=True)


def written(words, module, data, options):
    """What a command that reads records and isn't refused must leave: its output, what is on standard error, and the exit status."""
    found, notes = list(rows(module, data, options)), []
    if words[0] == 'print':
        discipline, most = option(options, 'records', 'nl'), int(option(options, 'max', 2 ** 20))
        out, notes = prints.printed(module, found, discipline, lambda data: frames(data, discipline, most), scan_of(options))
    elif words[0] == 'summary':
        out = joined(summaries.report(module, found, int(option(options, 'top', summaries.TOP))))
    elif words[0] == 'query':
        kept = tables.Parser(words[3]).expr() if len(words) == 4 else None
        out = joined(line for row in found for line in queries.queried(row, words[2], kept))
    else:
        out = joined(row.json() for row in found)
    clean = all(row.node.clean() for row in found) and not notes
    return out, joined(notes), 0 if clean else 1


def answer(words, text, data, options):
    """What a command must leave: its output, what is on standard error, and the exit status."""
    fault = refused(words, text, options)
    if fault:
        return b'', f'pads: refused: {fault}\n'.encode(), 3
    if words[0] == 'check':
        return f'{verdicts.verdict(text)}\n'.encode(), b'', 0
    return written(words, module_of(text, options), data, options)


def joined(told):
    return ''.join(f'{line}\n' for line in told).encode()


def main():
    sys.setrecursionlimit(100000)
    signal.signal(signal.SIGPIPE, signal.SIG_DFL)
    words = [word for word in sys.argv[1:] if not word.startswith('--')]
    form = words[:1] + [len(words)]
    if form not in (['parse', 2], ['print', 2], ['check', 2], ['query', 3], ['query', 4], ['summary', 2]):
        sys.exit(f'{sys.argv[0]}: only check, parse, print, query and summary are done a second time')
    text = Path(words[1]).read_bytes().decode('latin-1')
    data = b'' if words[0] == 'check' else sys.stdin.buffer.read()
    out, notes, status = answer(words, text, data, sys.argv[1:])
    sys.stdout.buffer.write(out)
    sys.stderr.buffer.write(notes)
    return status


if __name__ == '__main__':
    sys.exit(main())
