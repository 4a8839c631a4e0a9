#!/usr/bin/env python3
"""The examples of table.txt: what `pads parse` must write for each, by the second reader of tables.py, and the page that
shows them, docs/GALLERY.md.

    examples/gallery.py            writes the lines and the page again
    examples/gallery.py --check    tells whether they are what it would write
    examples/gallery.py PROGRAM    runs the program on each, and tells whether it writes these lines
"""
import os
import subprocess
import sys
from pathlib import Path

import reader

HERE = Path(__file__).resolve().parent
PAGE = HERE.parent / 'docs' / 'GALLERY.md'


class Example:
    def __init__(self, row):
        self.name, self.data, options, self.title, self.lack = (field.strip() for field in row.split('|'))
        self.options, self.file = options.split(), HERE / self.data
        self.lines = HERE / f'{Path(self.data).stem}.lines'
        self.description = HERE / f'{self.name}.pads'


def examples():
    rows = [row for row in (HERE / 'table.txt').read_text().splitlines() if row and not row.startswith('#')]
    return [Example(row) for row in rows]


def wanted(example):
    """The lines that the program must write."""
    return ''.join(reader.lines(example.description.read_text(), example.file.read_bytes(), example.options)).encode()


# The page.

HEAD = '''# A gallery of descriptions

Descriptions of files that people have, each with a sample, the command that reads it, and what comes out. The samples were made for this page and contain faults on purpose; the lines that `pads parse` must write are stored beside them (`examples/NAME.lines`), worked out by a second reader. This page is made of `examples/table.txt` by `examples/gallery.py`. How each trick is done is in `docs/COOKBOOK.md`.

'''
SHOWN, WIDE = 14, 240


def section(example, before):
    """The part of the page on an example: description, data, a command with its output."""
    command = ' '.join([f'examples/{example.name}.pads', *example.options])
    path, out = f'examples/{example.data}', [f'## {example.title[0].upper()}{example.title[1:]}\n']
    if example.name != before:
        out.append(f'```file=examples/{example.name}.pads\n{example.description.read_text().rstrip()}\n```\n')
    data = example.file.read_bytes()
    if example.data.endswith('.txt'):
        lines = data.decode('latin-1').replace('\r', '').split('\n')
        text = '\n'.join(lines[:SHOWN]).rstrip('\n')
        mark = '' if b'\r' in data or '\n' not in text.strip() else f'file={path}'
        note = f', and {len(lines) - SHOWN - 1} lines more' if len(lines) > SHOWN + 1 else ''
        out.append(f'`{path}`{note}{" (each line ends with CR LF)" if chr(13).encode() in data else ""}:\n\n```{mark}\n{text}\n```\n')
    else:
        out.append(f'`{path}` has {len(data)} bytes.\n')
    first = wanted(example).split(b'\n')[0][:WIDE].decode(errors='replace')
    out.append(f'```console\n$ ./pads parse {command} < {path} | head -1 | cut -c1-{WIDE}\n{first}\n'
               f'$ ./pads faults {command} {path}\n{faults(example)}```\n')
    out.append(f'What can\'t be said: {example.lack}.\n')
    return '\n'.join(out)


def faults(example):
    """What `pads faults` shows, with the second reader in the place of the program."""
    command = [sys.executable, 'tools/faults.py', f'examples/{example.name}.pads', f'examples/{example.data}', *example.options]
    return subprocess.run(command, cwd=HERE.parent, env={**os.environ, 'PADS_BIN': str(HERE / 'reader.py')},
                          capture_output=True, text=True).stdout


def index():
    """A table of all examples."""
    rows = [f'| {example.title} | `examples/{example.name}.pads` | {" ".join(f"`{word}`" for word in example.options) or "lines"} |\n'
            for example in examples()]
    return '| file | description | records |\n|---|---|---|\n' + ''.join(rows) + '\n'


def page():
    out, before = HEAD + index(), None
    for example in examples():
        out += section(example, before) + '\n'
        before = example.name
    return out.rstrip('\n') + '\n'


def run(program):
    """Runs the program on each example; the answer is how many differ."""
    differ = 0
    for example in examples():
        words = [program, 'parse', example.description, *example.options]
        done = subprocess.run(words, stdin=example.file.open('rb'), capture_output=True)
        good = done.stdout == example.lines.read_bytes() and done.returncode in (0, 1)
        differ += not good
        if not good:
            print(f'{example.data}: DIFFERS (status {done.returncode}) {done.stderr.decode().strip()}')
    print(f'{len(examples())} examples, {differ} differ')
    return differ


def main():
    sys.setrecursionlimit(100000)
    if sys.argv[1:] and sys.argv[1] != '--check':
        sys.exit(1 if run(sys.argv[1]) else 0)
    wrong = []
    for path, make in [*((example.lines, lambda example=example: wanted(example)) for example in examples()), (PAGE, lambda: page().encode())]:
        if not sys.argv[1:]:
            path.write_bytes(make())
        elif not path.exists() or path.read_bytes() != make():
            wrong.append(path.name)
    if wrong:
        sys.exit('not as made: ' + ', '.join(wrong))


if __name__ == '__main__':
    main()
