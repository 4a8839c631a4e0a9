#!/usr/bin/env python3
"""Asks each example of table.txt for the nodes of paths: every path that its record type has, three steps deep, by PROGRAM and by
the second reader. Tells of each example how many paths there were, and which lines differ.

    examples/asked.py PROGRAM
"""
import subprocess
import sys

import gallery
import queries
import reader

DEEPEST = 3


def paths_below(module, of, depth):
    """The paths from a node of a declared type, each as the text behind the node's own."""
    yield ''
    sort = module.sort(of) if of is not None and depth else 'num'
    if not isinstance(sort, tuple) or sort[0] == 'Penum':
        return
    if sort[0] == 'Parray':
        steps = [(step, sort[1]['of']) for step in ('[0]', '[*]')]
    else:
        steps = [(f'.{name}', below) for name, (_, below) in queries.names_below(module, of).items()]
    for step, below in steps:
        yield from (step + path for path in paths_below(module, below, depth - 1))


def asked(program, example, path):
    words = [program, 'query', example.description, path, *example.options]
    return subprocess.run(words, input=example.file.read_bytes(), capture_output=True).stdout.decode()


def differing(program, example):
    """How many paths there are, and those whose lines differ."""
    module = reader.module_of(example.description.read_text(), example.options)
    rows = list(reader.rows(module, example.file.read_bytes(), example.options))
    paths = ['$' + path for path in paths_below(module, (False, module.decls[rows[-1].each]['name'], []), DEEPEST)]
    want = {path: ''.join(f'{line}\n' for row in rows for line in queries.queried(row, path, None)) for path in paths}
    return len(paths), [path for path in paths if asked(program, example, path) != want[path]]


def main():
    sys.setrecursionlimit(100000)
    failed = 0
    for example in gallery.examples():
        count, wrong = differing(sys.argv[1], example)
        failed += bool(wrong)
        print(f'{example.name} {example.data}: {count} paths{": DIFFERS: " + " ".join(wrong) if wrong else ""}')
    return 1 if failed else 0


if __name__ == '__main__':
    sys.exit(main())
