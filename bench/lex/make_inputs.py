#!/usr/bin/env python3
"""Writes the large inputs for the lexer, in two sizes each, so that a run over both shows that the
time grows linearly: names, one comment, one text, numbers, marks, and faults that stand at the end.

usage: make_inputs.py FOLDER
"""

import pathlib
import sys

MEGABYTE = 1_048_576


def inputs(size):
    """The inputs of a size, by name."""
    return {
        "names": (b"name_of_a_part " * size)[:size],
        "one-name": b"a" * size,
        "blanks": b" " * size,
        "block-comment": b"/*" + b"* /" * (size // 3 - 2) + b"*/",
        "line-comment": b"//" + b"x" * (size - 2),
        "text": b'"' + b"\\x41" * (size // 4 - 1) + b'"',
        "number": b"7" * size,
        "marks": (b"(::)..==&&" * size)[:size],
        "open-comment": b"/*" + b"*" * (size - 2),
        "open-text": b'"' + b"y" * (size - 1),
        "bad-byte-at-the-end": b"z " * (size // 2 - 1) + b"@",
        "bad-number-at-the-end": b"z " * (size // 2 - 1) + b"0x",
    }


def write(folder):
    """Writes each input in both sizes."""
    folder.mkdir(parents=True, exist_ok=True)
    for size in (MEGABYTE // 4, MEGABYTE):
        for name, content in inputs(size).items():
            (folder / f"{name}-{size}.desc").write_bytes(content)


if __name__ == "__main__":
    write(pathlib.Path(sys.argv[1]))
