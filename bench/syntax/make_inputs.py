#!/usr/bin/env python3
"""Writes the large inputs for the parser, in two sizes each, so that a run over both shows that the time grows
linearly: many declarations, one long declaration of each kind, long expressions, and faults that stand at the
end.

usage: make_inputs.py FOLDER
"""

import pathlib
import sys

MEGABYTE = 1_048_576
DEEPEST = "(" * 64 + "a" + ")" * 64


def filled(begin, part, end, size):
    """A text of about that size: a begin, so many parts, an end."""
    return begin + part * ((size - len(begin) - len(end)) // len(part)) + end


def inputs(size):
    """The inputs of a size, by name: a filter where the name ends in `.filter`, else a description."""
    return {
        "declarations.desc": filled("", "Ptypedef t u;", "", size),
        "parts.desc": filled("Pstruct s {", "'a';", "};", size),
        "fields.desc": filled("Pstruct s {", "t(:1:) x : x > 0;", "};", size),
        "cases.desc": filled("Punion u { Pswitch (k) {", "Pcase 1: t x;", "} };", size),
        "labels.desc": filled("Penum e { A", ",A", ",};", size),
        "parameters.desc": filled("Pstruct s(:t n", ",t n", ":) { };", size),
        "arguments.desc": filled("Ptypedef t(:1", ",1", ":) u;", size),
        "options.desc": filled("Parray a { t[] : Plast(1)", "&&Plast(1)", "; };", size),
        "no-semicolon-at-the-end.desc": filled("", "Ptypedef t u;", "Ptypedef t u", size),
        "sum.filter": filled("a", "+a", "", size),
        "operators.filter": filled("a", "*-a||a&&a==a<a+a", "", size),
        "steps.filter": filled("a", ".b[0]", "", size),
        "64-levels.filter": filled(DEEPEST, "+" + DEEPEST, "", size),
        "65-levels-at-the-end.filter": filled("a", "+a", "+" + "(" * 65, size),
    }


def write(folder):
    """Writes each input in both sizes."""
    folder.mkdir(parents=True, exist_ok=True)
    for size in (MEGABYTE // 4, MEGABYTE):
        for name, content in inputs(size).items():
            (folder / f"{size}-{name}").write_text(content)


if __name__ == "__main__":
    write(pathlib.Path(sys.argv[1]))
