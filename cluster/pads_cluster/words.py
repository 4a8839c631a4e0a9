"""The index of an input with length words: where its parts begin, found by one pass that looks at the words alone.

A word is a length of two bytes, high byte first, which counts the word's own four bytes too, and two zero bytes.
Where that isn't what stands there, or more bytes are announced than there are, all the rest is one broken record.
"""

import json
import os
import struct
from typing import Sequence

from . import inputs
from .inputs import File
from .bounds import Bound, must_begin_by

WORD = struct.Struct(">HH")
WINDOW = 1 << 16


def walk(files: Sequence[File], size: int, part: int) -> list[Bound]:
    """The first records' begins at the multiples of a part's size, or after them."""
    found: list[Bound] = []
    at, number, wanted = 0, 0, part
    base, window = 0, b""
    while at < size:
        if at >= wanted:
            must_begin_by(at, wanted, part)
            found.append(Bound(at, number))
            wanted = (at // part + 1) * part
        if at + 4 > size:
            break
        if at + 4 > base + len(window):
            base, window = at, inputs.read(files, at, min(at + WINDOW, size))
        length, zero = WORD.unpack_from(window, at - base)
        if zero or length < 4 or length > size - at:
            break
        at += length
        number += 1
    else:
        # No frame is broken, so the last record ends with the input.
        must_begin_by(at, wanted, part)
    return found


def thinned(found: Sequence[Bound], part: int) -> list[Bound]:
    """The bounds for parts of a size that is a multiple of the one for which these were found."""
    kept: list[Bound] = []
    wanted = part
    for bound in found:
        if bound.begin >= wanted:
            kept.append(bound)
            wanted = (bound.begin // part + 1) * part
    return kept


def state_of(files: Sequence[File]) -> list[list]:
    """What an index is of: paths, sizes and times of change."""
    return [[file.path, file.size, os.stat(file.path).st_mtime_ns] for file in files]


def stored(path: str, files: Sequence[File], part: int) -> list[Bound] | None:
    """The bounds by the index in a file, if it is of these files as they are, and the size of a part is a multiple of the
    index's."""
    try:
        with open(path, encoding="utf-8") as file:
            index = json.load(file)
        if index["files"] != state_of(files) or part % index["part"] != 0:
            return None
        return thinned([Bound(*bound) for bound in index["bounds"]], part)
    except (FileNotFoundError, ValueError, KeyError, TypeError, ZeroDivisionError):
        return None


def store(path: str, files: Sequence[File], part: int, found: Sequence[Bound]) -> None:
    """Keeps an index in a file, which is there as a whole or not at all."""
    beside = f"{path}.{os.getpid()}"
    with open(beside, "w", encoding="utf-8") as file:
        json.dump({"files": state_of(files), "part": part, "bounds": found}, file)
    os.replace(beside, path)


def of_words(files: Sequence[File], size: int, part: int, path: str | None = None) -> list[Bound]:
    """The bounds of records behind length words, by the index in a file if there is one that serves."""
    found = stored(path, files, part) if path else None
    if found is None:
        found = walk(files, size, part)
        if path:
            store(path, files, part, found)
    return found
