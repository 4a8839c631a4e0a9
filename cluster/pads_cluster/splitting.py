"""An input cut into parts, each of which can be read by itself."""

from typing import NamedTuple, Sequence

from . import bounds, inputs, words
from .bounds import Alone, Bound
from .inputs import File
from .options import Discipline


class Part(NamedTuple):
    """The bytes of the input from one offset to another, which are whole records, and the number of the first of them
    where it is known."""

    begin: int
    end: int
    record: int | None


class Cut(NamedTuple):
    """The parts of an input, in order and without gaps. `head` is how many bytes the input's first record takes up, with
    its terminator or length word; it counts only if there is more than one part."""

    parts: list[Part]
    head: int


def bounds_of(files: Sequence[File], size: int, discipline: Discipline, part: int, index: str | None) -> list[Bound]:
    """Where the parts behind the first one begin."""
    if discipline.kind == "whole":
        raise Alone("under --records=whole the input is one record. Take pads parse")
    if discipline.kind == "term":
        return bounds.of_lines(files, size, part, discipline.number)
    if discipline.kind == "fixed":
        return bounds.of_blocks(size, part, discipline.number)
    return words.of_words(files, size, part, index)


def head_of(files: Sequence[File], discipline: Discipline, bound: int) -> int:
    """The bytes that the first record of an input takes up, which ends at this bound or before it."""
    if discipline.kind == "term":
        end = inputs.find(files, discipline.number, 0, bound)
        return bound if end is None else end + 1
    if discipline.kind == "fixed":
        return discipline.number
    return int.from_bytes(inputs.read(files, 0, 2), "big")


def cut(files: Sequence[File], discipline: Discipline, part: int, index: str | None = None) -> Cut:
    """Cuts an input into parts of about this size; an empty one has none. `index` is where the index of length words is
    kept, if it is kept."""
    size = inputs.size_of(files)
    if size == 0 and discipline.kind != "whole":
        return Cut([], 0)
    found = bounds_of(files, size, discipline, part, index)
    begins = [Bound(0, 0), *found]
    ends = [*(bound.begin for bound in found), size]
    parts = [Part(bound.begin, end, bound.record) for bound, end in zip(begins, ends)]
    return Cut(parts, head_of(files, discipline, found[0].begin) if found else 0)
