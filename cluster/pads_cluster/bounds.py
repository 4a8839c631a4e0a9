"""Where parts of an input begin: at records, near the multiples of a wanted size.

For each of these multiples the bound is the first record's begin there or after it. So no part is longer than two wanted
sizes, except that a broken frame, which is all the rest of an input, stays in one part. If a record covers the bytes
from one multiple to beyond the next, the input is left to one machine; a record that is no longer than a part never does.
"""

from typing import Callable, NamedTuple, Sequence

from . import inputs
from .inputs import File


class Alone(Exception):
    """The input is left to one machine; the text says why."""


class Bound(NamedTuple):
    """An offset at which a record begins, and that record's number where it is known."""

    begin: int
    record: int | None


def must_begin_by(begin: int, wanted: int, part: int) -> None:
    """Refuses a bound that is more than a part behind the multiple for which it was wanted."""
    if begin > wanted + part:
        raise Alone(f"a record is longer than a part: none begins from byte {wanted} to byte {wanted + part}. Take larger parts (--part), or pads parse")


def search(size: int, part: int, begin_from: Callable[[int], int]) -> list[int]:
    """The bounds of an input of this size, where `begin_from` gives the first offset, from one on, at which a record begins
    or the input ends. It need look no further than a part: any offset that is beyond that will do."""
    found: list[int] = []
    for wanted in range(part, size, part):
        if found and wanted <= found[-1]:
            continue
        begin = begin_from(wanted)
        must_begin_by(begin, wanted, part)
        if begin == size:
            break
        found.append(begin)
    return found


def line_begin(files: Sequence[File], size: int, part: int, terminator: int, wanted: int) -> int:
    """The first offset behind a terminator, from the wanted one on, or the input's end."""
    limit = min(wanted + part, size)
    at = inputs.find(files, terminator, wanted - 1, limit)
    if at is not None:
        return at + 1
    return size if limit == size else limit + 1


def block_begin(size: int, block: int, wanted: int) -> int:
    """The first block's begin, from the wanted offset on, or the input's end."""
    return min(-(-wanted // block) * block, size)


def of_lines(files: Sequence[File], size: int, part: int, terminator: int) -> list[Bound]:
    """The bounds of records that a terminator closes. Their numbers are known only once all terminators are counted."""
    begins = search(size, part, lambda wanted: line_begin(files, size, part, terminator, wanted))
    return [Bound(begin, None) for begin in begins]


def of_blocks(size: int, part: int, block: int) -> list[Bound]:
    """The bounds of blocks."""
    begins = search(size, part, lambda wanted: block_begin(size, block, wanted))
    return [Bound(begin, begin // block) for begin in begins]
