"""Several files that are read as one input, one after another, as `cat` would join them."""

import os
import stat
from typing import BinaryIO, Iterator, NamedTuple, Sequence

PIECE = 1 << 20


class File(NamedTuple):
    """A file, and how many bytes it had when the run began."""

    path: str
    size: int


def joined(paths: Sequence[str]) -> tuple[File, ...]:
    """The files of an input, by their absolute paths. Only regular files have a place that a part can begin at."""
    files = []
    for path in paths:
        seen = os.stat(path)
        if not stat.S_ISREG(seen.st_mode):
            raise OSError(None, "not a regular file, so no part of it can be read by itself", path)
        files.append(File(os.path.abspath(path), seen.st_size))
    return tuple(files)


def size_of(files: Sequence[File]) -> int:
    """The bytes of the input."""
    return sum(file.size for file in files)


def piece_of(file: BinaryIO, size: int, at: int, most: int) -> bytes:
    """At most so many bytes of a file, and one at least. An error names the file."""
    try:
        piece = os.pread(file.fileno(), most, at)
    except OSError as error:
        raise OSError(error.errno, error.strerror, file.name) from None
    if not piece:
        raise OSError(None, f"it ends at byte {at}, and had {size} bytes when the run began", file.name)
    return piece


def pieces(files: Sequence[File], begin: int, end: int, most: int = PIECE) -> Iterator[bytes]:
    """The bytes from one offset of the input to another, in pieces of at most so many. A file that has become shorter
    is an error."""
    base = 0
    for path, size in files:
        at, stop = max(begin - base, 0), min(end - base, size)
        if at < stop:
            with open(path, "rb", buffering=0) as file:
                while at < stop:
                    piece = piece_of(file, size, at, min(most, stop - at))
                    yield piece
                    at += len(piece)
        base += size


def read(files: Sequence[File], begin: int, end: int) -> bytes:
    """The bytes from one offset of the input to another."""
    return b"".join(pieces(files, begin, end))


def find(files: Sequence[File], byte: int, begin: int, end: int) -> int | None:
    """The first offset from `begin` on and below `end` at which this byte stands."""
    # Most records end soon: a small piece comes first.
    for first, last, most in ((begin, min(begin + 4096, end), 4096), (begin + 4096, end, PIECE)):
        at = first
        for piece in pieces(files, first, last, most):
            found = piece.find(byte)
            if found >= 0:
                return at + found
            at += len(piece)
    return None


def count(files: Sequence[File], byte: int, begin: int, end: int) -> int:
    """How often this byte stands from one offset to another."""
    return sum(piece.count(byte) for piece in pieces(files, begin, end))
