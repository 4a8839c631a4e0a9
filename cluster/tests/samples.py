"""Inputs for tests: records of the examples, in any order and damaged here and there."""

import random
from pathlib import Path
from typing import Iterator, NamedTuple

EXAMPLES = Path(__file__).resolve().parents[2] / "examples"


class Kind(NamedTuple):
    """An example: its description, its records as they lie in its input, and pads' options."""

    name: str
    records: list[bytes]
    options: tuple[str, ...]

    @property
    def description(self) -> str:
        """The file of the description."""
        return str(EXAMPLES / f"{self.name}.pads")


def behind_words(data: bytes) -> Iterator[bytes]:
    """Records with their length words. What is broken at the end isn't among them."""
    while len(data) >= 4 and data[2:4] == b"\0\0" and 4 <= int.from_bytes(data[:2], "big") <= len(data):
        size = int.from_bytes(data[:2], "big")
        yield data[:size]
        data = data[size:]


def kinds() -> list[Kind]:
    """All examples with an input, and one with a terminator of its own."""
    read = lambda name: (EXAMPLES / name).read_bytes()
    blocks = read("accounts.bin")
    bars = read("pair.txt").replace(b"\n", b"\x1e")
    return [
        Kind("weblog", read("weblog.txt").splitlines(True), ()),
        Kind("provisioning", read("provisioning.txt").splitlines(True), ()),
        Kind("readings", read("readings.txt").splitlines(True), ()),
        Kind("pair", [record + b"\x1e" for record in bars.split(b"\x1e")], ("--records=term:1e",)),
        Kind("accounts", [blocks[at:at + 35] for at in range(0, len(blocks) - 34, 35)], ("--records=fixed:35", "--coding=ebcdic")),
        Kind("messages", list(behind_words(read("messages.bin"))), ("--records=rdw",)),
    ]


def damaged(dice: random.Random, data: bytes) -> bytes:
    """The bytes with one of them changed, or some left out, or some put in."""
    at = dice.randrange(len(data) + 1)
    to = min(len(data), at + dice.choice((1, 1, 2, 9, 60)))
    put = dice.choice((b"", bytes([dice.randrange(256)]), b"\n", b"\n\n", b"\x1e", b"\0\4\0\0", b"\0\3\0\0", b'"\\', b"9" * 70))
    return data[:at] + put + data[to:] if dice.randrange(2) else data[:at] + put + data[at:]


def some(dice: random.Random, kind: Kind, records: int) -> bytes:
    """An input of about so many records, most of them good. A header, if it has one, is most often first."""
    first = kind.records[:1] if dice.randrange(8) else []
    data = b"".join([*first, *(dice.choice(kind.records) for _ in range(records))])
    # Behind a bad length word all is broken, so most inputs with words are left as they are up to their ends.
    for _ in range(dice.randrange(4)):
        if kind.name != "messages":
            data = damaged(dice, data)
        elif dice.randrange(3) == 0:
            keep = dice.randrange(len(data) + 1)
            data = data[:keep] + damaged(dice, data[keep:])
    return data[:-1] if dice.randrange(4) == 0 else data


def large(kind: Kind, size: int) -> Iterator[bytes]:
    """An input of about so many bytes in pieces, the first record first. The last record isn't whole."""
    dice = random.Random(kind.name)
    left = size - len(kind.records[0])
    yield kind.records[0]
    while left > 0:
        piece = b"".join(dice.choices(kind.records, k=5000))[:max(left, 1)]
        yield piece
        left -= len(piece)
