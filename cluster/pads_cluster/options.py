"""pads' own options, as far as an input must be cut by them."""

import re
from typing import NamedTuple, Sequence

# Options under which a record's line depends on its bytes, its number and its offset alone, so that parts may have them.
OF_RECORDS = ("--records=", "--coding=", "--max=")


class Discipline(NamedTuple):
    """How an input is divided into records: `term` with the terminator byte, `fixed` with the bytes of a block, `rdw`,
    `whole`."""

    kind: str
    number: int = 0


class Unknown(ValueError):
    """An option that parts can't have, or a discipline that isn't known here."""


def discipline_of(options: Sequence[str]) -> Discipline:
    """The discipline by these options."""
    for option in options:
        if not option.startswith(OF_RECORDS):
            raise Unknown(f"{option}: no option that parts of an input can have")
    value = next((option[len("--records="):] for option in options if option.startswith("--records=")), "nl")
    if value == "nl":
        return Discipline("term", 0x0A)
    if value in ("rdw", "whole"):
        return Discipline(value)
    if found := re.fullmatch(r"term:([0-9A-Fa-f]{2})", value):
        return Discipline("term", int(found[1], 16))
    if found := re.fullmatch(r"fixed:([1-9][0-9]*)", value):
        return Discipline("fixed", int(found[1]))
    raise Unknown(f"--records={value}: no discipline that is known here")
