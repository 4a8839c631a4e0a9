"""Which crates there are and which stand on which, as crates.txt says. Used by ./dev and launcher/build."""

from pathlib import Path

TOP = Path(__file__).resolve().parent.parent
CRATES = TOP / "crates"


def rows():
    """The rows of crates.txt by the crate that they are about, in their order, without comments."""
    lines = [line.split("#")[0].strip() for line in (TOP / "crates.txt").read_text().splitlines()]
    return {line.partition(":")[0].split()[0]: line for line in lines if line}


def read_crates():
    """The crates in the order of crates.txt, each with the crates of this repository that it uses."""
    uses = {name: row.partition(":")[2].split() for name, row in rows().items()}
    return {name: [low for low in lows if low in uses] for name, lows in uses.items()}


def reach(name, next_of):
    """All that can be reached from a crate, without itself."""
    found, waiting = set(), [name]
    while waiting:
        for other in next_of[waiting.pop()]:
            if other not in found:
                found.add(other)
                waiting.append(other)
    return found


def lowest_first(names, uses):
    """The crates in an order in which each comes after those that it uses."""
    return sorted(names, key=lambda name: (len(reach(name, uses)), name))
