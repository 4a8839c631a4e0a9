"""The command `pads-cluster`."""

import argparse
import os
import re
import signal
import sys
from contextlib import ExitStack

from . import VERSION, inputs, lines, options, splitting
from .bounds import Alone
from .joining import PartFailed, parse
from .running import Job, tried

# The statuses of pads that are this command's too (docs/COMMANDS.md), and two of its own.
USAGE, FILE_FAULT, READ_FAULT, WRITE_FAULT, TOO_LONG = 2, 4, 5, 6, 8
ALONE, NO_CLUSTER = 10, 11

MOST = 1 << 62
SIZES = {"": 1, "K": 1 << 10, "M": 1 << 20, "G": 1 << 30}

ABOUT = "Runs `pads parse` on the parts of an input, on a cluster of dask.distributed or on this machine: docs/SCALE.md."
USAGES = """pads-cluster parse DESC FILE.. --scheduler ADDRESS [--part SIZE] [--pads PROGRAM] [--index FILE] [pads' options]
       pads-cluster move SIZES N [--head BYTES]"""


class Ended(Exception):
    """The run can't be completed: an exit status and the last words."""

    def __init__(self, status: int, words: str):
        super().__init__(status, words)
        self.status, self.words = status, words


class Words(argparse.ArgumentParser):
    """A parser whose errors are last words."""

    def error(self, message):
        raise Ended(USAGE, f"usage: {USAGES}\n{message}")


def bytes_of(text: str) -> int:
    """A size such as 65536, 64K or 16M."""
    found = re.fullmatch(r"([1-9][0-9]*)([KMG]?)", text)
    if found is None:
        raise argparse.ArgumentTypeError(f"{text} is no size such as 64K or 16M")
    return int(found[1]) * SIZES[found[2]]


def of_parse() -> Words:
    """The words of `parse`."""
    words = Words(prog="pads-cluster parse", description=ABOUT, allow_abbrev=False)
    words.add_argument("description", metavar="DESC", help="the description, a file of this machine")
    words.add_argument("files", metavar="FILE", nargs="+", help="the input: files that each worker finds at the same path. Several are read as one, as `cat` would join them")
    where = words.add_mutually_exclusive_group(required=True)
    where.add_argument("--scheduler", metavar="ADDRESS", help="the cluster's scheduler, such as tcp://head:8786")
    where.add_argument("--local", metavar="N", type=int, help="in place of a cluster: N worker processes on this machine, which live as long as the run")
    words.add_argument("--part", metavar="SIZE", type=bytes_of, default=bytes_of("16M"), help="about how many bytes a part has (16M)")
    words.add_argument("--pads", metavar="PROGRAM", default=os.environ.get("PADS_BIN", "pads"), help="the program, as each worker finds it (PADS_BIN, or else pads)")
    words.add_argument("--index", metavar="FILE", help="under --records=rdw: where the index of length words is kept for later runs")
    words.add_argument("--wait", metavar="SECONDS", type=float, default=30, help="how long a scheduler and its first worker are waited for (30)")
    words.epilog = "All other options are those of `pads parse`: --records, --coding, --max."
    return words


def of_move() -> Words:
    """The words of `move`."""
    words = Words(prog="pads-cluster move", description="Moves the lines of part number N on standard input to the whole input.", allow_abbrev=False)
    words.add_argument("sizes", metavar="SIZES", help="a file with a line for each part: its records and its bytes, as `wc -lc` writes them")
    words.add_argument("number", metavar="N", type=int, help="the part's number, from 1")
    words.add_argument("--head", metavar="BYTES", type=int, default=0, help="each part begins with the input's first record, which has so many bytes")
    return words


def write_out(data: bytes) -> None:
    """Writes on standard output."""
    rest = memoryview(data)
    try:
        while rest:
            rest = rest[os.write(1, rest):]
    except OSError as error:
        raise Ended(WRITE_FAULT, f"write fault: {error.strerror}") from None


def opened(given) -> tuple[bytes, tuple[inputs.File, ...]]:
    """The description, and the files of the input."""
    try:
        with open(given.description, "rb") as file:
            description = file.read()
    except OSError as error:
        raise Ended(FILE_FAULT, f"file fault: {given.description}: {error.strerror}") from None
    try:
        files = inputs.joined(given.files)
    except OSError as error:
        raise Ended(READ_FAULT, f"read fault: {error.filename}: {error.strerror}") from None
    if inputs.size_of(files) > MOST:
        raise Ended(TOO_LONG, "input too long")
    return description, files


def cut_up(given, files, discipline) -> splitting.Cut:
    """The parts of the input."""
    try:
        return splitting.cut(files, discipline, given.part, given.index)
    except Alone as reason:
        raise Ended(ALONE, f"left to one machine: {reason}") from None
    except OSError as error:
        raise Ended(READ_FAULT, f"read fault: {error.filename}: {error.strerror}") from None


def engine_of(given, until: ExitStack):
    """The engine, until the run has ended. Only here is dask needed."""
    from . import engine
    try:
        address = given.scheduler or until.enter_context(engine.local(given.local))
        return until.enter_context(engine.connected(address, given.wait))
    except engine.NoCluster as error:
        raise Ended(NO_CLUSTER, str(error)) from None


def try_order(engine, job: Job) -> None:
    """Lets `pads` judge the description and its options."""
    try:
        status, words = next(engine.each(tried, [(job,)]))
    except Exception as error:
        raise Ended(NO_CLUSTER, f"pads can't be run on the cluster: {error}") from None
    if status != 0:
        raise Ended(status, words)


def told(failed: PartFailed) -> Ended:
    """The status and the last words if a part failed for good."""
    part, reason = failed.part, failed.reason
    status, words = NO_CLUSTER, f"{type(reason).__name__}: {reason}"
    if isinstance(reason, ChildProcessError):
        status, words = reason.errno, reason.strerror
    elif isinstance(reason, OSError) and reason.filename is not None:
        status, words = READ_FAULT, f"read fault: {reason.filename}: {reason.strerror}"
    return Ended(status, f"bytes {part.begin} to {part.end} failed, and the lines of all records before them are written: {words}")


def do_parse(words: list[str]) -> int:
    """`pads-cluster parse`."""
    given, own = of_parse().parse_known_intermixed_args(words)
    try:
        discipline = options.discipline_of(own)
    except options.Unknown as error:
        raise Ended(USAGE, f"usage: {error}") from None
    try:
        os.fstat(1)
    except OSError:
        # Closed, its place would be taken by the first file that is opened.
        raise Ended(WRITE_FAULT, "write fault: standard output is closed") from None
    description, files = opened(given)
    job = Job(VERSION, given.pads, description, tuple(own), files, 0)
    with ExitStack() as until:
        engine = engine_of(given, until)
        try_order(engine, job)
        cut = cut_up(given, files, discipline)
        try:
            return parse(engine, job._replace(head=cut.head), cut, discipline, write_out)
        except PartFailed as failed:
            raise told(failed) from None


def do_move(words: list[str]) -> int:
    """`pads-cluster move`."""
    given = of_move().parse_args(words)
    try:
        with open(given.sizes, encoding="ascii") as file:
            sizes = [tuple(map(int, line.split())) for line in file]
    except (OSError, ValueError) as error:
        raise Ended(FILE_FAULT, f"file fault: {given.sizes}: {error}") from None
    if not 1 <= given.number <= len(sizes):
        raise Ended(USAGE, f"usage: {given.sizes} has no part {given.number}")
    repeated = 1 if given.head else 0
    before = sizes[:given.number - 1]
    record = sum(records - repeated for records, _ in before)
    by = sum(size - given.head for _, size in before)
    dropped = repeated if before else 0
    try:
        write_out(lines.moved(sys.stdin.buffer.read(), record, by, dropped))
    except lines.Form as error:
        raise Ended(READ_FAULT, f"read fault: {error}") from None
    return 0


def main(words: list[str]) -> int:
    """Does what the words say, and gives the exit status."""
    try:
        match words:
            case ["parse", *rest]:
                return do_parse(rest)
            case ["move", *rest]:
                return do_move(rest)
        raise Ended(USAGE, f"usage: {USAGES}")
    except Ended as ended:
        print(f"pads-cluster: {ended.words}", file=sys.stderr)
        return ended.status
    except KeyboardInterrupt:
        signal.signal(signal.SIGINT, signal.SIG_DFL)
        os.kill(os.getpid(), signal.SIGINT)
        raise
