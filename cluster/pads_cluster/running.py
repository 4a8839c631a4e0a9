"""What a worker does with a part: one process of `pads` reads it.

Nothing but the standard library is used here, and nothing is kept from one part to the next. So a part can be read
again at any time, on another worker, and what comes of it depends on the files alone.
"""

import itertools
import subprocess
import tempfile
import threading
from typing import Iterable, NamedTuple

from . import VERSION, inputs, lines
from .inputs import File
from .splitting import Part


class Job(NamedTuple):
    """What all parts have in common: the version of the modules that are to read them, the program, its description and
    options, the input. `head` is how many bytes the input's first record takes up."""

    version: str
    program: str
    description: bytes
    options: tuple[str, ...]
    files: tuple[File, ...]
    head: int


class Outcome(NamedTuple):
    """How a process of `pads` ended: its exit status, what it wrote, and its last words."""

    status: int
    written: bytes
    words: str


class Feeder(threading.Thread):
    """Hands pieces to a process. If the process takes no more of them, its status tells the reason."""

    def __init__(self, pieces: Iterable[bytes], pipe):
        super().__init__(daemon=True)
        self.pieces, self.pipe, self.error = pieces, pipe, None
        self.start()

    def run(self):
        try:
            with self.pipe:
                for piece in self.pieces:
                    self.pipe.write(piece)
        except BrokenPipeError:
            pass
        except Exception as error:  # pylint: disable=broad-except
            self.error = error

    def finish(self):
        """Waits for the last piece, and raises what went wrong with the reading of one."""
        self.join()
        if self.error is not None:
            raise self.error


def run(job: Job, pieces: Iterable[bytes]) -> Outcome:
    """Runs `pads parse` on these bytes. A program that can't be started, or that a signal ends, is an error."""
    if job.version != VERSION:
        raise RuntimeError("the worker has another version of pads-cluster: start it anew")
    with tempfile.NamedTemporaryFile(prefix="pads-cluster-") as description, tempfile.TemporaryFile() as words:
        description.write(job.description)
        description.flush()
        order = [job.program, "parse", description.name, *job.options]
        try:
            process = subprocess.Popen(order, stdin=subprocess.PIPE, stdout=subprocess.PIPE, stderr=words)
        except OSError as error:
            raise RuntimeError(f"the program {job.program} can't be started: {error.strerror}") from None
        with process:
            feeder = Feeder(pieces, process.stdin)
            written = process.stdout.read()
            feeder.finish()
        words.seek(0)
        said = words.read().decode(errors="replace").strip()
    if process.returncode < 0:
        raise RuntimeError(f"the program was ended by signal {-process.returncode}")
    return Outcome(process.returncode, written, said)


def tried(job: Job) -> tuple[int, str]:
    """What `pads` says of an order: its status and last words on an empty input."""
    outcome = run(job, ())
    return outcome.status, outcome.words


def counted(job: Job, part: Part, terminator: int) -> int:
    """How many terminators a part has."""
    return inputs.count(job.files, terminator, part.begin, part.end)


def read_part(job: Job, part: Part) -> tuple[int, int, int, bytes]:
    """The lines of a part as they are in those of the whole input: the status, 0 or 1; the number of the first record, and
    how many records these are; their lines.

    A part that isn't the first is read behind the input's first record, whose line is dropped: in a source with a header
    that one is the header, and all others are records. `pads` reads no record differently for those before it, so no
    other source minds. The status stays right too, since that record belongs to the input.
    """
    dropped, head = (1, job.head) if part.begin > 0 else (0, 0)
    before = inputs.pieces(job.files, 0, head)
    outcome = run(job, itertools.chain(before, inputs.pieces(job.files, part.begin, part.end)))
    if outcome.status > 1:
        raise ChildProcessError(outcome.status, outcome.words)
    moved = lines.moved(outcome.written, part.record - dropped, part.begin - head, dropped)
    return outcome.status, part.record, moved.count(b"\n"), moved
