"""The parts of an input read by an engine, and their lines written in order."""

from typing import Callable, Iterable, Iterator, Protocol

from .options import Discipline
from .running import Job, counted, read_part
from .splitting import Cut, Part


class Engine(Protocol):
    """Whatever calls functions somewhere. An answer is that of the call, or the error that it ended with for good."""

    def each(self, function: Callable, calls: Iterable[tuple], urgent: bool = False) -> Iterator:
        """The answers of the calls with these arguments, in their order. It may be ahead with them. Urgent ones come
        before others that wait."""


class InProcess:
    """The engine of one process: each call when its answer is wanted."""

    def each(self, function, calls, urgent=False):
        """See `Engine`."""
        return (function(*call) for call in calls)


class PartFailed(Exception):
    """A part failed for good, or could not be numbered. The lines of all parts before it have been written, and no more."""

    def __init__(self, part: Part, reason: Exception):
        super().__init__(part, reason)
        self.part, self.reason = part, reason


def numbered(engine: Engine, job: Job, cut: Cut, discipline: Discipline) -> Iterator[Part]:
    """The parts with the numbers of their first records. Terminators are counted first, where the numbers come from them."""
    if all(part.record is not None for part in cut.parts):
        yield from cut.parts
        return
    # The last part's terminators number no part.
    calls = ((job, part, discipline.number) for part in cut.parts[:-1])
    counts = engine.each(counted, calls, urgent=True)
    record = 0
    for part in cut.parts:
        yield part._replace(record=record)
        if part is not cut.parts[-1]:
            record += next(counts)


def parse(engine: Engine, job: Job, cut: Cut, discipline: Discipline, write: Callable[[bytes], None]) -> int:
    """Writes the lines of the whole input, and gives its status: the worst of the parts'."""
    status = record = 0
    answers = engine.each(read_part, ((job, part) for part in numbered(engine, job, cut, discipline)))
    for part in cut.parts:
        try:
            of_part, first, count, lines = next(answers)
        except Exception as error:
            raise PartFailed(part, error) from error
        if first != record:
            raise PartFailed(part, ValueError(f"record {record} begins there, and {first} was counted: the input has changed"))
        write(lines)
        status = max(status, of_part)
        record += count
    return status
