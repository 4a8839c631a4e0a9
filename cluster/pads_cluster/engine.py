"""The engine of a cluster: dask.distributed.

It chooses a worker for each call, calls again on another one if a worker dies, and calls again if a call ends with an
error. The modules that workers need are sent to them first, so nothing of this package has to be installed there.
"""

import collections
import contextlib
import logging
import tempfile
import zipfile
from pathlib import Path
from typing import Callable, Iterable, Iterator

import distributed
from distributed.diagnostics.plugin import UploadFile

from . import SENT

# How often a call that ended with an error is tried again.
AGAIN = 2
# How many calls wait or run for each thread of the cluster.
AHEAD = 3


class NoCluster(Exception):
    """There is no scheduler, or it has no workers, or they can't be used."""


class Cluster:
    """The engine of the cluster to which a client is connected."""

    def __init__(self, client: distributed.Client):
        self.client, self.calls = client, 0
        self.ahead = AHEAD * max(1, sum(client.nthreads().values()))

    def submit(self, function: Callable, call: tuple, urgent: bool) -> distributed.Future:
        """Begins a call."""
        self.calls += 1
        key = f"pads-{function.__name__}-{self.client.id}-{self.calls}"
        return self.client.submit(function, *call, key=key, pure=False, retries=AGAIN, priority=int(urgent))

    def each(self, function: Callable, calls: Iterable[tuple], urgent: bool = False) -> Iterator:
        """See `joining.Engine`. An error in the making of a call comes in its place, behind the answers before it."""
        begun: collections.deque = collections.deque()
        rest, error = iter(calls), None
        while True:
            while len(begun) < self.ahead and error is None:
                try:
                    begun.append(self.submit(function, next(rest), urgent))
                except StopIteration:
                    break
                except Exception as raised:  # pylint: disable=broad-except
                    error = raised
            if not begun:
                break
            # The future goes with this statement, and with it the answer's place on the worker.
            yield begun.popleft().result()
        if error is not None:
            raise error


def send(client: distributed.Client) -> None:
    """Gives the modules to all workers, and to those that come later."""
    with tempfile.TemporaryDirectory() as folder:
        path = Path(folder, "pads_cluster.zip")
        with zipfile.ZipFile(path, "w") as archive:
            for name, source in SENT.items():
                archive.writestr(f"pads_cluster/{name}.py", source)
        # There is one at a time, so that a later version takes the place of an earlier one.
        client.register_worker_plugin(UploadFile(str(path)), name="pads-cluster")


def hush() -> None:
    """Keeps the engine's own words from standard error, which has the last words of the run alone. Its loggers have levels of
    their own, so all of them are shut off."""
    logging.disable(logging.CRITICAL)


@contextlib.contextmanager
def connected(address: str, seconds: float) -> Iterator[Cluster]:
    """The cluster whose scheduler is at this address, once it has a worker."""
    hush()
    try:
        client = distributed.Client(address, timeout=seconds, direct_to_workers=True, set_as_default=False)
    except (OSError, ValueError) as error:
        raise NoCluster(f"no scheduler at {address}: {error}") from None
    try:
        try:
            client.wait_for_workers(1, timeout=seconds)
            send(client)
        except (TimeoutError, distributed.TimeoutError):
            raise NoCluster(f"the scheduler at {address} has no workers") from None
        yield Cluster(client)
    finally:
        # A scheduler that has died can't be taken leave of.
        with contextlib.suppress(Exception):
            client.close(timeout=10)


@contextlib.contextmanager
def local(workers: int) -> Iterator[str]:
    """A cluster of this machine alone with so many worker processes: the address of its scheduler."""
    hush()
    with distributed.LocalCluster(n_workers=workers, threads_per_worker=1, host="127.0.0.1", dashboard_address=None) as cluster:
        yield cluster.scheduler_address
