"""Run the batches of an archive on the workers of a Dask scheduler."""
from __future__ import annotations

import asyncio
import collections
import concurrent.futures
import contextlib
import logging
import sys
from typing import Any, Deque, Iterable, Iterator, List, NoReturn, Tuple

from iim.archive.output import LOGGER
from iim.archive.rows import AHEAD, Blocks, Failure, FileRequest, Reader, lost_block

# The seconds after which a missing worker is reported, and after which the run fails.
FIRST_WAIT, LAST_WAIT = 10, 300

# The packages that log.
SILENT = "asyncio", "bokeh", "dask", "distributed", "tornado"

# The exceptions of a timeout. Before Python 3.11 they are different classes.
TIMEOUTS = TimeoutError, asyncio.TimeoutError, concurrent.futures.TimeoutError

# The exceptions of a result whose scheduler was lost.
LOST = asyncio.CancelledError, concurrent.futures.CancelledError, OSError, *TIMEOUTS


def fail(what: str, fault: BaseException) -> NoReturn:
    """Raise a `Failure` for an exception of Dask."""
    raise Failure(f"{what}: {fault or type(fault).__name__}") from None


@contextlib.contextmanager
def client_of(address: str) -> Iterator[Any]:
    """Connect to a scheduler, and wait until it has a worker.

    Raises:
        Failure: There is no scheduler at the address, or it has no worker.
    """
    import distributed
    import distributed.comm

    silence_logs()
    sys.unraisablehook = lambda *_: None
    try:
        distributed.comm.get_address_host_port(address)
        client = distributed.Client(address, set_as_default=False)
    except (OSError, *TIMEOUTS) as fault:
        fail(f"{address}: no scheduler", fault)
    except (ValueError, NotImplementedError) as fault:
        fail(f"{address}: not the address of a scheduler", fault)
    try:
        wait_for_worker(client, address)
        yield client
    finally:
        with contextlib.suppress(*LOST):
            client.close(timeout=2)


def silence_logs() -> None:
    """Disable all logs but that of iim-archive.

    Dask logs at length what a `Failure` states in one line.
    """
    for name, logger in list(logging.root.manager.loggerDict.items()):
        if isinstance(logger, logging.Logger) and name.partition(".")[0] != "iim":
            logger.disabled = True
    for name in SILENT:
        # (a logger that is made later has the level of the one above it)
        logging.getLogger(name).setLevel(logging.CRITICAL + 1)


def wait_for_worker(client: Any, address: str) -> None:
    """Wait until the scheduler has a worker.

    Raise `Failure` if it has none within `LAST_WAIT` seconds.
    """
    if has_worker(client, address, FIRST_WAIT):
        return
    wait = f"waiting {LAST_WAIT} seconds at most"
    LOGGER.warning("%s: the scheduler has no worker yet; %s", address, wait)
    if not has_worker(client, address, LAST_WAIT - FIRST_WAIT):
        raise Failure(f"{address}: the scheduler had no worker for {LAST_WAIT} seconds")


def has_worker(client: Any, address: str, seconds: float) -> bool:
    """Check whether the scheduler has a worker within this time."""
    try:
        client.wait_for_workers(1, timeout=seconds)
        return True
    except TIMEOUTS:
        return False
    except (OSError, ValueError) as fault:
        fail(f"{address}: the scheduler was lost", fault)


class Tasks:
    """The batches that were submitted to a scheduler."""

    def __init__(self, client: Any, address: str, reader: Reader) -> None:
        """Create an empty list of batches.

        Args:
            client: The client of the scheduler.
            address: The address of the scheduler, for messages.
            reader: The function that reads a batch.
        """
        import distributed

        self._client, self._address, self._reader = client, address, reader
        self._killed = distributed.KilledWorker
        # (its futures have no types)
        self._waiting: Deque[Tuple[List[FileRequest], Any]] = collections.deque()

    def __len__(self) -> int:
        """Return the number of batches that are not finished."""
        return len(self._waiting)

    def start(self, files: List[FileRequest]) -> None:
        """Submit a batch."""
        self._waiting.append((files, self._submit(files)))

    def oldest(self) -> Blocks:
        """Yield the blocks of the oldest batch.

        Dask retries the batches of a lost worker. If it abandons a batch because too many workers
        were lost with it, each of its files is retried separately.
        """
        files, future = self._waiting.popleft()
        try:
            yield self._result(future)
        except self._killed:
            yield from map(self._alone, files)

    def _submit(self, files: List[FileRequest]) -> Any:
        """Submit some files. Raise `Failure` if the scheduler was lost."""
        try:
            return self._client.submit(self._reader, files, pure=False)
        except (*LOST, RuntimeError) as fault:
            fail(f"{self._address}: the scheduler was lost", fault)

    def _result(self, future: Any) -> bytes:
        """Return the block of a submitted batch."""
        try:
            block: bytes = future.result()
            return block
        except self._killed:
            raise
        except (ImportError, AttributeError) as fault:
            fail(f"{self._address}: a worker can't import what it runs", fault)
        except LOST as fault:
            fail(f"{self._address}: the scheduler was lost", fault)

    def _alone(self, file: FileRequest) -> bytes:
        """Return the block of one file, which may be lost."""
        try:
            return self._result(self._submit([file]))
        except self._killed:
            return lost_block(file, self._reader)


def by_distributed(batches: Iterable[List[FileRequest]], reader: Reader, address: str) -> Blocks:
    """Run the batches on the workers of a Dask scheduler, and yield their blocks in order."""
    with client_of(address) as client:
        tasks = Tasks(client, address, reader)
        ahead = AHEAD * max(1, sum(client.nthreads().values()))
        for batch in batches:
            tasks.start(batch)
            if len(tasks) >= ahead:
                yield from tasks.oldest()
        while tasks:
            yield from tasks.oldest()
