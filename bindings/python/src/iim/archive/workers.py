"""Read the batches of an archive with processes on this machine.

Each process has its own pipe. `concurrent.futures` has one queue for all processes: if one is
killed while it returns a long block, the reading process waits forever for the rest (reproducible
with Python 3.11 and blocks of 3 MB).
"""
from __future__ import annotations

import collections
import concurrent.futures
import contextlib
import ctypes
import functools
import multiprocessing
import queue
import signal
import threading
import time
from multiprocessing.connection import Connection
from typing import TYPE_CHECKING, Any, Deque, Iterable, List, Optional

from iim.archive.output import LOGGER
from iim.archive.rows import (
    AHEAD,
    LONGEST_TIME,
    Blocks,
    Failure,
    FileRequest,
    Reader,
    lost_block,
    too_slow,
    watch_reads,
)

if TYPE_CHECKING:
    from concurrent.futures import Future

# A number in memory that two processes share.
Counter = Any

# The seconds that a process has in addition to the time limit of a file.
GRACE = 5


def serve(pipe: Connection, other: Connection, reader: Reader, started: Counter) -> None:
    """Read batches until Ctrl-C, or until the parent process ends.

    Args:
        pipe: This process's end of the pipe.
        other: The parent's end of the pipe, which is closed here.
        reader: The function that reads a batch.
        started: The number of files that were started, for the parent.
    """
    for each in signal.SIGINT, signal.SIGTERM:
        signal.signal(each, signal.SIG_DFL)
    with contextlib.suppress(OSError, AttributeError):
        # PR_SET_PDEATHSIG, on Linux: end with the parent at once, even in a read
        ctypes.CDLL(None).prctl(1, signal.SIGKILL)
    # (if the parent ended before that, the pipe is at its end once no process has its other end; a
    # worker started later, which has a copy of that end, ends first)
    other.close()
    watch_reads(functools.partial(note_file, started))
    with contextlib.suppress(EOFError, OSError):
        while True:
            pipe.send_bytes(reader(pipe.recv()))


def note_file(started: Counter) -> None:
    """Count one more file, for the parent process."""
    started.value += 1


class Stuck(OSError):
    """Raised if a worker exceeds the time limit of a file and can't end the read itself."""


class Worker:
    """A process that reads a batch at a time."""

    def __init__(self, reader: Reader, most: float = LONGEST_TIME) -> None:
        """Start a process.

        Args:
            reader: The function that reads a batch.
            most: The time limit of a file, in seconds.
        """
        self._pipe, its = multiprocessing.Pipe()
        self._most, self._killed = most, False
        # (the number of files that it has tried to open)
        self._started: Counter = multiprocessing.RawValue(ctypes.c_uint64, 0)
        arguments = its, self._pipe, reader, self._started
        self._process = multiprocessing.Process(target=serve, args=arguments, daemon=True)
        self._process.start()
        its.close()

    def read(self, batch: List[FileRequest]) -> bytes:
        """Return the block of a batch.

        Raises:
            EOFError: The process died.
            OSError: The process died.
            Stuck: The process is stuck in a read, and must be killed.
        """
        self._pipe.send(batch)
        started, since = -1, time.monotonic()
        # (the process can't end a read that blocks in the kernel, such as of a lost file server)
        while not self._pipe.poll(1):
            if self._killed:
                raise EOFError
            if started != self._started.value:
                started, since = self._started.value, time.monotonic()
            elif time.monotonic() - since > self._most + GRACE:
                raise Stuck
        return self._pipe.recv_bytes()

    def kill(self) -> None:
        """Kill the process."""
        self._killed = True
        self._process.kill()

    def end(self) -> None:
        """Kill the process, and wait until it has ended."""
        self.kill()
        self._process.join(GRACE)
        self._pipe.close()


class Stopped(Exception):
    """Raised if the pool was stopped, so that no block is needed."""


class Pool:
    """A pool of processes, each with a thread that waits for it.

    As a context manager it starts the processes, and kills them.
    """

    def __init__(self, count: int, reader: Reader, most: float) -> None:
        """Create a pool without processes.

        Args:
            count: The number of processes.
            reader: The function that reads a batch.
            most: The time limit of a file, in seconds.
        """
        self._reader, self._most = reader, most
        self._workers: List[Worker] = []
        self._stopped = False
        # (one process is started at a time, so that none inherits the end of another one's pipe)
        self._lock = threading.Lock()
        # (`None` is a process that is not started yet)
        self._idle: queue.SimpleQueue[Optional[Worker]] = queue.SimpleQueue()
        self._count = count
        self._threads = concurrent.futures.ThreadPoolExecutor(count)

    def __enter__(self) -> Pool:
        """Start the processes. Raise `Failure` if the system does not allow that number."""
        try:
            for _ in range(self._count):
                self._idle.put(self._start_worker())
        except OSError as fault:
            self.stop()
            raise Failure(f"--workers {self._count}: {fault.strerror or fault}") from None
        except BaseException:
            self.stop()
            raise
        return self

    def __exit__(self, *_: object) -> None:
        """Kill the processes."""
        self.stop()

    def _start_worker(self) -> Worker:
        """Start a process. Raise `Stopped` if the pool was stopped."""
        with self._lock:
            if self._stopped:
                raise Stopped
            worker = Worker(self._reader, self._most)
            self._workers.append(worker)
            return worker

    def _end_worker(self, worker: Worker) -> None:
        """End a process that died."""
        LOGGER.info("a worker was lost; another one reads its files")
        with self._lock:
            self._workers.remove(worker)
        worker.end()

    def _once(self, batch: List[FileRequest]) -> bytes:
        """Return the block of a batch.

        Raise `EOFError` or `OSError` if no process can start, or if it dies.
        """
        worker = self._idle.get()
        try:
            worker = worker or self._start_worker()
            return worker.read(batch)
        except (EOFError, OSError):
            if worker is not None:
                self._end_worker(worker)
                worker = None
            raise
        finally:
            self._idle.put(worker)

    def _read(self, batch: List[FileRequest]) -> List[bytes]:
        """Return the blocks of a batch.

        If the process dies, the batch is retried once; if it dies again, each file is retried
        separately, so that only the file that caused it is lost.
        """
        reason = "its worker was lost"
        for _ in range(2):
            try:
                return [self._once(batch)]
            except Stuck:
                reason = too_slow(self._most)
                break
            except (EOFError, OSError):
                pass
        if len(batch) == 1:
            return [lost_block(batch[0], self._reader, reason)]
        return [block for file in batch for block in self._read([file])]

    def start(self, batch: List[FileRequest]) -> Future[List[bytes]]:
        """Start to read a batch in the background. Raise `Failure` if no thread can be started."""
        try:
            return self._threads.submit(self._read, batch)
        except RuntimeError as fault:
            # (a thread can't be started)
            raise Failure(f"--workers {self._count}: {fault}") from None

    def stop(self) -> None:
        """Kill all processes."""
        with self._lock:
            self._stopped = True
            for worker in self._workers:
                worker.kill()
        self._threads.shutdown()
        for worker in self._workers:
            worker.end()


def by_processes(
    batches: Iterable[List[FileRequest]], reader: Reader, count: int, most: float = LONGEST_TIME
) -> Blocks:
    """Run the batches on processes of this machine, and yield their blocks in order.

    The batch of a process that died is retried.

    Args:
        batches: The batches.
        reader: The function that reads a batch.
        count: The number of processes.
        most: The time limit of a file, in seconds.
    """
    waiting: Deque[Future[List[bytes]]] = collections.deque()
    with Pool(count, reader, most) as pool:
        try:
            for batch in batches:
                waiting.append(pool.start(batch))
                if len(waiting) >= AHEAD * count:
                    yield from waiting.popleft().result()
            while waiting:
                yield from waiting.popleft().result()
        finally:
            for future in waiting:
                future.cancel()
