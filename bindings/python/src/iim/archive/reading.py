"""Read the files of a run in batches: in this process, in several, or on a Dask scheduler."""
from __future__ import annotations

import argparse
import contextlib
import json
import marshal
import sqlite3
from typing import Any, Callable, Dict, Iterable, Iterator, List, NoReturn

from iim.archive.output import write
from iim.archive.progress import Silence
from iim.archive.rows import FileRequest, NoIndex, Reader, interrupt_reads

# The size, in bytes, from which on a batch is full.
BATCH_OCTETS = 2 << 20

# The exit status after a signal.
STOPPED = 130


def batches_of(files: Iterable[FileRequest], most: int) -> Iterator[List[FileRequest]]:
    """Yield the files in batches of at most `most`, and of fewer if they are long."""
    batch: List[FileRequest] = []
    octets = 0
    for file in files:
        batch.append(file)
        octets += file.size
        if len(batch) >= most or octets >= BATCH_OCTETS:
            yield batch
            batch, octets = [], 0
    if batch:
        yield batch


@contextlib.contextmanager
def read_blocks(
    files: Iterable[FileRequest],
    arguments: argparse.Namespace,
    reader: Reader,
    local: Callable[[List[FileRequest]], List[Any]],
) -> Iterator[Iterator[List[Any]]]:
    """Yield what is read of the files, batch by batch, as the arguments specify.

    The workers end with the context, also if an exception leaves it.

    Args:
        files: The files.
        arguments: The arguments of the command line.
        reader: The function with which a worker reads a batch.
        local: The function that reads a batch in this process.
    """
    batches = batches_of(files, arguments.batch)
    if arguments.scheduler is not None:
        from iim.archive.distributed import by_distributed

        with contextlib.closing(by_distributed(batches, reader, arguments.scheduler)) as blocks:
            yield map(marshal.loads, blocks)
    elif arguments.workers is not None:
        from iim.archive.workers import by_processes

        count, most = arguments.workers, arguments.timeout
        with contextlib.closing(by_processes(batches, reader, count, most)) as blocks:
            yield map(marshal.loads, blocks)
    else:
        interrupt_reads()
        yield map(local, batches)


def end_early(fault: Exception, progress: Silence, sums: Dict[str, int]) -> NoReturn:
    """Print the totals so far of a run that failed, and raise its exception."""
    progress.end()
    write(json.dumps(sums) + "\n")
    raise fault from None


def in_index(fault: Exception, *names: str) -> Exception:
    """Return the exception to raise for a fault.

    An error of SQLite becomes one that names the indexes.
    """
    return NoIndex(f"{', '.join(names)}: {fault}") if isinstance(fault, sqlite3.Error) else fault
