"""Write to standard output and standard error."""
from __future__ import annotations

import contextlib
import logging
import os
import sys

from iim.archive.rows import Failure

# The log of iim-archive. It is written to standard error (`log_to_standard_error`).
LOGGER = logging.getLogger("iim.archive")


class ReaderStopped(Exception):
    """Raised if the reader of standard output has closed it."""


class OutputFailed(Failure):
    """Raised if standard output can't be written."""


def write(text: str) -> None:
    """Write text to standard output, as `write_bytes` does."""
    write_bytes(text.encode("utf-8", "surrogateescape"))


def write_bytes(octets: bytes) -> None:
    """Write to standard output without a buffer.

    Raises:
        ReaderStopped: The reader has closed the pipe. Nothing more is written.
        OutputFailed: Standard output can't be written. Nothing more is written.
    """
    # (if it was closed, its descriptor may be that of another file)
    if sys.stdout is None:
        raise OutputFailed("standard output: closed")
    # (Python's own stream loses the rest of a long text if a signal arrives)
    remaining = memoryview(octets)
    try:
        while remaining:
            remaining = remaining[os.write(sys.stdout.fileno(), remaining) :]
    except OSError as fault:
        # (so that Python doesn't retry when it exits)
        with contextlib.suppress(OSError):
            os.dup2(os.open(os.devnull, os.O_WRONLY), sys.stdout.fileno())
        if isinstance(fault, BrokenPipeError):
            raise ReaderStopped from None
        raise OutputFailed(f"standard output: {fault.strerror}") from None


def write_error(text: str) -> None:
    """Write to standard error, if that is possible."""
    with contextlib.suppress(OSError, ValueError):
        if sys.stderr is not None:
            sys.stderr.write(text)
            sys.stderr.flush()


class ErrorHandler(logging.Handler):
    """Write each record of the log as one line of standard error, `iim-archive: message`."""

    def emit(self, record: logging.LogRecord) -> None:
        """Write a record."""
        write_error(f"iim-archive: {one_line(record.getMessage())}\n")


def log_to_standard_error(level: int) -> None:
    """Write the log from a level on to standard error, and nowhere else."""
    LOGGER.handlers[:] = [ErrorHandler()]
    LOGGER.propagate = False
    LOGGER.setLevel(level)


def one_line(text: str) -> str:
    """Return a text as one line, with escapes for characters that can't be printed."""
    return "".join(each if each.isprintable() else repr(each)[1:-1] for each in text)
