"""Report on a terminal how much of a long file was read."""
from __future__ import annotations

import contextlib
import sys
import time
from typing import Any, Callable

# The bytes after which a report begins, and the columns of the bar.
LEAST, COLUMNS = 64 << 20, 30

# A function that is called with the number of bytes read so far.
Report = Callable[[int], None]


def silence(_: int) -> None:
    """Report nothing."""


class Progress:
    """A bar on standard error, by tqdm if it is installed. It is a context manager."""

    def __init__(self, size: int) -> None:
        """Create a bar for a number of bytes."""
        self._size, self._at, self._reported = size, 0, 0.0
        # (tqdm has no types)
        self._bar: Any = None
        self._is_shown = size >= LEAST and sys.stderr is not None and sys.stderr.isatty()
        if self._is_shown:
            with contextlib.suppress(ImportError):
                from tqdm import tqdm

                self._bar = tqdm(total=size, unit="B", unit_scale=True, leave=False)

    def __enter__(self) -> Progress:
        """Return the bar."""
        return self

    def __exit__(self, *_: object) -> None:
        """Remove the bar."""
        if self._bar is not None:
            self._bar.close()
        elif self._is_shown and self._reported:
            self._write("\r" + " " * (COLUMNS + 10) + "\r")

    def __call__(self, at: int) -> None:
        """Report the number of bytes read so far."""
        if not self._is_shown:
            return
        if self._bar is not None:
            self._bar.update(at - self._at)
        elif time.monotonic() - self._reported >= 0.1:
            self._reported = time.monotonic()
            done = at * COLUMNS // self._size
            bar = "#" * done + "." * (COLUMNS - done)
            self._write(f"\r[{bar}] {at * 100 // self._size:3} %")
        self._at = at

    @staticmethod
    def _write(text: str) -> None:
        """Write to standard error, if that is possible."""
        with contextlib.suppress(OSError, ValueError):
            sys.stderr.write(text)
            sys.stderr.flush()
