"""Handle signals during a run, and report its progress."""
from __future__ import annotations

import contextlib
import datetime
import signal
import sys
import time
from typing import Any, Iterator, TypeVar

from iim.archive.output import write_error

Item = TypeVar("Item")


class Interrupt:
    """A handler of Ctrl-C and SIGTERM.

    A signal ends the wait for the next block, but not the work on one, so that the rows of a block
    are written as a whole.
    """

    def __init__(self) -> None:
        """Handle the signals from now on."""
        self._arrived = self._waits = False
        for each in signal.SIGINT, signal.SIGTERM:
            signal.signal(each, self._note)

    def _note(self, *_: object) -> None:
        """Note that a signal arrived, and end a wait."""
        self._arrived = True
        if self._waits:
            raise KeyboardInterrupt

    def each(self, items: Iterator[Item]) -> Iterator[Item]:
        """Yield the items. Raise `KeyboardInterrupt` if a signal arrives before the next one."""
        while True:
            self._waits = True
            try:
                if self._arrived:
                    raise KeyboardInterrupt
                item = next(items, None)
            finally:
                self._waits = False
            if item is None:
                return
            yield item


class Silence:
    """Report no progress."""

    def add(self, files: int, octets: int, envelopes: int, refused: int) -> None:
        """Ignore the counts."""

    def end(self) -> None:
        """End the report."""


class Progress(Silence):
    """Report progress on a terminal: by tqdm if installed, or else by a line every two seconds.

    How many files there are is not known before all are listed, and they are listed once.
    """

    EVERY = 2.0

    def __init__(self) -> None:
        """Create a report."""
        self.files = self.envelopes = self.refused = self.octets = 0
        self._start = self._reported = time.monotonic()
        # (tqdm has no types)
        self._bar: Any = None
        with contextlib.suppress(ImportError):
            from tqdm import tqdm

            interval = min(self.EVERY, 0.1)
            self._bar = tqdm(unit="B", unit_scale=True, leave=False, mininterval=interval)

    def add(self, files: int, octets: int, envelopes: int, refused: int) -> None:
        """Add to the counts, and report them."""
        self.files += files
        self.octets += octets
        self.envelopes += envelopes
        self.refused += refused
        if self._bar is not None:
            self._bar.set_postfix_str(self._counts(), refresh=False)
            self._bar.update(octets)
        elif time.monotonic() - self._reported >= self.EVERY:
            self._reported = time.monotonic()
            write_error(f"{self._counts()}, {self._speed()}\n")

    def _counts(self) -> str:
        """Return the counts as text."""
        counts = f"{self.files:,} files, {self.envelopes:,} envelopes"
        return f"{counts}, {self.refused:,} refused"

    def _speed(self) -> str:
        """Return the speed and the time as text."""
        seconds = max(time.monotonic() - self._start, 0.001)
        past = datetime.timedelta(seconds=round(seconds))
        return f"{self.octets / seconds / 1e6:.1f} MB/s, {past}"

    def end(self) -> None:
        """End the report."""
        if self._bar is not None:
            self._bar.close()


def progress_here() -> Silence:
    """Return an object that reports the progress if standard error is a terminal."""
    if sys.stderr is None or not sys.stderr.isatty():
        return Silence()
    return Progress()
