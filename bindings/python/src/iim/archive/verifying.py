"""Verify the files of an index: compare their content with the checksums that the index has."""
from __future__ import annotations

import hashlib
import json
import marshal
import os
from typing import Any, Dict, Iterator, List, NamedTuple, Optional, Tuple

from iim.archive.index import Index, Verified
from iim.archive.lines import name_of
from iim.archive.opening import full_path
from iim.archive.progress import Silence
from iim.archive.rows import FORM, FileRequest, Timer, open_regular, reason_of

# The states of a verified file: the same content; another content, size or time; another content,
# but the same size and time, as after a damage; no file; and a file that can't be read.
STATES = "intact", "changed", "damaged", "missing", "unreadable"

# The size of a read, in bytes.
BLOCK = 1 << 18

# What a worker returns for a file: its number, its size and time, its checksum, and why it can't be
# read, or "" if it is missing.
Measured = Tuple[int, int, int, Optional[str], Optional[str]]


def measure(asked: FileRequest, most: float) -> Measured:
    """Compute the checksum of a file, within a time limit."""
    if asked.reason is not None:
        return asked.file, 0, 0, None, asked.reason
    try:
        with Timer(most) as timer:
            file = open_regular(asked.path)
            try:
                return (asked.file, *checksum_of(file, timer), None)
            finally:
                os.close(file)
    except (FileNotFoundError, NotADirectoryError):
        return asked.file, 0, 0, None, ""
    except Exception as fault:
        return asked.file, 0, 0, None, reason_of(fault)


def checksum_of(file: int, timer: Timer) -> Tuple[int, int, str]:
    """Return the size and the time of an open file, and its checksum."""
    digest, buffer = hashlib.sha256(), memoryview(bytearray(BLOCK))
    while True:
        timer.check()
        count = os.readv(file, [buffer])
        if not count:
            status = os.fstat(file)
            return status.st_size, status.st_mtime_ns, digest.hexdigest()
        digest.update(buffer[:count])


def measure_files(files: List[FileRequest], most: float) -> List[Measured]:
    """Compute the checksums of some files."""
    return [measure(file, most) for file in files]


def measure_batch(files: List[FileRequest], most: float) -> bytes:
    """Compute the checksums of some files, as a block. A worker runs this."""
    return marshal.dumps(measure_files(files, most), FORM)


class Outcome(NamedTuple):
    """The outcome for a file.

    Attributes:
        state: One of `STATES`.
        found: What was found: a checksum, or why the file can't be read.
    """

    state: str
    found: str


def outcome_of(wanted: Verified, measured: Measured) -> Outcome:
    """Compare what was measured with the row of the index."""
    _, size, changed, sha256, reason = measured
    if sha256 is None:
        return Outcome("unreadable", reason) if reason else Outcome("missing", "no such file")
    if sha256 == wanted[4]:
        return Outcome("intact", sha256)
    is_same = (size, changed) == (wanted[2], wanted[3])
    return Outcome("damaged" if is_same else "changed", sha256)


class Verification:
    """A run that verifies files.

    Attributes:
        sums: The number of files in each state.
        progress: The report of the progress.
    """

    def __init__(
        self, index: Index, root: Optional[bytes], progress: Silence, unknown: int
    ) -> None:
        """Create a run.

        Args:
            index: The index, with the files that were chosen.
            root: The directory that names are relative to, or `None`.
            progress: The report of the progress.
            unknown: The number of files that have no checksum.
        """
        self._index, self._root, self.progress = index, root, progress
        self._asked: Dict[int, Verified] = {}
        self.sums = {"files": 0, **dict.fromkeys(STATES, 0), "unknown": unknown}

    def files(self) -> Iterator[FileRequest]:
        """Yield the files to verify."""
        for row in self._index.chosen():
            file, path, size, changed, _ = row
            self._asked[file] = row
            yield FileRequest(file, full_path(self._root, path), size, changed)

    def add(self, block: List[Measured]) -> str:
        """Store the outcomes of some files, and return the lines of those that are not intact."""
        outcomes: List[Tuple[int, str, str]] = []
        text: List[str] = []
        for measured in block:
            wanted = self._asked.pop(measured[0])
            state, found = outcome_of(wanted, measured)
            outcomes.append((wanted[0], state, found))
            self.sums["files"] += 1
            self.sums[state] += 1
            self.progress.add(1, measured[1], 0, state != "intact")
            if state != "intact":
                text.append(line_of(wanted, state, measured))
        self._index.note_fixity(outcomes)
        return "".join(text)

    def status(self) -> int:
        """Return the exit status."""
        if self.sums["unreadable"]:
            return 3
        return 1 if self.sums["files"] > self.sums["intact"] else 0


def line_of(wanted: Verified, state: str, measured: Measured) -> str:
    """Return the line of a file that is not intact."""
    more: Dict[str, Any] = {"fixity": state, "sha256": wanted[4]}
    if measured[3] is not None:
        more["found"] = measured[3]
    elif state == "unreadable":
        more["failed"] = measured[4]
    return f'{{"file": {name_of(wanted[1])}, {json.dumps(more)[1:]}\n'
