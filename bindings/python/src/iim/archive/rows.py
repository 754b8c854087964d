"""Read a file of envelopes for iim-archive: the rows that it has in the index."""
from __future__ import annotations

import contextlib
import datetime
import functools
import hashlib
import json
import marshal
import os
import signal
import stat
import threading
import time
from typing import (
    Any,
    Callable,
    Generator,
    Iterator,
    List,
    NamedTuple,
    Optional,
    Sequence,
    Tuple,
    Union,
    cast,
)

import iim
from iim.archive.texts import TextReader, TextRow
from iim.receiver import BLOCK

EPOCH = datetime.datetime(1970, 1, 1, tzinfo=datetime.timezone.utc)


# The rows of the tables of an index, by columns. In a file's row each column that may be missing is
# an empty text or no bytes then: file, path, size, changed, read, state, reason, sha256 and target.
FileRow = Tuple[int, bytes, int, int, int, str, str, str, bytes]
EnvelopeRow = Tuple[
    int,
    int,
    int,
    int,
    str,
    str,
    str,
    Optional[str],
    int,
    int,
    int,
    int,
    Optional[int],
    Optional[int],
    Optional[int],
]
RefusalRow = Tuple[int, int, int, int, str, Optional[str], Optional[str], Optional[str], str]

# The rows of envelopes as one flat list, the columns of one row after those of another: the fastest
# form.
Cells = List[Union[int, str, None]]
COLUMNS = 15

# What is bound for a missing instant (`iim.archive.index`): a second before all instants.
NEVER = -(1 << 62)

# The columns of a plain row, which has a priority, and all instants but those of release and
# expiration.
PLAIN = 13


def rows_in(cells: Cells) -> List[EnvelopeRow]:
    """Return the rows of a flat list."""
    return cast("List[EnvelopeRow]", [*zip(*[iter(cells)] * COLUMNS)])


class Failure(Exception):
    """Raised if a run can't continue. Its text is `what: reason`."""


class NoIndex(Failure):
    """Raised if a file can't be used as an index."""


# The suffixes of an index's files: the database, SQLite's files beside it, and the lock of a run.
ENDS = "", "-wal", "-shm", "-journal", ".lock"

# The reason why a device or a pipe is not read.
NOT_REGULAR = "not a regular file"

# The default of the maximum time for a file, in seconds.
LONGEST_TIME = 300

# The length, in bytes, above which a path is resolved in parts: the system accepts at most 4,095.
LONGEST = 4_000


@contextlib.contextmanager
def open_parent(path: bytes) -> Iterator[Tuple[Optional[int], bytes]]:
    """Open the directory from which the rest of a path is short enough for the system.

    Yields:
        The descriptor of the directory, or `None` for the current one, and the rest of the path.
    """
    folder: Optional[int] = None
    try:
        while len(path) > LONGEST:
            end = path.rindex(b"/", 1, LONGEST)
            below = os.open(path[:end], os.O_PATH | os.O_DIRECTORY | os.O_CLOEXEC, dir_fd=folder)
            if folder is not None:
                os.close(folder)
            folder, path = below, path[end + 1 :]
        yield folder, path
    finally:
        if folder is not None:
            os.close(folder)


class FileRequest(NamedTuple):
    """A file to read.

    Attributes:
        file: Its number in the run or in the index.
        path: Its path.
        size: Its size, in bytes.
        changed: The time of its last change, in nanoseconds since 1970.
        reason: Why it can't be read, or `None`.
        target: Its other name if it is read under that, or `None`.
    """

    file: int
    path: bytes
    size: int
    changed: int
    reason: Optional[str] = None
    target: Optional[bytes] = None


# A function that reads a batch of files and returns a block: the files' rows, encoded by marshal.
Reader = Callable[[List[FileRequest]], bytes]
Blocks = Generator[bytes, None, None]

# The version of marshal's encoding, which Python has from 3.4 on.
FORM = 4

# The number of batches per worker that are submitted before the oldest one is finished.
AHEAD = 4


def lost_block(file: FileRequest, reader: Reader, reason: str = "its worker was lost") -> bytes:
    """Return the block of a file that can't be read because its worker died each time."""
    return reader([file._replace(reason=reason)])


class FileRows(NamedTuple):
    """The result of reading a file.

    Attributes:
        file: Its number in the run or in the index.
        path: Its path.
        size: Its size, in bytes.
        changed: The time of its last change, in nanoseconds since 1970.
        read: The size of its envelopes together, in bytes.
        state: 'accepted', 'refused', 'empty', 'failed' or 'linked'.
        reason: Why it failed, or `None`.
        envelopes: The rows of its envelopes, as a flat list.
        refusal: The row of its refusal, or `None`.
        sha256: The checksum of its content in hexadecimal, or `None`.
        target: Its other name if it is linked, or `None`.
        texts: The rows of its envelopes in the full-text index.
    """

    file: int
    path: bytes
    size: int
    changed: int
    read: int
    state: str
    reason: Optional[str]
    envelopes: Cells
    refusal: Optional[RefusalRow]
    sha256: Optional[str] = None
    target: Optional[bytes] = None
    texts: Sequence[TextRow] = ()


# The function that returns a file's part of a block at an instant: `lines_of` or `kept_rows`.
Form = Callable[[FileRows, datetime.datetime], Tuple[object, ...]]

# The rows of one file in the index: its own, those of its envelopes, which are plain or not, that
# of its refusal, and those of its texts.
KeptRows = Tuple[FileRow, Cells, Cells, Optional[RefusalRow], List[TextRow]]


class Batch(NamedTuple):
    """The rows of some files in the index.

    Attributes:
        files: The rows of the files.
        plain: The plain rows of envelopes, as one flat list.
        others: The other rows of envelopes, as one flat list without `None`.
        refusals: The rows of refusals.
        texts: The rows of the full-text index.
    """

    files: List[FileRow]
    plain: Cells
    others: Cells
    refusals: List[RefusalRow]
    texts: List[TextRow]


class Reading(NamedTuple):
    """How files are read.

    Attributes:
        limits: The limits on records 1 and 2.
        now: The instant for ages.
        most: The maximum time for a file, in seconds.
        has_sums: Whether to compute checksums.
        text: What the full-text index has: "none", "fields" or "all".
        encoding: The encoding of envelopes without 1:90.
    """

    limits: iim.Limits
    now: datetime.datetime
    most: float = LONGEST_TIME
    has_sums: bool = False
    text: str = "none"
    encoding: str = "latin-1"


@functools.lru_cache(maxsize=1)
def seconds(now: datetime.datetime) -> int:
    """Return an instant in seconds since 1970, rounded down."""
    return (now - EPOCH) // datetime.timedelta(seconds=1)


def copy_of(release: Optional[int], expires: Optional[int], now: datetime.datetime) -> str:
    """Return whether copy is "held", "expired" or "free"."""
    second = seconds(now)
    if release is not None and release > second:
        return "held"
    if expires is not None and (second, now.microsecond) > (expires, 0):
        return "expired"
    return "free"


class TooSlow(OSError):
    """Raised if a file takes longer than its time limit."""


class Timer:
    """The time limit of one file.

    It is checked before each read. In a process that has called `interrupt_reads` it also ends a
    read that blocks.
    """

    _running: Optional[Timer] = None

    def __init__(self, most: float) -> None:
        """Create a time limit of some seconds, from now on."""
        self._most, self._end = most, time.monotonic() + most

    def check(self) -> None:
        """Raise `TooSlow` if the time limit is exceeded."""
        if time.monotonic() > self._end:
            raise TooSlow(too_slow(self._most))

    @classmethod
    def interrupt(cls, *_: object) -> None:
        """Raise `TooSlow` if a file is being read. This is the handler of SIGALRM."""
        if cls._running is not None:
            raise TooSlow(too_slow(cls._running._most))

    def __enter__(self) -> Timer:
        """Let SIGALRM end a read after the time limit, if it can."""
        if interrupts:
            Timer._running = self
            signal.setitimer(signal.ITIMER_REAL, self._most)
        return self

    def __exit__(self, *_: object) -> None:
        """Cancel the time limit."""
        if interrupts:
            Timer._running = None
            signal.setitimer(signal.ITIMER_REAL, 0)


def too_slow(most: float) -> str:
    """Return the reason of a file that took longer than `most` seconds."""
    return f"not read within {most:g} seconds"


# Whether SIGALRM ends a read in this process.
interrupts = False


def interrupt_reads() -> None:
    """Make SIGALRM end reads that take too long.

    The main thread must read all files of this process.
    """
    global interrupts
    interrupts = True
    signal.signal(signal.SIGALRM, Timer.interrupt)


class AuditorOfThread(threading.local):
    """The auditor of a thread, and the run that it is for.

    A worker of Dask runs tasks on several threads at once, and an auditor reads one file at a time.
    """

    run: Optional[Tuple[iim.Limits, datetime.datetime]] = None
    auditor: iim.Auditor

    def for_run(self, limits: iim.Limits, now: datetime.datetime) -> iim.Auditor:
        """Return the auditor that this thread uses for the files of a run, one after another."""
        if self.run != (limits, now):
            self.auditor = iim.Auditor(limits, now=now)
            self.run = limits, now
        return self.auditor


auditor_of_thread = AuditorOfThread()


class NotRegular(OSError):
    """Raised if a path no longer names a regular file."""


def open_regular(path: bytes) -> int:
    """Open a regular file for reading.

    If its path has named something else since it was listed, that is neither waited for nor read.

    Raises:
        NotRegular: The path does not name a regular file.
        OSError: The file can't be opened.
    """
    flags = os.O_RDONLY | os.O_NONBLOCK | os.O_NOCTTY | os.O_CLOEXEC
    with open_parent(path) as (folder, rest):
        file = os.open(rest, flags, dir_fd=folder)
    if not stat.S_ISREG(os.fstat(file).st_mode):
        os.close(file)
        raise NotRegular(NOT_REGULAR)
    return file


# A function that is called with each piece of a file that is read.
Tap = Callable[[memoryview], object]


def blocks_of(
    path: bytes, how: Reading, timer: Timer, taps: Sequence[Tap] = ()
) -> Generator[List[iim.RawRow], None, None]:
    """Yield the rows of a file, many at a time.

    After a refusal the rest of the file is read for the taps.
    """
    file = open_regular(path)

    def fill(buffer: memoryview) -> int:
        """Read the next bytes of the file."""
        timer.check()
        count = os.readv(file, [buffer])
        for tap in taps:
            tap(buffer[:count])
        return count

    try:
        yield from auditor_of_thread.for_run(how.limits, how.now).raw_blocks(fill)
    except iim.RefusedError:
        rest = memoryview(bytearray(BLOCK if taps else 0))
        while taps and fill(rest):
            pass
        raise
    finally:
        os.close(file)


def envelope_row(file: int, nth: int, second: int, raw: iim.RawRow) -> EnvelopeRow:
    """Return the index's row of an envelope, from its row of an audit at `second`."""
    (
        at,
        length,
        size,
        subfiles,
        announced,
        counted,
        age,
        release,
        expires,
        has_age,
        has_release,
        has_expires,
        _,
        priority,
        count,
        service,
        number,
        date,
    ) = raw
    return (
        *(file, nth, at, length),
        service[:count].decode("latin-1"),
        number.decode("ascii"),
        date.decode("ascii"),
        chr(priority) if priority else None,
        *(size, subfiles, announced, counted),
        second - age if has_age else None,
        release if has_release else None,
        expires if has_expires else None,
    )


def do_nothing() -> None:
    """Do nothing."""


# The function that is called before each file is read.
before_file: Callable[[], object] = do_nothing


def watch_reads(before: Callable[[], object]) -> None:
    """End reads that take too long, and call a function before each file.

    A worker process calls this.
    """
    global before_file
    before_file = before
    interrupt_reads()


def read_file(asked: FileRequest, how: Reading) -> FileRows:
    """Read a file. An exception becomes the reason why the file failed."""
    before_file()
    file, path, size, changed, fault_before, target = asked
    if target is not None:
        return FileRows(file, path, size, changed, 0, "linked", None, [], None, target=target)
    if fault_before is not None:
        return FileRows(file, path, size, changed, 0, "failed", fault_before, [], None)
    digest = hashlib.sha256() if how.has_sums else None
    texts = TextReader(file, how.limits, how.text, how.encoding) if how.text != "none" else None
    taps: List[Tap] = []
    if digest is not None:
        taps.append(digest.update)
    if texts is not None:
        taps.append(texts.feed)
    rows: Cells = []
    nth = 0
    second = seconds(how.now)
    read = 0
    state, reason, refusal = "accepted", None, None
    try:
        with Timer(how.most) as timer:
            with contextlib.closing(blocks_of(path, how, timer, taps)) as blocks:
                for block in blocks:
                    for nth, raw in enumerate(block, nth + 1):
                        rows += envelope_row(file, nth, second, raw)
                    read = block[-1][0] + block[-1][1]
    except iim.RefusedError as refused:
        state, refusal = "refused", refusal_row(file, refused)
    except Exception as fault:
        state, reason, digest = "failed", reason_of(fault), None
    if state == "accepted" and not rows:
        state = "empty"
    found = texts.rows[:nth] if texts is not None else []
    sha256 = digest.hexdigest() if digest is not None else None
    front = file, path, size, changed, read, state, reason
    return FileRows(*front, rows, refusal, sha256, None, found)


def reason_of(fault: Exception) -> str:
    """Return why a file can't be read."""
    if isinstance(fault, OSError):
        return fault.strerror or str(fault)
    if isinstance(fault, MemoryError):
        return "out of memory"
    # (such as a bug: it is reported, and the run continues with the other files)
    return f"{type(fault).__name__}: {fault}"


def refusal_row(file: int, refused: iim.RefusedError) -> RefusalRow:
    """Return the index's row of a refusal."""
    value = refused.to_dict()
    service, number, date = (value["id"][name] for name in ("service", "number", "date_sent"))
    where = refused.nth, refused.at, refused.cause, refused.cause_name
    return (file, *where, service, number, date, json.dumps(value))


# --- Batches ---


def or_never(second: Optional[int]) -> int:
    """Return an instant, or what is bound for a missing one."""
    return NEVER if second is None else second


def kept_rows(rows: FileRows, now: datetime.datetime) -> KeptRows:
    """Return the rows of a file that the index stores."""
    plain: Cells = []
    others: Cells = []
    for row in rows_in(rows.envelopes):
        if row[13] is None and row[14] is None and row[12] is not None and row[7] is not None:
            plain += row[:PLAIN]
        else:
            others += (*row[:7], row[7] or "", *row[8:12], *map(or_never, row[12:]))
    file: FileRow = (*rows[:6], rows.reason or "", rows.sha256 or "", rows.target or b"")
    return file, plain, others, rows.refusal, list(rows.texts)


def read_files(files: List[FileRequest], how: Reading, form: Form) -> List[Tuple[Any, ...]]:
    """Read some files, each within the time limit."""
    return [form(read_file(file, how), how.now) for file in files]


def read_batch(files: List[FileRequest], how: Reading, form: Form) -> bytes:
    """Read some files, and return their rows as a block. A worker runs this."""
    return marshal.dumps(read_files(files, how, form), FORM)
