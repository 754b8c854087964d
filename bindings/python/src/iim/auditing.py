"""Audit files of envelopes."""
from __future__ import annotations

import ctypes
import datetime
import io
import os
import struct
import threading
from typing import (
    BinaryIO,
    Callable,
    Generator,
    Iterator,
    List,
    NamedTuple,
    NoReturn,
    Optional,
    Tuple,
    cast,
)

from iim import _library
from iim._library import library
from iim.errors import RefusedError
from iim.octets import AnySource, Octets, as_bytes
from iim.receiver import BLOCK, Receiver, raise_in_use, require_status
from iim.streams import Stream
from iim.values import WIRE, Limits


class AuditRow(NamedTuple):
    """The row of an audit for one envelope.

    Attributes:
        at: The offset of its first byte in the input.
        length: Its size, in bytes.
        service: The service identifier, 1:30.
        number: The envelope number, 1:40.
        date_sent: The date sent, 1:70.
        priority: The priority, 1:60, or `None`.
        size: The size of its object, in bytes.
        subfiles: The number of subfiles.
        announced: The number of words that the message's header announces.
        counted: The number of words in the story.
        age: The number of complete seconds since it was sent, or `None` if it has no time sent.
        copy: "held" before its release, "expired" after its expiration, and "free" otherwise.
        release: The instant of its release, in seconds since 1970, or `None`.
        expires: The instant of its expiration, in seconds since 1970, or `None`.
    """

    at: int
    length: int
    service: Octets
    number: Octets
    date_sent: Octets
    priority: Optional[Octets]
    size: int
    subfiles: int
    announced: int
    counted: int
    age: Optional[int]
    copy: str
    release: Optional[int]
    expires: Optional[int]


_EPOCH = datetime.datetime(1970, 1, 1, tzinfo=datetime.timezone.utc)

# The last valid instant, in seconds since 1970: 9999-12-30T22:00:00Z.
LAST_SECOND = 253_402_207_200

# The fields of a row as the library writes it; of an instant, only its second.
RawRow = Tuple[
    int,  # at
    int,  # length
    int,  # size
    int,  # subfiles
    int,  # announced
    int,  # counted
    int,  # age
    int,  # release
    int,  # expires
    bool,  # whether it has an age
    bool,  # whether it has a release
    bool,  # whether it has an expiration
    int,  # the index of the copy in "free", "held", "expired"
    int,  # priority, or 0
    int,  # the size of the service
    bytes,  # service, followed by zeros
    bytes,  # number
    bytes,  # date sent
]
_ROW = struct.Struct("6Qqq8xq8x3?3B10s8s8s")

_COPY = "free", "held", "expired"

# The maximum number of rows in a block.
_ROWS = 1_024


def _row_of(raw: RawRow) -> AuditRow:
    """Return the `AuditRow` for a row that the library wrote."""
    (
        at,
        length,
        size,
        subfiles,
        announced,
        counted,
        age,
        release,
        expires,
        has_age,
        has_release,
        has_expires,
        copy,
        priority,
        count,
        service,
        number,
        date,
    ) = raw
    return AuditRow(
        at,
        length,
        Octets(service[:count]),
        Octets(number),
        Octets(date),
        Octets((priority,)) if priority else None,
        size,
        subfiles,
        announced,
        counted,
        age if has_age else None,
        _COPY[copy],
        release if has_release else None,
        expires if has_expires else None,
    )


def _raw_rows_of(array: bytes) -> List[RawRow]:
    """Return the rows of an array that the library wrote, as it writes them."""
    return cast("List[RawRow]", [*_ROW.iter_unpack(array)])


def _rows_of(array: bytes) -> List[AuditRow]:
    """Return the rows of an array that the library wrote."""
    extension = _library.extension()
    if extension is None:
        return [*map(_row_of, _raw_rows_of(array))]
    rows: List[AuditRow] = extension.rows(array, AuditRow, Octets, _COPY)
    return rows


class Auditor:
    """Audit one input after another, as of one instant.

    Use an auditor in one thread, and for one input, at a time. Starting another input before the
    generator of `blocks` or `raw_blocks` has finished, from another thread or from `fill`, raises
    `RuntimeError` and changes nothing; to abandon an input, close its generator. An auditor can't
    be copied or pickled.
    """

    def __init__(self, limits: Limits = WIRE, *, now: Optional[datetime.datetime] = None) -> None:
        """Create an auditor.

        Args:
            limits: The limits on records 1 and 2.
            now: The instant, with a time zone, from which ages are counted and copy is held or
                expired [default: the present].

        Raises:
            ValueError: A limit is out of range, or `now` is after 9999-12-30T22:00:00Z.
        """
        since = (datetime.datetime.now(datetime.timezone.utc) if now is None else now) - _EPOCH
        second = since // datetime.timedelta(seconds=1)
        if second > LAST_SECOND:
            raise ValueError("the last instant is 9999-12-30T22:00:00Z")
        self._lock = threading.Lock()
        self._now = _library.Instant(second, since.microseconds * 1_000)
        self._receiver, self._so_far = Receiver(limits), _library.SoFar()
        self._piece = bytearray(BLOCK)
        self._begin = ctypes.addressof(ctypes.c_char.from_buffer(self._piece))
        self._array = (_library.AuditRow * _ROWS)()
        self._rows = memoryview(self._array).cast("B")
        # The buffer with the current ticket, and that ticket's size; the buffer of the next ticket.
        self._place: Tuple[_library.Buffer, int] = (_library.buffer(1_024), 0)
        self._next = _library.buffer(1_024)

    def __reduce__(self) -> NoReturn:
        """Raise `TypeError`."""
        raise TypeError(
            "an Auditor can't be copied or pickled: make one of the same limits and instant"
        )

    def blocks(self, fill: Callable[[memoryview], Optional[int]]) -> Stream[List[AuditRow]]:
        """Return an iterator over the rows of an input, in lists.

        The auditor is in use until the iterator ends or is closed.

        Args:
            fill: Writes the next bytes of the input into a buffer and returns their number: 0 at
                the end of the input, and `None` if no bytes are available now.

        Returns:
            The iterator. The exceptions are raised when it is advanced.

        Raises:
            RefusedError: A byte is invalid. The rows before it are yielded first.
            TruncatedError: The input ends inside an envelope. The rows before it are yielded first.
            RuntimeError: The auditor is in use.
            BlockingIOError: `fill` returned `None`.
        """
        return Stream(_rows_of(array) for array in self._exclusive_blocks(fill))

    def raw_blocks(self, fill: Callable[[memoryview], Optional[int]]) -> Stream[List[RawRow]]:
        """Return the same as `blocks`, with the rows as the library writes them: the fastest form.

        Args:
            fill: As for `blocks`.

        Returns:
            The iterator. Its exceptions are those of `blocks`.
        """
        return Stream(_raw_rows_of(array) for array in self._exclusive_blocks(fill))

    def _exclusive_blocks(
        self, fill: Callable[[memoryview], Optional[int]]
    ) -> Generator[bytes, None, None]:
        """Yield the arrays of rows of an input. Raise `RuntimeError` if the auditor is in use."""
        if not self._lock.acquire(False):
            raise_in_use(self)
        try:
            yield from self._blocks(fill)
        finally:
            self._lock.release()

    def _blocks(self, fill: Callable[[memoryview], Optional[int]]) -> Iterator[bytes]:
        """Yield the arrays of rows of an input for a caller that holds the lock."""
        so_far, answer = self._so_far, self._receiver._answer
        so_far.at = so_far.octets = 0
        self._place = self._place[0], 0
        nth = 1
        while count := self._filled(fill):
            at, status = 0, _library.DONE
            while status == _library.DONE:
                octets = so_far.octets
                status = self._ask(at, count - at)
                at, written = at + answer.used, answer.written
                if written:
                    nth, octets = nth + written, 0
                    yield bytes(self._rows[: written * _ROW.size])
                if status == _library.REFUSED:
                    self._refuse(bytes(self._piece[at:count]), nth, octets)
        if count is None:
            raise BlockingIOError("the file has no octets now")
        if so_far.octets:
            self._receiver_at(nth, so_far.octets).end()

    def _filled(self, fill: Callable[[memoryview], Optional[int]]) -> Optional[int]:
        """Return the number of bytes that `fill` wrote to the block.

        The buffer is released before the library reads, so that `fill` can't write to it later.
        """
        with memoryview(self._piece) as buffer:
            count = fill(buffer)
        if count is not None and not 0 <= count <= BLOCK:
            raise ValueError(f"fill returned {count}: the buffer has {BLOCK:,} bytes")
        return count

    def _ask(self, at: int, count: int) -> int:
        """Audit `count` bytes of the block from offset `at` on, and return the library's status.

        The call is repeated with more capacity if the buffer of the ticket is too small.
        """
        receiver, (ticket, length), rows, following = (
            self._receiver,
            self._place,
            self._array,
            self._next,
        )
        answer = receiver._answer
        while True:
            library.iim_audit(
                receiver._limits,
                ticket,
                length,
                self._so_far,
                self._begin + at,
                count,
                self._now,
                rows,
                len(rows),
                following,
                len(following),
                answer,
            )
            status: int = answer.status
            if status != _library.SHORT:
                break
            if answer.ticket <= len(following):
                raise RuntimeError("the library reports a short buffer, but needs no more capacity")
            following = self._next = _library.buffer(2 * answer.ticket)
        if status == _library.DONE or status == _library.MORE:
            # (between two envelopes there is no ticket)
            self._place, self._next = (following, answer.ticket if answer.octet else 0), ticket
        elif status != _library.REFUSED:
            require_status(answer)
        return status

    def _receiver_at(self, nth: int, octets: int) -> Receiver:
        """Return a receiver that has consumed `octets` bytes of the current envelope."""
        receiver, (ticket, length) = self._receiver, self._place
        receiver._refusal = None
        receiver._go_to(bytes(ticket[:length]) if octets else b"", octets)
        receiver.nth, receiver.at = nth, self._so_far.at
        return receiver

    def _refuse(self, piece: bytes, nth: int, octets: int) -> None:
        """Raise the refusal of a byte of a chunk as a receiver does, but without the story."""
        try:
            self._receiver_at(nth, octets).feed(piece)
        except RefusedError as refusal:
            refusal.story = Octets(b"")
            raise


def _filler_of(file: BinaryIO) -> Callable[[memoryview], Optional[int]]:
    """Return a function that reads the next bytes of a file into a buffer."""
    for name in "readinto1", "readinto":
        if hasattr(file, name):
            filler: Callable[[memoryview], Optional[int]] = getattr(file, name)
            return filler
    take = getattr(file, "read1", file.read)

    def fill(buffer: memoryview) -> Optional[int]:
        """Read the next bytes of the file."""
        piece = take(len(buffer))
        if piece is None:
            return None
        buffer[: len(piece)] = piece
        return len(piece)

    return fill


def audit_blocks(
    file: AnySource, limits: Limits = WIRE, *, now: Optional[datetime.datetime] = None
) -> Stream[List[AuditRow]]:
    """Return an iterator over the rows of `audit` in lists.

    Args:
        file: A path, an object whose `read` returns bytes, or the bytes themselves.
        limits: The limits on records 1 and 2.
        now: The instant, with a time zone, from which ages are counted and copy is held or expired
            [default: the present].

    Returns:
        The iterator. Its exceptions are those of `audit`.
    """
    return Stream(_audit_blocks(file, limits, now))


def audit(
    file: AnySource, limits: Limits = WIRE, *, now: Optional[datetime.datetime] = None
) -> Stream[AuditRow]:
    """Return an iterator over a row for each envelope of a file.

    The rows are those of `iimwire audit`, but do not name the envelope that an envelope repeats.
    The file is opened at the first row, and closed at the end or by `close`. As a context manager
    the iterator closes it, too.

    Args:
        file: A path, an object whose `read` returns bytes, or the bytes themselves.
        limits: The limits on records 1 and 2.
        now: The instant, with a time zone, from which ages are counted and copy is held or expired
            [default: the present].

    Returns:
        The iterator. The exceptions are raised when it is advanced.

    Raises:
        RefusedError: A byte is invalid. Its `story` is empty.
        TruncatedError: The file ends inside an envelope.
        ValueError: A limit is out of range, or `now` is after 9999-12-30T22:00:00Z.
        OSError: The file can't be read. `BlockingIOError` if `read` returned `None`.
    """
    return Stream(row for rows in _audit_blocks(file, limits, now) for row in rows)


def _audit_blocks(
    file: AnySource, limits: Limits, now: Optional[datetime.datetime]
) -> Generator[List[AuditRow], None, None]:
    """Yield the rows of a file in lists."""
    if isinstance(file, (str, os.PathLike)):
        with open(file, "rb", buffering=0) as opened:
            yield from _audit_blocks(opened, limits, now)
        return
    if isinstance(file, (bytes, bytearray, memoryview)):
        file = io.BytesIO(as_bytes(file))
    yield from Auditor(limits, now=now).blocks(_filler_of(file))
