"""Receive envelopes from chunks of input."""
from __future__ import annotations

import collections
import ctypes
import enum
import functools
import threading
from typing import (
    Any,
    Callable,
    Deque,
    FrozenSet,
    List,
    NamedTuple,
    NoReturn,
    Optional,
    Tuple,
    TypeVar,
    Union,
    cast,
)

from iim import _library
from iim._deprecated import warn_of_old_name
from iim._library import library
from iim.errors import Refusal, RefusedError, TicketError, TruncatedError, refusal_of
from iim.octets import AnyOctets, Octets, as_bytes
from iim.saved import Saved, decode, encode
from iim.values import GREATEST_LIMIT, WIRE, Envelope, Limits, layer_name

# The size of a block of input, in bytes.
BLOCK = 65_536


class FeedResult(NamedTuple):
    """The result of `Receiver.feed` for one chunk of input.

    Attributes:
        used: The number of bytes consumed.
        story: The part of the story in these bytes, with its lines joined by LF.
        envelope: The envelope that ends with these bytes, or `None`. Its `story` is `None`, since
            the story was returned chunk by chunk.
    """

    used: int
    story: Octets
    envelope: Optional[Envelope]


# The name of release 2.
Fed = FeedResult


class Position(NamedTuple):
    """The position of a receiver within an envelope.

    Attributes:
        begun: What is partial: "nothing" between datasets, or "tag", "data" or "end".
        record: The record number of the last complete tag.
        number: The dataset number, if the data of a dataset are partial; otherwise `None`.
        size: The size of that dataset, in bytes; otherwise `None`.
        first: The offset of the first byte of what is partial.
        came: The number of its bytes received.
        to_come: The number of its bytes remaining, or `None` if that is not known, as in a tag.
        part: The part of the message, as iim.h numbers the parts.
        counter: The number of bytes of the filler or gap received.
        flag: In a gap, 1 if it has an LF; in the text, the number of CR buffered at its end.
    """

    begun: str
    record: int
    number: Optional[int]
    size: Optional[int]
    first: int
    came: int
    to_come: Optional[int]
    part: int
    counter: int
    flag: int


# The name of release 2.
Place = Position


def _position_of(found: _library.Begun) -> Position:
    """Return the position that the library wrote."""
    in_data, kind = found.kind == _library.DATA, ("nothing", "tag", "data", "end")[found.kind]
    number, size, to_come = (
        (found.set, found.count, found.left)
        if in_data
        else (None, None, 0 if kind == "end" else None)
    )
    return Place(
        kind,
        found.section,
        number,
        size,
        found.first,
        found.came,
        to_come,
        found.part,
        found.counter,
        found.flag,
    )


class Sentinel(enum.Enum):
    """What `Receiver.next_event` returns if there is no envelope and no refusal."""

    NEED_DATA = "NEED_DATA"
    END_OF_INPUT = "END_OF_INPUT"

    def __repr__(self) -> str:
        """Return the name."""
        return self.name


NEED_DATA = Sentinel.NEED_DATA
END_OF_INPUT = Sentinel.END_OF_INPUT

# What `Receiver.next_event` returns.
Event = Union[Envelope, RefusedError, Sentinel]

_Method = TypeVar("_Method", bound=Callable[..., Any])


def raise_in_use(of: object) -> NoReturn:
    """Raise `RuntimeError` because an object is in use."""
    raise RuntimeError(
        f"the {type(of).__name__} is in use by another thread, or by a call that has not returned"
    )


def exclusive(method: _Method) -> _Method:
    """Make a method raise `RuntimeError` if its object is in use."""

    @functools.wraps(method)
    def guarded(self: Any, *args: Any, **kwargs: Any) -> Any:
        """Call the method while the lock is held."""
        if not self._lock.acquire(False):
            raise_in_use(self)
        try:
            return method(self, *args, **kwargs)
        finally:
            self._lock.release()

    return cast(_Method, guarded)


def limits_of(limits: Limits) -> _library.Limits:
    """Return limits for the library. Raise `ValueError` if one is out of range."""
    for limit in limits:
        if not 1 <= limit <= GREATEST_LIMIT:
            raise ValueError(f"the limit {limit} is not from 1 to {GREATEST_LIMIT}")
    return _library.Limits(*limits)


def require_status(answer: _library.Answer, *statuses: int) -> None:
    """Raise the exception for the library's status unless it is one of these."""
    status = answer.status
    if status == _library.NO_MEMORY:
        raise MemoryError
    if status == _library.BAD_TICKET:
        raise TicketError(answer.cause)
    if status not in statuses:
        raise RuntimeError(f"the library returned the unexpected status {status}")


def reported(answer: _library.Answer, nth: int, at: int) -> Refusal:
    """Return the refusal that the library reported of an envelope."""
    where = answer.rec, answer.set, answer.octet, answer.cause
    return refusal_of(nth, at, layer_name(answer.layer) or "", *where)


class Receiver:
    """Receive one envelope after another from chunks of any length.

    `save()` returns the receiver as bytes, and `Receiver.restore` continues from them, in another
    process or on another machine. `current_ticket()` is the state alone, as the library encodes it,
    and `octets` the number of bytes consumed: `Receiver.resume` continues from these. After a
    refusal all calls raise `RefusedError` with cause 61.

    Use a receiver in one thread at a time. A call before another call has returned raises
    `RuntimeError` and changes nothing. A receiver can't be copied or pickled: store its ticket and
    `octets`.

    Attributes:
        octets: The number of bytes of the current envelope consumed.
        nth: The number of the current envelope in the input, from 1.
        at: The offset of its first byte in the input.
    """

    def __init__(self, limits: Limits = WIRE) -> None:
        """Create a receiver in the state before the first byte.

        Args:
            limits: The limits on records 1 and 2.

        Raises:
            ValueError: A limit is out of range.
        """
        self._lock = threading.Lock()
        self._limits = limits_of(limits)
        # The ticket of the present state, empty before the first byte; `None` if only the unpacker
        # of the extension module has that state. The unpacker is made at the first chunk, and
        # removed if the state changes elsewhere.
        self._known: Optional[bytes] = b""
        self._unpacker: Any = None
        self._refusal: Optional[Refusal] = None
        self._answer, self._text, self._next = (
            _library.Answer(),
            _library.buffer(1_024),
            _library.buffer(1_024),
        )
        self.octets, self.nth, self.at = 0, 1, 0
        # The bytes that `next_event` has not read, from an offset in the first of them on, and the
        # parts of the story that it has read of the current envelope.
        self._input: Deque[bytes] = collections.deque()
        self._start = 0
        self._parts: List[bytes] = []

    @classmethod
    def resume(
        cls, ticket: AnyOctets, octets: int, limits: Limits = WIRE, *, nth: int = 1, at: int = 0
    ) -> Receiver:
        """Return a receiver in the state that a ticket encodes.

        Args:
            ticket: The saved state, from `Receiver.ticket` or `RefusedError.ticket`.
            octets: The number of bytes of the envelope consumed when the state was saved.
            limits: The limits on records 1 and 2.
            nth: The number of the envelope in the input. It is reported, and changes nothing else.
            at: The offset of the envelope in the input. It is reported, and changes nothing else.

        Raises:
            TicketError: The bytes are not a valid ticket.
            ValueError: A limit or `octets` is out of range.
        """
        receiver = cls(limits)
        if not 0 <= octets < 2**64:
            raise ValueError(f"{octets} octets")
        receiver._go_to(as_bytes(ticket), octets)
        receiver.nth, receiver.at = nth, at
        receiver._ask_end()
        return receiver

    def _go_to(self, ticket: bytes, octets: int) -> None:
        """Continue from the state of a ticket, after so many bytes of the envelope."""
        self._known, self._unpacker, self.octets = ticket, None, octets

    @property
    def _ticket(self) -> bytes:
        """The ticket of the present state. It is empty before the first byte."""
        if self._known is None:
            self._known = self._unpacker.save()
        return self._known

    def __reduce__(self) -> NoReturn:
        """Raise `TypeError`."""
        raise TypeError("a Receiver can't be copied or pickled: use save and Receiver.restore")

    @exclusive
    def current_ticket(self) -> bytes:
        """Return the saved state after the bytes consumed so far.

        Raises:
            RefusedError: An earlier call was refused.
        """
        return self._ticket_here()

    @property
    def ticket(self) -> bytes:
        """The same as `current_ticket()`. Deprecated."""
        warn_of_old_name("ticket", "current_ticket()")
        return self.current_ticket()

    @exclusive
    def current_position(self) -> Position:
        """Return the position within the envelope.

        Raises:
            RefusedError: An earlier call was refused.
        """
        ticket, begun = self._ticket_here(), _library.Begun()
        library.iim_place(ticket, len(ticket), self.octets, begun, self._answer)
        self._expect(_library.DONE)
        return _position_of(begun)

    @property
    def place(self) -> Position:
        """The same as `current_position()`. Deprecated."""
        warn_of_old_name("place", "current_position()")
        return self.current_position()

    @exclusive
    def next_bytes(self) -> FrozenSet[int]:
        """Return the values of the bytes that are accepted next.

        Raises:
            RefusedError: An earlier call was refused.
        """
        self._require_state()
        found, ticket = _library.OctetSet(), self._ticket
        library.iim_next(self._limits, ticket, len(ticket), found, self._answer)
        self._expect(_library.MORE, _library.DONE)
        return frozenset(octet for octet in range(256) if found.bits[octet // 8] >> octet % 8 & 1)

    @property
    def next(self) -> FrozenSet[int]:
        """The same as `next_bytes()`. Deprecated."""
        warn_of_old_name("next", "next_bytes()")
        return self.next_bytes()

    @exclusive
    def try_bytes(self, octets: AnyOctets) -> Tuple[int, bool]:
        """Try bytes from the current state on, without changing it.

        Args:
            octets: The bytes to try.

        Returns:
            The number of bytes that would be consumed, and whether the envelope would end with
            them.

        Raises:
            RefusedError: An earlier call was refused.
        """
        self._require_state()
        octets, answer, before = as_bytes(octets), self._answer, self.octets
        if before:
            self._feed(octets, 0)
        else:
            library.iim_check(self._limits, octets, len(octets), answer)
            self._expect(_library.DONE, _library.REFUSED, _library.TRUNCATED)
        return answer.octet - before, answer.status == _library.DONE

    def tries(self, octets: AnyOctets) -> Tuple[int, bool]:
        """Return the same as `try_bytes`. Deprecated."""
        warn_of_old_name("tries", "try_bytes")
        return self.try_bytes(octets)

    def feed(self, piece: AnyOctets, start: int = 0) -> FeedResult:
        """Consume the bytes of a chunk up to the end of the current envelope.

        A chunk that is not `bytes` is copied by each call: convert it first if it has many
        envelopes.

        Args:
            piece: The chunk.
            start: The offset in the chunk of the first byte to consume.

        Returns:
            The number of bytes consumed, their part of the story, and the envelope if it ended.

        Raises:
            RefusedError: A byte is invalid.
            ValueError: `start` is not an offset of the chunk.
            MemoryError: The library could not allocate memory. No byte is consumed.
        """
        # (the lock of `exclusive` without its call: this method runs for each chunk and envelope)
        if not self._lock.acquire(False):
            raise_in_use(self)
        try:
            self._require_state()
            piece = as_bytes(piece)
            if not 0 <= start <= len(piece):
                raise ValueError(f"the piece has no octet {start}")
            if _library.extension() is not None:
                return self._feed_unpacker(piece, start)
            before = self.octets
            self._feed(piece, start)
            answer = self._answer
            story = Octets(self._text[: answer.written])
            if answer.status == _library.REFUSED:
                raise self._refused(piece[: start + answer.octet - before], start, story)
            ticket, self.octets = self._next[: answer.ticket], answer.octet
            if answer.status == _library.MORE:
                self._known = ticket
                return FeedResult(answer.used, story, None)
            return FeedResult(answer.used, story, self._complete(ticket, self.octets))
        finally:
            self._lock.release()

    def _complete(self, ticket: bytes, octets: int, story: Optional[bytes] = None) -> Envelope:
        """Return the envelope that ends after so many bytes, and begin the next one."""
        envelope = Envelope(ticket, self.nth, self.at, octets, story)
        self.nth, self.at = self.nth + 1, self.at + octets
        self._known, self.octets = b"", 0
        return envelope

    def _refused(self, before: bytes, start: int, story: bytes) -> RefusedError:
        """Return the refusal that the library returned for the byte after those in `before`."""
        self._refusal = self._reported()
        # (once more up to that byte, for the ticket of the state before it)
        self._feed(before, start)
        ticket = self._next[: self._answer.ticket]
        return RefusedError(self._refusal, story=story, ticket=ticket)

    # --- With the extension module ---

    def _read_unpacker(self, piece: bytes, start: int, one: bool) -> Tuple[Any, ...]:
        """Read a chunk by the unpacker of the extension module, as its `read` does."""
        if self._unpacker is None:
            unpacker = _library.extension().Unpacker(self._limits.octets, self._limits.fields)
            if self._known:
                self._answer.status, self._answer.cause = unpacker.restore(self._known, self.octets)
                self._expect(_library.DONE)
            self._unpacker = unpacker
        found: Tuple[Any, ...] = self._unpacker.read(piece, start, one)
        return found

    def _feed_unpacker(self, piece: bytes, start: int) -> FeedResult:
        """Consume the bytes of a chunk up to the end of the current envelope."""
        ended, used, octets, status, text, ticket = self._read_unpacker(piece, start, True)
        if ended:
            ((ticket, length, text),) = ended
            return FeedResult(used, Octets(text), self._complete(ticket, length))
        if status == _library.REFUSED:
            raise self._refused_by_unpacker(text, ticket)
        if octets:
            self._known, self.octets = None, octets
        return FeedResult(used, Octets(text), None)

    def _refused_by_unpacker(self, story: bytes, ticket: bytes) -> RefusedError:
        """Return the refusal that the unpacker has reported."""
        layer, record, number, octet, cause = self._unpacker.answer()
        where = layer_name(layer) or "", record, number, octet, cause
        self._refusal, self._unpacker = refusal_of(self.nth, self.at, *where), None
        return RefusedError(self._refusal, story=story, ticket=ticket)

    def _read_chunk(self, piece: bytes) -> Tuple[List[Envelope], Octets, Optional[RefusedError]]:
        """Consume a chunk with any number of envelopes.

        Returns:
            The envelopes that end in it, each with the part of its story in this chunk; the part of
            the next envelope's story; and the refusal of a byte, which has that part, too.
        """
        if _library.extension() is None:
            return self._feed_all(piece)
        ended, _, octets, status, text, ticket = self._read_unpacker(piece, 0, False)
        envelopes = [self._complete(*each) for each in ended]
        if status == _library.REFUSED:
            refusal = self._refused_by_unpacker(text, ticket)
            return envelopes, refusal.story, refusal
        if octets:
            self._known, self.octets = None, octets
        return envelopes, Octets(text), None

    def _feed_all(self, piece: bytes) -> Tuple[List[Envelope], Octets, Optional[RefusedError]]:
        """Do what `_read_chunk` does, without the extension module."""
        envelopes: List[Envelope] = []
        start = 0
        try:
            while start < len(piece):
                fed = self.feed(piece, start)
                start += fed.used
                if fed.envelope is None:
                    return envelopes, fed.story, None
                fed.envelope.story = fed.story
                envelopes.append(fed.envelope)
        except RefusedError as refusal:
            return envelopes, refusal.story, refusal
        return envelopes, Octets(), None

    # --- Events ---

    def receive_data(self, data: AnyOctets) -> None:
        """Add bytes of the input, for `next_event` to read. Empty bytes are the end of the input.

        Args:
            data: The bytes. They are not copied if they are `bytes`.
        """
        piece = as_bytes(data)
        if self._input and not self._input[-1]:
            raise ValueError("the input has ended")
        self._input.append(piece)

    def next_event(self) -> Event:
        """Return what comes next in the bytes that `receive_data` has added.

        An exception in the middle of a chunk can undo what a caller has done for the envelopes
        before it. So here a refusal is returned, and not raised. Do not call `feed` in between.

        Returns:
            An `Envelope`, with its story; `NEED_DATA` if all bytes were read; a `RefusedError` if a
            byte is invalid, or if there was a refusal before; and after the end of the input a
            `TruncatedError` if an envelope is incomplete, otherwise `END_OF_INPUT`.

        Raises:
            MemoryError: The library could not allocate memory. No byte is consumed.
        """
        try:
            while self._input:
                piece = self._input[0]
                if not piece:
                    self.end()
                    return END_OF_INPUT
                fed = self.feed(piece, self._start)
                self._start += fed.used
                if self._start == len(piece):
                    self._start = 0
                    self._input.popleft()
                self._parts.append(fed.story)
                if fed.envelope is not None:
                    fed.envelope.story = Octets(b"".join(self._parts))
                    self._parts.clear()
                    return fed.envelope
            return NEED_DATA
        except RefusedError as refusal:
            refusal.story = Octets(b"".join([*self._parts, refusal.story]))
            self._parts.clear()
            return refusal

    # --- Saved state ---

    @property
    def offset(self) -> int:
        """The offset in the input of the next byte to consume."""
        return self.at + self.octets

    @exclusive
    def save(self, *, story: bool = False) -> bytes:
        """Return the receiver as bytes, from which `Receiver.restore` continues.

        They have the ticket, the position in the envelope and in the input, and the limits. Bytes
        that `receive_data` has added and `next_event` has not read yet are not saved: add those
        from `offset` on again.

        Args:
            story: Whether to save the part of the story that `next_event` has read, too.

        Raises:
            RefusedError: An earlier call was refused.
        """
        self._require_state()
        limits = self._limits.octets, self._limits.fields
        ticket = self._ticket_here() if self.octets else b""
        text = b"".join(self._parts) if story else b""
        return encode(Saved(self.nth, self.at, self.octets, limits, ticket, text))

    @classmethod
    def restore(cls, saved: AnyOctets, *, offset: Optional[int] = None) -> Receiver:
        """Return the receiver that `save` has saved.

        Args:
            saved: The bytes from `save`.
            offset: If given, the offset in the input of the byte that will be fed next.

        Raises:
            ValueError: The bytes are not those of `save` or were changed, or `offset` is not where
                the saved receiver continues.
            TicketError: The ticket in them is invalid.
        """
        found = decode(as_bytes(saved))
        receiver = cls.resume(
            found.ticket, found.octets, Limits(*found.limits), nth=found.nth, at=found.at
        )
        if offset is not None and offset != receiver.offset:
            raise ValueError(f"the receiver continues at offset {receiver.offset}, not {offset}")
        if found.story:
            receiver._parts.append(found.story)
        return receiver

    @exclusive
    def end(self) -> None:
        """Report the end of the input.

        Raises:
            TruncatedError: The input ends inside an envelope.
            RefusedError: An earlier call was refused.
        """
        self._require_state()
        if self.octets and self._ask_end() == _library.TRUNCATED:
            raise TruncatedError(self._reported(), ticket=self._ticket)

    def _ticket_here(self) -> bytes:
        """Return the ticket of the state after the bytes so far."""
        self._require_state()
        if not self._ticket:
            self._feed(b"", 0)
            return bytes(self._next[: self._answer.ticket])
        return self._ticket

    def _feed(self, piece: bytes, start: int) -> None:
        """Call the library, and again with more capacity if a buffer is too small."""
        count = max(0, len(piece) - start)
        begin = (ctypes.cast(ctypes.c_char_p(piece), ctypes.c_void_p).value or 0) + start
        ticket, answer = self._ticket, self._answer
        state = self._limits, ticket, len(ticket), self.octets
        while True:
            text, following = self._text, self._next
            library.iim_feed(
                *state, begin, count, text, len(text), following, len(following), answer
            )
            if answer.status != _library.SHORT:
                return self._expect(_library.DONE, _library.MORE, _library.REFUSED)
            if answer.written <= len(text) and answer.ticket <= len(following):
                raise RuntimeError("the library reports a short buffer, but needs no more capacity")
            if answer.written > len(text):
                self._text = _library.buffer(2 * answer.written)
            if answer.ticket > len(following):
                self._next = _library.buffer(2 * answer.ticket)

    def _ask_end(self) -> int:
        """Return the library's status for an input that ends here."""
        ticket = self._ticket
        library.iim_end(self._limits, ticket, len(ticket), self.octets, self._answer)
        self._expect(_library.DONE, _library.TRUNCATED)
        status: int = self._answer.status
        return status

    def _expect(self, *statuses: int) -> None:
        """Raise the exception for the library's status unless it is one of these."""
        require_status(self._answer, *statuses)

    def _reported(self) -> Refusal:
        """Return the refusal that the library reported."""
        return reported(self._answer, self.nth, self.at)

    def _require_state(self) -> None:
        """Raise `RefusedError` with cause 61 after an earlier refusal."""
        if self._refusal is not None:
            octet = self._refusal.octet
            raise RefusedError(refusal_of(self.nth, self.at, "outside", 0, 0, octet, 61))
