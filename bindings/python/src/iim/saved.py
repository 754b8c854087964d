"""The bytes of a saved receiver."""
from __future__ import annotations

import struct
import zlib
from typing import NamedTuple, Tuple

# What saved bytes begin with: a name and the version of this form.
_NAME = b"IIMR\x01"

# The numbers of a saved receiver, high byte first: the envelope's number, its offset, the bytes of
# it consumed, both limits, and the sizes of the ticket and of the story, which follow. A checksum
# of all that (CRC-32) ends it.
_NUMBERS = struct.Struct(">QQQIIQQ")
_CHECKSUM = struct.Struct(">I")


class Saved(NamedTuple):
    """What a saved receiver has.

    Attributes:
        nth: The number of the current envelope in the input, from 1.
        at: The offset of its first byte in the input.
        octets: The number of bytes of it consumed.
        limits: The limits on records 1 and 2.
        ticket: The ticket of the state, empty before the first byte.
        story: The story received so far.
    """

    nth: int
    at: int
    octets: int
    limits: Tuple[int, int]
    ticket: bytes
    story: bytes


def encode(saved: Saved) -> bytes:
    """Return the bytes of a saved receiver."""
    sizes = len(saved.ticket), len(saved.story)
    numbers = _NUMBERS.pack(saved.nth, saved.at, saved.octets, *saved.limits, *sizes)
    body = _NAME + numbers + saved.ticket + saved.story
    return body + _CHECKSUM.pack(zlib.crc32(body))


def decode(octets: bytes) -> Saved:
    """Return what a saved receiver has.

    Raises:
        ValueError: The bytes are not those of a saved receiver, or they were changed.
    """
    body, checksum = octets[: -_CHECKSUM.size], octets[-_CHECKSUM.size :]
    start = len(_NAME) + _NUMBERS.size
    if len(body) < start or not body.startswith(_NAME[:4]):
        raise ValueError("these bytes are no saved receiver")
    if not body.startswith(_NAME):
        raise ValueError(f"version {body[4]} of a saved receiver is not known")
    if _CHECKSUM.pack(zlib.crc32(body)) != checksum:
        raise ValueError("the bytes of the saved receiver were changed or cut off")
    nth, at, octets_read, most, fields, ticket, story = _NUMBERS.unpack_from(body, len(_NAME))
    if len(body) != start + ticket + story:
        raise ValueError("the bytes of the saved receiver have another length than they state")
    middle = start + ticket
    return Saved(nth, at, octets_read, (most, fields), body[start:middle], body[middle:])
