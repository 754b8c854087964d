"""Bytes as they were sent, and the types that are accepted as bytes or as a file."""
from __future__ import annotations

import os
from typing import BinaryIO, Union, cast


class Octets(bytes):
    """Bytes as they were sent: `bytes` with a method that decodes them."""

    # (a value without a dictionary is immutable, and the garbage collector ignores it)
    __slots__ = ()

    def text(self, encoding: str, errors: str = "strict") -> str:
        """Return the bytes decoded as text. IIM does not state the encoding: ask the sender.

        Args:
            encoding: The encoding, such as "latin-1" or "utf-8".
            errors: How to handle bytes that cannot be decoded, as for `bytes.decode`.
        """
        return self.decode(encoding, errors)


# The types accepted as bytes. `str` is not among them, since its encoding is unknown.
AnyOctets = Union[bytes, bytearray, memoryview]

# The types accepted as a file: a path, or any object whose `read` returns bytes.
AnyFile = Union[str, "os.PathLike[str]", BinaryIO]

# The types accepted as a source of envelopes: a file, or the bytes themselves.
AnySource = Union[AnyFile, AnyOctets]


def as_bytes(octets: AnyOctets) -> bytes:
    """Return the bytes as `bytes`. Raise `TypeError` for text, numbers and other types."""
    # (a caller's subclass of `bytes` may return a wrong length)
    return cast(bytes, octets) if type(octets) in (bytes, Octets) else bytes(memoryview(octets))
