"""Read envelopes from files and from bytes."""
from __future__ import annotations

import io
import os
from typing import Any, Callable, Generator, List, Optional

from iim import _library
from iim._library import library
from iim.errors import RefusedError, TruncatedError
from iim.octets import AnyOctets, AnySource, Octets, as_bytes
from iim.receiver import BLOCK, Receiver, limits_of, reported, require_status
from iim.streams import Stream
from iim.values import WIRE, Envelope, Limits


def read(
    file: AnySource, limits: Limits = WIRE, *, on_text: Optional[Callable[[bytes], Any]] = None
) -> Stream[Envelope]:
    """Return an iterator over the envelopes of a file, each as soon as its last byte is read.

    The file is opened at the first envelope, and closed at the end or by `close`. As a context
    manager the iterator closes it, too. The file is read in blocks of 64 KB. Only the envelopes of
    the current block are stored in memory.

    Args:
        file: A path as `str` or `os.PathLike`, an object whose `read` returns bytes, or the bytes
            themselves.
        limits: The limits on records 1 and 2.
        on_text: If given, called with each part of the story when it is read. The envelopes then
            have no `story`.

    Returns:
        The iterator. The exceptions are raised when it is advanced.

    Raises:
        RefusedError: A byte is invalid.
        TruncatedError: The file ends inside an envelope.
        OSError: The file can't be read. `BlockingIOError` if `read` returned `None`.
    """
    return Stream(_read(file, limits, on_text))


def _read(
    file: AnySource, limits: Limits, on_text: Optional[Callable[[bytes], Any]]
) -> Generator[Envelope, None, None]:
    """Yield the envelopes of a file, as `read` does."""
    if isinstance(file, (str, os.PathLike)):
        with open(file, "rb", buffering=0) as opened:
            yield from _read(opened, limits, on_text)
        return
    if isinstance(file, (bytes, bytearray, memoryview)):
        file = io.BytesIO(as_bytes(file))
    receiver, take = Receiver(limits), getattr(file, "read1", file.read)
    parts: List[bytes] = []
    add = parts.append if on_text is None else on_text
    while True:
        piece = take(BLOCK)
        if piece is None:
            raise BlockingIOError("the file has no octets now")
        if not piece:
            break
        envelopes, text, refusal = receiver._read_chunk(as_bytes(piece))
        for envelope in envelopes:
            if on_text is not None:
                if envelope.story:
                    on_text(envelope.story)
                envelope.story = None
            elif parts:
                envelope.story = Octets(b"".join([*parts, envelope.story or b""]))
                parts.clear()
            yield envelope
        if refusal is not None:
            raise _with_story(refusal, text, parts, on_text)
        if text:
            add(text)
    try:
        receiver.end()
    except RefusedError as truncation:
        raise _with_story(truncation, truncation.story, parts, on_text)


def _with_story(
    error: RefusedError,
    text: bytes,
    parts: List[bytes],
    on_text: Optional[Callable[[bytes], Any]],
) -> RefusedError:
    """Return an error with all of the story before it, or pass the last part of it to `on_text`."""
    if on_text is None:
        error.story = Octets(b"".join([*parts, text]))
    elif text:
        on_text(text)
    return error


def check(octets: AnyOctets, limits: Limits = WIRE) -> int:
    """Return the size of the envelope at the beginning of these bytes.

    Args:
        octets: The bytes, of which those after the envelope are ignored.
        limits: The limits on records 1 and 2.

    Raises:
        RefusedError: A byte is invalid.
        TruncatedError: The bytes end inside the envelope.
    """
    octets, answer = as_bytes(octets), _library.Answer()
    library.iim_check(limits_of(limits), octets, len(octets), answer)
    if answer.status == _library.DONE:
        return int(answer.octet)
    require_status(answer, _library.REFUSED, _library.TRUNCATED)
    kind = RefusedError if answer.status == _library.REFUSED else TruncatedError
    raise kind(reported(answer, 1, 0))
