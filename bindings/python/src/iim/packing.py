"""Write scripts of envelopes, and pack them."""
from __future__ import annotations

import re
from typing import Iterable, Optional, Tuple

from iim import _library
from iim._library import library
from iim.errors import ScriptError
from iim.octets import AnyOctets, as_bytes
from iim.values import GREATEST, Header


# The form of each part of a header, in their order, as docs/reference/format.md defines it.
_PARTS = (
    rb"[A-Za-z]{1,8}",
    rb"[0-9]{1,8}",
    rb"[0-9]",
    rb"[A-Za-z0-9]{1,8}",
    rb"[0-9]{1,6}",
    rb"[\x20-\x7E\x80-\xFF]{0,64}",
)


def script(
    fields: Iterable[Tuple[int, int, AnyOctets]],
    header: Iterable[AnyOctets],
    lines: Iterable[AnyOctets],
    trailer: AnyOctets = b"",
) -> bytes:
    """Return the script of an envelope, which `pack` accepts.

    Only the header and the lines are checked here; `pack` checks all else.

    Args:
        fields: The datasets of records 1 and 2, each as record number, dataset number and value.
        header: The source, number, priority, category, words and info of the message.
        lines: The lines of the story, without line ends.
        trailer: The trailer of the message.

    Raises:
        ValueError: A part of the header or a line is invalid.
    """
    made = [_with_shown(b"%d:%d" % (record, number), octets) for record, number, octets in fields]
    parts = [as_bytes(part) for part in header]
    if len(parts) != len(_PARTS):
        raise ValueError(f"a header has {len(_PARTS)} parts, and not {len(parts)}")
    for name, kind, part in zip(Header._fields, _PARTS, parts):
        if not re.fullmatch(kind, part):
            raise ValueError(f"{name} of the header can't be {part!r}")
    *parts, info = parts
    made.append(_with_shown(b" ".join([b"message", *parts]), info))
    if as_bytes(trailer):
        made.append(_with_shown(b"trailer", trailer))
    made.append(b"text")
    for line in map(as_bytes, lines):
        if b"\n" in line or b"\r" in line:
            raise ValueError("a line has no line end in it")
        made.append(line)
    return b"\n".join([*made, b""])


def _with_shown(word: bytes, octets: AnyOctets) -> bytes:
    """Return a line of a script: a word and, if there are bytes, a space and the escaped bytes."""
    shown = (
        bytes([octet]) if 0x20 <= octet <= 0x7E and octet != 0x5C else b"\\x%02X" % octet
        for octet in as_bytes(octets)
    )
    return b" ".join([word, *filter(None, [b"".join(shown)])])


def pack(
    script: AnyOctets, *, subfile: int = 1_024, unknown: bool = False, maximum: Optional[int] = None
) -> bytes:
    """Return the envelope that a script specifies.

    `script` writes scripts, and docs/reference/format.md defines them.

    Args:
        script: The script.
        subfile: The maximum size of a subfile, in bytes.
        unknown: Whether the size of the object is not announced.
        maximum: The maximum size of the object, 7:95. Only an object of unknown size has one.

    Raises:
        ScriptError: The script is invalid.
        ValueError: A size is out of range, or `maximum` is given without `unknown`.
        MemoryError: The library could not allocate memory.
    """
    if not 1 <= subfile <= GREATEST or maximum is not None and not 0 <= maximum <= GREATEST:
        raise ValueError(f"a subfile has 1 to {GREATEST} octets, a maximum 0 to {GREATEST}")
    if maximum is not None and not unknown:
        raise ValueError("maximum needs unknown=True")
    script = as_bytes(script)
    packing = _library.Packing(subfile, unknown, maximum is not None, maximum or 0)
    out, answer = _library.buffer(len(script) + 256), _library.Answer()
    while True:
        library.iim_pack(packing, script, len(script), out, len(out), answer)
        if answer.status != _library.SHORT:
            break
        if answer.written <= len(out):
            raise RuntimeError("the library reports a short buffer, but needs no more capacity")
        out = _library.buffer(answer.written)
    if answer.status == _library.NO_MEMORY:
        raise MemoryError
    if answer.status == _library.REFUSED:
        raise ScriptError(answer.octet, answer.cause)
    if answer.status != _library.DONE:
        raise RuntimeError(f"the library returned the unexpected status {answer.status}")
    return bytes(out[: answer.written])
