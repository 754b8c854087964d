"""Decode the text of an envelope, and make it safe to show."""
from __future__ import annotations

import codecs
import re
import unicodedata
from typing import List, NamedTuple, Optional, Tuple

from iim.designations import encoding_of


class Encoding(NamedTuple):
    """The encoding of the text of an envelope.

    Attributes:
        name: The name, as Python has it.
        source: How it is known: "given", "declared" or "guessed".
    """

    name: str
    source: str

    def __str__(self) -> str:
        """Return a sentence about the encoding."""
        if (self.name, self.source) == ("ascii", "guessed"):
            return "Text is ASCII."
        known = {
            "given": "as --encoding gives it",
            "declared": "as 1:90 declares it",
            "guessed": "a guess, since 1:90 does not declare it: --encoding NAME sets another",
        }
        return f"Text is shown in {self.name}, {known[self.source]}."


def known_encoding(name: str) -> Optional[str]:
    """Return the normal name of a text encoding in which ASCII is ASCII, or `None`."""
    try:
        info = codecs.lookup(name)
        is_text = "\x1cA~".encode(info.name) == b"\x1cA~"
        return info.name if is_text and b"A~".decode(info.name) == "A~" else None
    except (LookupError, ValueError, TypeError):
        return None


# An incomplete character of UTF-8 at the end of a text.
PART_OF_UTF_8 = re.compile(
    rb"(?:[\xc2-\xdf]|[\xe0-\xef][\x80-\xbf]?|[\xf0-\xf4][\x80-\xbf]{0,2})\Z"
)


def complete(text: bytes) -> bytes:
    """Return text without an incomplete character of UTF-8 at its end."""
    return PART_OF_UTF_8.sub(b"", text)


def guess_of(text: bytes) -> str:
    """Return the likely encoding of text that does not declare one."""
    if text.isascii():
        return "ascii"
    # (an incomplete last character is left out, if there are others)
    front = complete(text)
    try:
        (text if front.isascii() else front).decode("utf-8")
    except UnicodeDecodeError:
        return "cp1252" if any(0x80 <= octet < 0xA0 for octet in text) else "iso8859-1"
    return "utf-8"


def choose(given: Optional[str], designations: Optional[bytes], text: bytes) -> Encoding:
    """Choose the encoding of the text of an envelope.

    Args:
        given: The encoding that the user gave, or `None`.
        designations: The value of 1:90, or `None`.
        text: The values and the story, or their beginning.
    """
    if given is not None:
        return Encoding(given, "given")
    declared = encoding_of(designations) if designations else None
    if declared is not None:
        return Encoding(declared, "declared")
    return Encoding(guess_of(text), "guessed")


def parts_of(octets: bytes, name: str) -> List[Tuple[str, bool]]:
    """Decode bytes, and return texts with whether each was decoded: others are escapes."""
    parts: List[Tuple[str, bool]] = []
    at = 0
    while at < len(octets):
        try:
            parts.append((octets[at:].decode(name), True))
            break
        except UnicodeDecodeError as fault:
            if fault.start:
                parts.append((octets[at : at + fault.start].decode(name), True))
            end = at + max(fault.end, fault.start + 1)
            wrong = octets[at + fault.start : end]
            parts.append(("".join(f"\\x{octet:02X}" for octet in wrong), False))
            at = end
    return parts


def safe(text: str) -> str:
    """Return a text with escapes for characters that are invisible or would reorder others."""
    return "".join(each if each.isprintable() and each != "\\" else _escape(each) for each in text)


def _escape(character: str) -> str:
    """Return the escape of a character."""
    number = ord(character)
    if number < 256:
        return f"\\x{number:02X}"
    return f"\\u{number:04X}" if number < 65_536 else f"\\U{number:08X}"


def decoded(octets: bytes, name: str, most: int = 64) -> str:
    """Return bytes as text that is safe to show, at most about `most` bytes of them.

    Bytes that are no text of the encoding are escaped. The last character is not split.
    """
    kept = octets if len(octets) <= most else octets[:most]
    if len(kept) < len(octets):
        kept = kept[: _end_of_text(kept, name)]
    texts = (safe(text) if is_text else text for text, is_text in parts_of(kept, name))
    return "".join(texts) + "..." * (len(kept) < len(octets))


def _end_of_text(octets: bytes, name: str) -> int:
    """Return the size of bytes without an incomplete last character."""
    for back in range(min(4, len(octets))):
        try:
            octets[: len(octets) - back].decode(name)
        except UnicodeDecodeError as fault:
            if fault.end < len(octets) - back:
                break
            continue
        return len(octets) - back
    return len(octets)


def is_plain(octets: bytes) -> bool:
    """Check whether bytes are printable ASCII, so that they are the same in any encoding."""
    return all(32 <= octet < 127 and octet != 92 for octet in octets)


def columns_of(text: str) -> int:
    """Return the number of columns of a text on a terminal."""
    return sum(
        0
        if unicodedata.combining(each) or unicodedata.category(each) in ("Mn", "Me", "Cf")
        else 2
        if unicodedata.east_asian_width(each) in ("W", "F")
        else 1
        for each in text
    )


def isolated(text: str) -> str:
    """Return a text for a terminal: one with right-to-left letters does not reorder others."""
    if any(unicodedata.bidirectional(each) in ("R", "AL", "AN") for each in text):
        return f"\u2068{text}\u2069"
    return text
