"""Ways in which a transfer or a program changes the bytes of a file, and how to undo them.

Where a change is not reversible byte by byte, the counts of the datasets decide: the tags are read
one after the other, and each dataset gets as many bytes as it counts. What results is tried.
"""
from __future__ import annotations

import itertools
import re
from typing import Callable, Dict, Iterator, List, NamedTuple, Optional, Set, Tuple

import iim
from iim.explain import words

TAG = 0x1C
# The records in order, and the states that are tried at most.
RECORDS, STATES = (1, 2, 7, 8, 9), 50_000
# The line ends of a value that are changed while others stay.
PARTLY = 8
# What follows an envelope: another one, or nothing.
ENDS = b"\x1c", b""
BINARIES = words.BINARY, words.MODE, words.SIZE, words.SIZE_FROM_ONE
# The numbers of datasets without which no envelope is complete.
MANDATORY = {(1, 0), (1, 20), (1, 22), (1, 30), (1, 40), (1, 70), (2, 0), (7, 10), (7, 20), (9, 10)}


class Part(NamedTuple):
    """A dataset as it was before the change.

    Attributes:
        record: The record number.
        number: The dataset number.
        data: The value.
    """

    record: int
    number: int
    data: bytes


class Tag(NamedTuple):
    """A tag as it may have been before the change.

    Attributes:
        record: The record number.
        number: The dataset number.
        size: The count.
        end: The offset after it in the changed bytes.
    """

    record: int
    number: int
    size: int
    end: int


Tags = Callable[[bytes, int], Iterator[Tag]]
Values = Callable[[bytes, Tag], Iterator[Tuple[bytes, int]]]


class Channel(NamedTuple):
    """A way in which bytes are changed.

    Attributes:
        key: A word for it.
        done: What the transfer did, as a reason.
        undone: What undoes it, as the beginning of a sentence.
        change: The change itself.
        tags: Returns the tags that may begin at an offset.
        values: Returns the values that may follow a tag, and the offset after each.
    """

    key: str
    done: str
    undone: str
    change: Callable[[bytes], bytes]
    tags: Tags
    values: Values


# --- Tags and values


def plain_tags(octets: bytes, at: int) -> Iterator[Tag]:
    """Yield the tag at an offset, as it is."""
    head = octets[at : at + 13]
    if len(head) < 5 or head[0] != TAG:
        return
    if head[3] < 0x80:
        yield Tag(head[1], head[2], int.from_bytes(head[3:5], "big"), at + 5)
    elif head[3] == 0x80 and 1 <= head[4] <= 8 and len(head) >= 5 + head[4]:
        size = 5 + head[4]
        yield Tag(head[1], head[2], int.from_bytes(head[5:size], "big"), at + size)


def raw_values(octets: bytes, tag: Tag) -> Iterator[Tuple[bytes, int]]:
    """Yield the value after a tag, as it is."""
    if tag.end + tag.size <= len(octets):
        yield octets[tag.end : tag.end + tag.size], tag.end + tag.size


def collapsed(octets: bytes, at: int, count: int) -> Optional[Tuple[bytes, int]]:
    """Return `count` bytes of which each LF had become CR LF, and the offset after them."""
    made = bytearray()
    while len(made) < count and at < len(octets):
        if octets[at : at + 2] == b"\r\n":
            at += 1
        made.append(octets[at])
        at += 1
    return (bytes(made), at) if len(made) == count else None


def collapsed_tags(octets: bytes, at: int) -> Iterator[Tag]:
    """Yield the tag at an offset, with CR LF made LF."""
    found = collapsed(octets, at, 5)
    if found is not None and found[0][0] == TAG and found[0][3] < 0x80:
        head, end = found
        yield Tag(head[1], head[2], int.from_bytes(head[3:5], "big"), end)
    yield from plain_tags(octets, at)


def collapsed_values(octets: bytes, tag: Tag) -> Iterator[Tuple[bytes, int]]:
    """Yield the value after a tag with CR LF made LF: none of them, all, or the first ones."""
    yield from raw_values(octets, tag)
    found = collapsed(octets, tag.end, tag.size)
    if found is None:
        return
    yield found
    at, front = tag.end, b""
    for _ in range(PARTLY):
        next_at = octets.find(b"\r\n", at, tag.end + tag.size)
        if next_at < 0:
            return
        front += octets[at:next_at] + b"\n"
        at = next_at + 2
        more = tag.size - len(front)
        if 0 <= more <= len(octets) - at:
            yield front + octets[at : at + more], at + more


def expanded(lost: bytes, kept: bytes) -> Values:
    """Return the values of which each `lost` had become `kept`."""

    def values(octets: bytes, tag: Tag) -> Iterator[Tuple[bytes, int]]:
        """Yield the value after a tag, as it is, and expanded."""
        yield from raw_values(octets, tag)
        if tag.size > len(octets) * len(lost):
            return
        made, at = bytearray(), tag.end
        while len(made) < tag.size and at < len(octets):
            made += lost if octets[at : at + len(kept)] == kept else octets[at : at + 1]
            at += len(kept) if octets[at : at + len(kept)] == kept else 1
        if len(made) == tag.size:
            yield bytes(made), at

    return values


def dropped_tags(lost: int) -> Tags:
    """Return the tags of which each byte of a value was dropped."""

    def tags(octets: bytes, at: int) -> Iterator[Tag]:
        """Yield the tags at an offset, with up to three bytes put in."""
        if octets[at : at + 1] != b"\x1c" or at + 1 >= len(octets):
            return
        record = octets[at + 1]
        for kept in itertools.product((True, False), repeat=3):
            end, parts = at + 2, []
            for is_kept in kept:
                parts.append(octets[end] if is_kept and end < len(octets) else lost)
                end += is_kept
            is_right = all(value != lost for value, is_kept in zip(parts, kept) if is_kept)
            if is_right and parts[1] < 0x80:
                yield Tag(record, parts[0], parts[1] << 8 | parts[2], end)

    return tags


def dropped_values(lost: int) -> Values:
    """Return the values of which each byte of a value was dropped."""

    def values(octets: bytes, tag: Tag) -> Iterator[Tuple[bytes, int]]:
        """Yield the values after a tag, with bytes put in where the kind of value has them."""
        if kind_of(tag) in BINARIES and tag.size <= 8:
            for size in range(min(tag.size, len(octets) - tag.end), -1, -1):
                rest = octets[tag.end : tag.end + size]
                if lost not in rest:
                    yield rest.rjust(tag.size, bytes([lost])), tag.end + size
            return
        yield from raw_values(octets, tag)
        if lost == 0x0A:
            yield from expanded(b"\r\n", b"\r")(octets, tag)
        elif lost == 0x0D:
            yield from expanded(b"\r\n", b"\n")(octets, tag)

    return values


def spaced_tags(octets: bytes, at: int) -> Iterator[Tag]:
    """Yield the tags at an offset of which each NUL had become a space."""
    head = octets[at : at + 5]
    if len(head) < 5 or head[0] != TAG:
        return
    choices = [(0, value) if value == 0x20 else (value,) for value in head[2:]]
    for number, high, low in itertools.product(*choices):
        if high < 0x80:
            yield Tag(head[1], number, high << 8 | low, at + 5)


def spaced_values(octets: bytes, tag: Tag) -> Iterator[Tuple[bytes, int]]:
    """Yield the value after a tag, of which each NUL had become a space if it is a number."""
    for value, end in raw_values(octets, tag):
        yield (value.replace(b" ", b"\0") if kind_of(tag) in BINARIES else value), end


def character_values(octets: bytes, tag: Tag) -> Iterator[Tuple[bytes, int]]:
    """Yield the value after a tag, as it is, and with as many characters of UTF-8 as it counts."""
    yield from raw_values(octets, tag)
    at = tag.end
    for _ in range(tag.size):
        at += 1
        while at < len(octets) and octets[at] & 0xC0 == 0x80:
            at += 1
    if tag.end < at <= len(octets) and at != tag.end + tag.size:
        yield octets[tag.end : at], at


def kind_of(tag: Tag) -> int:
    """Return the kind of the value of a dataset."""
    rule = iim.row(tag.record, tag.number)
    return rule.kind if rule else words.OCTETS


# --- The search


class Search:
    """The search for the datasets from which a channel made some bytes."""

    def __init__(self, channel: Channel, octets: bytes) -> None:
        """Prepare the search in the bytes of a file from an envelope on."""
        self._channel, self._octets = channel, octets
        self._seen: Set[Tuple[int, int, int]] = set()

    def run(self) -> Tuple[List[List[Part]], int]:
        """Return the datasets of each envelope, and the offset after the last one found."""
        at = 0
        envelopes: List[List[Part]] = []
        while at < len(self._octets):
            self._seen.clear()
            found = self._envelope(at)
            if found is None:
                break
            parts, at = found
            envelopes.append(parts)
        return envelopes, at

    def _envelope(self, begin: int) -> Optional[Tuple[List[Part], int]]:
        """Return the datasets of an envelope, and the offset after it."""
        stack = [self._steps(begin, 1, 0)]
        parts: List[Part] = []
        while stack:
            step = next(stack[-1], None)
            if step is None:
                stack.pop()
                if parts:
                    parts.pop()
                continue
            part, end, total = step
            parts.append(part)
            if part.record == 9:
                return parts, end
            stack.append(self._steps(end, part.record, total))
        return None

    def _steps(self, at: int, record: int, total: int) -> Iterator[Tuple[Part, int, int]]:
        """Yield the datasets that may begin at an offset, and the offset after each."""
        if (at, record, total) in self._seen or len(self._seen) > STATES:
            return
        self._seen.add((at, record, total))
        for tag in self._channel.tags(self._octets, at):
            if not is_possible(tag, record):
                continue
            values = list(self._channel.values(self._octets, tag))
            if tag.record == 9:
                # (what follows the envelope may be anything, but is most likely another one)
                values.sort(key=lambda value: self._octets[value[1] : value[1] + 1] not in ENDS)
            for data, end in values:
                if tag.record == 9 or self._octets[end : end + 1] == b"\x1c":
                    more = len(data) if tag.record == 8 else 0
                    yield Part(tag.record, tag.number, data), end, total + more


def is_possible(tag: Tag, record: int) -> bool:
    """Check whether a tag may follow one of a record."""
    following = RECORDS[RECORDS.index(record) + 1 :][:1]
    if tag.record != record and tag.record not in following:
        return False
    rule = iim.row(tag.record, tag.number)
    return rule is not None and rule.least <= tag.size <= rule.greatest


def sized(parts: List[Part], is_moved: bool = False) -> List[Part]:
    """Return the datasets of an envelope with their sizes as their subfiles have them.

    Args:
        parts: The datasets.
        is_moved: Whether the NULs of 7:20 may have been elsewhere.
    """
    sizes = [len(part.data) for part in parts if part.record == 8]
    total, most = sum(sizes), max(sizes, default=0)
    made = []
    for part in parts:
        data = part.data
        if (part.record, part.number) in ((7, 90), (9, 10)):
            data = in_size(total, len(data))
        elif (part.record, part.number) == (7, 20) and int.from_bytes(data, "big") < most:
            data = raised(data, most) if is_moved else in_size(most, len(data))
        made.append(part._replace(data=data))
    return made


def in_size(number: int, least: int) -> bytes:
    """Return a number in at least some bytes."""
    return number.to_bytes(max(least, (number.bit_length() + 7) // 8), "big")


def raised(data: bytes, most: int) -> bytes:
    """Return a size of at least `most`: that with its NULs elsewhere, if there is one."""
    size = len(data) or 1
    value = int.from_bytes(data, "big")
    for shift in range(8, 8 * size, 8):
        if most <= value << shift < 1 << 8 * size:
            return (value << shift).to_bytes(size, "big")
    for number in itertools.product(b"\0 ", repeat=min(size, 4)):
        if not value and int.from_bytes(bytes(number), "big") >= most:
            return bytes(number).rjust(size, b"\0")
    return in_size(most, size)


def encoded(parts: List[Part]) -> bytes:
    """Return datasets as bytes, with counts in the standard form."""
    made = []
    for part in parts:
        count = len(part.data)
        if count < 0x8000:
            head = count.to_bytes(2, "big")
        else:
            head = b"\x80\x04" + count.to_bytes(4, "big")
        made.append(bytes([TAG, part.record, part.number]) + head + part.data)
    return b"".join(made)


# The channels after which the NULs of a number may be elsewhere.
MOVED = "no nul", "space of nul"


def undone(channel: Channel, octets: bytes) -> Optional[bytes]:
    """Return the bytes from which a channel made others, or `None` if it did not.

    It did if the same change of the result makes these bytes.
    """
    if channel.change(octets) != octets:
        return None
    found, end = Search(channel, octets).run()
    made = b"".join(encoded(sized(parts, channel.key in MOVED)) for parts in found)
    if not found or octets[:end] in (made, b"".join(map(encoded, found))):
        return None
    if channel.key != "characters" and channel.change(made) != octets[:end]:
        return None
    return made + octets[end:]


# --- The channels


def drop(lost: bytes) -> Callable[[bytes], bytes]:
    """Return the change that drops each of a byte."""
    return lambda octets: octets.replace(lost, b"")


CHANNELS: Dict[str, Channel] = {
    each.key: each
    for each in (
        Channel(
            "crlf of lf",
            "a text-mode transfer made CR LF of LF",
            "With CR LF made LF again where the counts ask for it",
            lambda octets: re.sub(rb"(?<!\r)\n", b"\r\n", octets),
            collapsed_tags,
            collapsed_values,
        ),
        Channel(
            "lf of crlf",
            "a text-mode transfer made LF of CR LF",
            "With LF made CR LF again where the counts ask for it",
            lambda octets: octets.replace(b"\r\n", b"\n"),
            plain_tags,
            expanded(b"\r\n", b"\n"),
        ),
        Channel(
            "cr of crlf",
            "a text-mode transfer made CR of CR LF",
            "With CR made CR LF again where the counts ask for it",
            lambda octets: octets.replace(b"\r\n", b"\r"),
            plain_tags,
            expanded(b"\r\n", b"\r"),
        ),
        Channel(
            "no cr",
            "a transfer dropped each CR (0D)",
            "With the CR put in again where the counts ask for it",
            drop(b"\r"),
            dropped_tags(0x0D),
            dropped_values(0x0D),
        ),
        Channel(
            "no lf",
            "a transfer dropped each LF (0A)",
            "With the LF put in again where the counts ask for it",
            drop(b"\n"),
            dropped_tags(0x0A),
            dropped_values(0x0A),
        ),
        Channel(
            "no nul",
            "a transfer dropped each NUL (00)",
            "With the NULs put in again where tags and numbers need them",
            drop(b"\0"),
            dropped_tags(0),
            dropped_values(0),
        ),
        Channel(
            "space of nul",
            "a transfer made a space (20) of each NUL (00)",
            "With the spaces in tags and numbers made NULs again",
            lambda octets: octets.replace(b"\0", b" "),
            spaced_tags,
            spaced_values,
        ),
        Channel(
            "characters",
            "the sender counts the characters of UTF-8 text, not its octets",
            "With each count and size that of the octets",
            lambda octets: octets,
            plain_tags,
            character_values,
        ),
    )
}


# --- Changes of all bytes alike


class Conversion(NamedTuple):
    """A change that is undone byte by byte.

    Attributes:
        done: What was done, as a reason.
        undone: What undoes it, as the beginning of a sentence.
        undo: Returns the bytes before the change, or raises `ValueError`.
    """

    done: str
    undone: str
    undo: Callable[[bytes], bytes]


def transcoded(old: str, new: str) -> Callable[[bytes], bytes]:
    """Return a conversion of bytes from an encoding to another."""
    return lambda octets: octets.decode(old).encode(new)


def repaired_utf_8(name: str) -> Callable[[bytes], bytes]:
    """Return the conversion of UTF-8 to an encoding, also of bytes that the encoding lacks."""

    def undo(octets: bytes) -> bytes:
        """Return the bytes of which each character of UTF-8 was made."""
        parts = []
        for each in octets.decode("utf-8"):
            parts.append(bytes([ord(each)]) if ord(each) < 256 else each.encode(name))
        return b"".join(parts)

    return undo


def swapped(octets: bytes) -> bytes:
    """Return the bytes with each two exchanged."""
    even = len(octets) // 2 * 2
    made = bytearray(octets)
    made[0:even:2], made[1:even:2] = octets[1:even:2], octets[0:even:2]
    return bytes(made)


CONVERSIONS: List[Conversion] = [
    Conversion(
        "a text-mode transfer made CR LF of each LF",
        "With each CR LF changed to LF",
        lambda octets: octets.replace(b"\r\n", b"\n"),
    ),
    Conversion(
        "a program read the file as Latin-1 text and wrote it as UTF-8",
        "With UTF-8 converted to Latin-1",
        transcoded("utf-8", "latin-1"),
    ),
    Conversion(
        "a program read the file as Windows-1252 text and wrote it as UTF-8",
        "With UTF-8 converted to Windows-1252",
        repaired_utf_8("cp1252"),
    ),
    Conversion(
        "a program read the file as UTF-8 text and wrote it as Latin-1",
        "With Latin-1 converted to UTF-8",
        transcoded("latin-1", "utf-8"),
    ),
    Conversion(
        "a program read the file as UTF-8 text and wrote it as Windows-1252",
        "With Windows-1252 converted to UTF-8",
        transcoded("cp1252", "utf-8"),
    ),
    Conversion(
        "a transfer converted the file to EBCDIC",
        "With EBCDIC (code page 500) converted to Latin-1",
        transcoded("cp500", "latin-1"),
    ),
    Conversion(
        "a transfer converted the file to EBCDIC",
        "With EBCDIC (code page 37) converted to Latin-1",
        transcoded("cp037", "latin-1"),
    ),
    Conversion(
        "a transfer exchanged each two octets",
        "With each two octets exchanged",
        swapped,
    ),
]
