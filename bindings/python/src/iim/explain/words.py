"""Write bytes, datasets and their values as text."""
from __future__ import annotations

import datetime
import re
from typing import AbstractSet, Iterable, List, Optional, Tuple

import iim
from iim.designations import encoding_of
from iim.explain.charsets import columns_of

NAMED = {
    0: "NUL",
    1: "SOH",
    2: "STX",
    3: "ETX",
    4: "EOT",
    10: "LF",
    13: "CR",
    22: "SYN (16)",
    27: "ESC (1B)",
    32: "SP",
}

# The parts of a message, as iim.h numbers them; the names in the row of parts; and each part's
# index there.
PARTS = [
    "the filler before SOH",
    "the source",
    "the number",
    "the priority",
    "the SP after the priority",
    "the category",
    "the words",
    "the info",
    "the gap",
    "the text",
    "the trailer",
    "the filler after EOT",
]
ROW = (
    "filler SOH source number priority category words info gap STX text ETX trailer EOT filler"
).split()
OF_ROW = [0, 2, 3, 4, 4, 5, 6, 7, 8, 10, 12, 14]

# The valid values of a dataset, by the number of its kind.
KINDS = [
    "",
    "graphic octets (21 to 7E, 80 to FF)",
    "graphic octets and spaces",
    "graphic octets, spaces and line ends",
    "letters",
    "digits",
    "a date CCYYMMDD",
    "a date CCYYMMDD, whose month or day may be 00",
    "a time HHMMSS, + or -, HHMM",
    "a binary number",
    "any octets",
    "00 or 01",
    "a binary number below 2^63",
    "a binary number from 1 to 2^63 - 1",
]
LETTERS, DIGITS = 4, 5
TEXTS = range(1, DIGITS + 1)
DATE, PART_DATE, TIME, BINARY, OCTETS, MODE, SIZE, SIZE_FROM_ONE = range(6, 14)

MONTHS = (
    "January February March April May June July August September October November December".split()
)
PRIORITIES = {1: "most urgent", 5: "normal", 8: "least urgent"}
FORMATS = {2: "IPTC 7901 message"}
MODES = {0: "the size is not announced", 1: "the size is announced"}

# Classes of bytes that are equivalent in a message. No byte is in two classes.
CLASSES = [
    bytes(range(48, 58)),
    bytes([*range(65, 91), *range(97, 123)]),
    b"\x1c",
    b"\0\x16",
    b"\n",
    b"\r",
    b" ",
    b"\1",
    b"\2",
    b"\3",
    b"\4",
]
_OF_CLASSES = {octet for each in CLASSES for octet in each}
CLASSES += [
    bytes(octet for octet in range(33, 127) if octet not in _OF_CLASSES),
    bytes(range(128, 256)),
    bytes(octet for octet in (*range(32), 127) if octet not in _OF_CLASSES),
]


def shown(octets: bytes, most: int = 40) -> str:
    """Return at most `most` bytes as text, escaped as the command escapes them."""
    text = "".join(
        chr(octet) if 32 <= octet < 127 and octet != 92 else f"\\x{octet:02X}"
        for octet in octets[:most]
    )
    return text + ("..." if len(octets) > most else "")


# An incomplete escape at the end of a text.
PART_OF_ESCAPE = re.compile(r"\\(x[0-9A-F]?|u[0-9A-F]{0,3}|U[0-9A-F]{0,7})?\Z")


def fitted(text: str, most: int) -> str:
    """Return a text in at most `most` columns.

    A longer one ends in `...` after a complete character or escape.
    """
    if columns_of(text) <= most:
        return text
    kept = text[: max(0, most - 3)]
    while columns_of(kept) > max(0, most - 3):
        kept = kept[:-1]
    return PART_OF_ESCAPE.sub("", kept) + "..."


def plain(octets: bytes) -> str:
    """Return bytes as text of one column each, with a full stop for each that can't be printed."""
    return "".join(chr(octet) if 32 <= octet < 127 else "." for octet in octets)


def printable(name: str) -> str:
    """Return a file name with escapes for characters that would hide or reorder other text."""
    return "".join(each if each.isprintable() and each != "\\" else escaped(each) for each in name)


def escaped(character: str) -> str:
    """Return the escape of a character, or of the byte that it represents in a non-UTF-8 name."""
    number = ord(character)
    if 0xDC80 <= number <= 0xDCFF:
        return f"\\x{number - 0xDC00:02X}"
    return (
        f"\\x{number:02X}"
        if number < 256
        else f"\\u{number:04X}"
        if number < 65_536
        else f"\\U{number:08X}"
    )


def name(octet: int, raw: bool = False) -> str:
    """Return the name of a byte.

    A raw byte, of a tag or a binary number, is written in hexadecimal.
    """
    if raw:
        return f"{octet:02X}"
    return NAMED.get(octet) or (f"'{chr(octet)}'" if 32 < octet < 127 else f"{octet:02X}")


def runs(octets: AbstractSet[int]) -> List[Tuple[int, int]]:
    """Return the ranges of consecutive values in a set of bytes, by first and last value."""
    bits = "".join("01"[octet in octets] for octet in range(256))
    return [(found.start(), found.end() - 1) for found in re.finditer("1+", bits)]


def names(octets: Iterable[int], raw: bool = False) -> str:
    """Return the names of a set of bytes."""
    octets = frozenset(octets)
    if not octets:
        return "no octet"
    if len(octets) > 240:
        return "any octet" + (
            f" except {names(frozenset(range(256)) - octets, raw)}" if len(octets) < 256 else ""
        )
    spans = runs(octets)
    parts: List[str] = []
    letters = (65, 90) in spans and (97, 122) in spans
    for what, low, high in (
        ("a digit", 48, 57),
        ("a capital letter", 65, 90),
        ("a small letter", 97, 122),
    ):
        if (low, high) in spans and not raw:
            spans.remove((low, high))
            parts.append("a letter" if letters and low > 57 else what)
    parts = list(dict.fromkeys(parts)) + [
        part for low, high in spans for part in span(low, high, raw)
    ]
    return " or ".join([", ".join(parts[:-1])] * (len(parts) > 1) + parts[-1:])


def span(low: int, high: int, raw: bool) -> List[str]:
    """Return the names of a range of bytes."""
    if high - low < 3:
        return [name(octet, raw) for octet in range(low, high + 1)]
    if 48 <= low and high <= 57 and not raw:
        return [f"the digits {chr(low)} to {chr(high)}"]
    return [f"octets {low:02X} to {high:02X}"]


def titled(record: int, number: Optional[int]) -> str:
    """Return the numbers and the name of a dataset."""
    if number is None:
        return f"{record}:?"
    unnamed = "(not interpreted)" if record in (1, 2) else ""
    return f"{record}:{number:02} {iim.dataset_name(record, number) or unnamed}".strip()


def counted(number: int, what: str) -> str:
    """Return a number and a noun, in the plural if needed."""
    return f"{number:,} {what}{'s' * (number != 1)}"


# --- Values ---


def date_in_words(octets: bytes) -> str:
    """Return a valid date as text, without the parts that are 0."""
    year, month, day = int(octets[:4]), int(octets[4:6]), int(octets[6:])
    if day and not month:
        return f"day {day} of an unknown month, {year}"
    return " ".join([str(day)] * (day > 0) + [MONTHS[month - 1]] * (month > 0) + [str(year)])


def time_in_words(octets: bytes) -> str:
    """Return a valid time as text."""
    text = octets.decode("ascii")
    offset = (
        "universal time"
        if text[7:] == "0000"
        else f"{text[7:9]}:{text[9:]} {'ahead of' if text[6] == '+' else 'behind'} universal time"
    )
    return f"{text[:2]}:{text[2:4]}:{text[4:6]}, {offset}"


def instant_in_words(date: Optional[bytes], time: Optional[bytes]) -> Optional[str]:
    """Return the UTC instant of a valid date and time, or `None` if missing or out of range."""
    if date is None or time is None:
        return None
    clock = datetime.datetime.strptime((date + time[:6]).decode("ascii"), "%Y%m%d%H%M%S").replace(
        tzinfo=datetime.timezone.utc
    )
    offset = datetime.timedelta(hours=int(time[7:9]), minutes=int(time[9:]))
    try:
        instant = clock + offset if time[6:7] == b"-" else clock - offset
    except OverflowError:
        return None
    return f"{instant.year:04}-{instant:%m-%dT%H:%M:%SZ}"


def is_text(record: int, number: int) -> bool:
    """Check whether the value of a dataset is text."""
    rule = iim.row(record, number)
    return rule is not None and rule.kind in range(1, DIGITS)


def value_in_words(record: int, number: int, octets: bytes, count: int) -> str:
    """Return the value of a dataset as text.

    Args:
        record: The record number.
        number: The dataset number.
        octets: The first bytes of the value.
        count: The size of the value, in bytes.
    """
    rule = iim.row(record, number)
    kind = rule.kind if rule and iim.dataset_name(record, number) else OCTETS
    admitted = count == len(octets) and iim.admits(record, number, octets)
    if admitted and kind in (DATE, PART_DATE):
        return date_in_words(octets)
    if admitted and kind == TIME:
        return time_in_words(octets)
    if admitted and kind in (BINARY, MODE, SIZE, SIZE_FROM_ONE):
        value = int.from_bytes(octets, "big")
        meanings = FORMATS if (record, number) == (1, 20) else MODES if kind == MODE else {}
        return f"{value:,}" + (f", {meanings[value]}" if value in meanings else "")
    if admitted and (record, number) in ((1, 60), (2, 10)):
        digit = int(octets)
        return f"{digit}" + (f", {PRIORITIES[digit]}" if digit in PRIORITIES else "")
    if (record, number) == (1, 90) and encoding_of(octets):
        return f"{shown(octets, 64)}, {encoding_of(octets)}"
    if kind in (BINARY, MODE, SIZE, SIZE_FROM_ONE):
        return octets[:13].hex(" ").upper() + " ..." * (count > 13)
    return shown(octets, 64)
