"""The numbers, values and rows of the format: what tests/rules.py says of a single dataset."""
from __future__ import annotations

import datetime
from typing import Callable, Dict, List, NamedTuple, Optional, Tuple

Limits = Tuple[int, int]
Key = Tuple[int, int]
Field = Tuple[int, int, bytes]

# The greatest size of an object, the most octets of an extended count, the most subfiles; the
# limits of the command.
GREATEST = 2**63 - 1
COUNT_OCTETS = 8
SUBFILES = 2**32 - 1
LIMITS = 65536, 512

LAYERS = ["dataset", "record", "limits", "object", "message", "story", "outside"]

# The causes for which octets are refused, each by its number.
CAUSES = {
    1: "Marker",
    2: "CountForm",
    3: "Truncated",
    10: "RecordOrder",
    11: "UnknownDataset",
    12: "Repeated",
    13: "CountRange",
    14: "Missing",
    15: "BadValue",
    16: "FileFormat",
    20: "ModeClash",
    21: "SizeClash",
    22: "SubfileTooLong",
    23: "PastSize",
    24: "Short",
    25: "ConfirmedWrong",
    30: "BadOctet",
    32: "Unfinished",
    40: "LoneReturn",
    41: "ControlOctet",
    50: "HeaderFull",
    51: "TooManyFields",
    52: "TooManySubfiles",
    61: "Failed",
}
# The datasets that have one valid value alone, whatever their row says: the value, and the cause
# for which any other is rejected.
ASKED = {(1, 20): (b"\0\2", 16)}
# The causes that octets alone have not: of a sink, of memory, of a packer, of a script.
OTHER_CAUSES = {
    60: "Sink",
    70: "OutOfMemory",
    80: "PastAnnounced",
    81: "ShortOfAnnounced",
    82: "BadTextOctet",
    83: "BadTrailer",
    84: "Write",
    85: "Failed",
    91: "ScriptLine",
    92: "ScriptTooLong",
}


def named_causes(*numbers: int) -> List[str]:
    """Return the number and the name of each of these causes."""
    return [f"{number} {CAUSES.get(number) or OTHER_CAUSES[number]}" for number in numbers]


LETTERS = frozenset(b"ABCDEFGHIJKLMNOPQRSTUVWXYZabcdefghijklmnopqrstuvwxyz")
DIGITS = frozenset(b"0123456789")
GRAPHIC = frozenset([*range(0x21, 0x7F), *range(0x80, 0x100)])
SPACED = GRAPHIC | {0x20}
SPACED_LINES = SPACED | {0x0A, 0x0D}
FILLER = frozenset([0x00, 0x0A, 0x0D, 0x16])
TRAILER = SPACED_LINES


# --- Values ---


def is_day(year: int, month: int, day: int) -> bool:
    """Return whether the calendar has this day."""
    try:
        datetime.date(year, month, day)
    except ValueError:
        return False
    return True


def date_parts(octets: bytes) -> Optional[Tuple[int, int, int]]:
    """Return the year, month and day in eight digits, or None."""
    if len(octets) != 8 or not DIGITS.issuperset(octets):
        return None
    return int(octets[:4]), int(octets[4:6]), int(octets[6:])


def is_date(octets: bytes) -> bool:
    """Return whether octets are a date."""
    parts = date_parts(octets)
    return parts is not None and is_day(*parts)


def is_part_date(octets: bytes) -> bool:
    """Return whether octets are a date whose month, day, or both may be unknown.

    If the month is unknown, any day up to 31 is valid.
    """
    parts = date_parts(octets)
    if parts is None or parts[0] == 0:
        return False
    year, month, day = parts
    if month == 0:
        return day <= 31
    return month <= 12 if day == 0 else is_day(year, month, day)


def is_time(octets: bytes) -> bool:
    """Return whether octets are a time with its offset."""
    if (
        len(octets) != 11
        or octets[6] not in b"+-"
        or not DIGITS.issuperset(octets[:6] + octets[7:])
    ):
        return False
    hour, minute, second = int(octets[:2]), int(octets[2:4]), int(octets[4:6])
    return (
        hour <= 23
        and minute <= 59
        and second <= 59
        and int(octets[7:9]) <= 23
        and int(octets[9:]) <= 59
    )


def is_size(octets: bytes) -> bool:
    """Return whether octets are a size."""
    return 1 <= len(octets) <= COUNT_OCTETS and number(octets) <= GREATEST


KINDS: Dict[str, Callable[[bytes], bool]] = {
    "Graphic": GRAPHIC.issuperset,
    "Spaced": SPACED.issuperset,
    "SpacedLines": SPACED_LINES.issuperset,
    "Letters": LETTERS.issuperset,
    "Digits": DIGITS.issuperset,
    "Date": is_date,
    "PartDate": is_part_date,
    "Time": is_time,
    "Binary": lambda octets: True,
    "Octets": lambda octets: True,
    "Mode": lambda octets: bytes(octets) in (b"\0", b"\1"),
    "Size": is_size,
    "SizeFromOne": lambda octets: is_size(octets) and number(octets) > 0,
}


def number(octets: bytes) -> int:
    """Return the number that octets encode."""
    return int.from_bytes(octets, "big")


def number_of(octets: bytes) -> Optional[int]:
    """Return the number that 1 to 8 octets encode, or None for another count of octets."""
    return number(octets) if 1 <= len(octets) <= COUNT_OCTETS else None


# The seconds of the first and the last instant that there is a form for.
FIRST_SECOND, LAST_SECOND = -377705023201, 253402207200
EPOCH = datetime.date(1970, 1, 1).toordinal()


def instant_of(date: bytes, time: bytes) -> Optional[int]:
    """Return the seconds since 1970 of a local time minus its offset, or None."""
    if not is_date(date) or not is_time(time):
        return None
    year, month, day_of_month = date_parts(date) or (1, 1, 1)
    day = datetime.date(year, month, day_of_month).toordinal() - EPOCH
    hour, minute, second = int(time[:2]), int(time[2:4]), int(time[4:6])
    offset = (int(time[7:9]) * 60 + int(time[9:])) * 60
    seconds = (
        day * 86400
        + (hour * 60 + minute) * 60
        + second
        - (offset if time[6] == ord("+") else -offset)
    )
    return seconds if FIRST_SECOND <= seconds <= LAST_SECOND else None


def instant_text(seconds: Optional[int]) -> str:
    """Return an instant as it is printed."""
    if seconds is None:
        return "none"
    day, second = EPOCH + seconds // 86400, seconds % 86400
    # (the day before the first that Python has is the last of the year 0)
    date = datetime.date.fromordinal(day).isoformat() if day > 0 else "0000-12-31"
    return f"{date}T{second // 3600:02}:{second // 60 % 60:02}:{second % 60:02}Z"


# --- Rows ---


class Row(NamedTuple):
    """A row of the tables: its bounds, its kind, and whether it is mandatory and repeatable."""

    least: int
    most: int
    kind: str
    is_mandatory: bool
    repeats: bool


def rows(record: int, text: str) -> Dict[Key, Row]:
    """Return rows that are written one per line: number, bounds, kind, `mandatory`, `repeats`."""
    made = {}
    for line in text.strip().splitlines():
        dataset, bounds, kind, *words = line.split()
        least, _, most = bounds.partition("-")
        made[record, int(dataset)] = Row(
            int(least), int(most or least), kind, "mandatory" in words, "repeats" in words
        )
    return made


ROWS = {
    **rows(
        1,
        """
        0 2 Binary mandatory
        5 0-1024 Graphic repeats
        20 2 Binary mandatory
        22 2 Binary mandatory
        30 0-10 Graphic mandatory
        40 8 Digits mandatory
        50 0-32 Graphic repeats
        60 1 Digits
        70 8 Date mandatory
        80 11 Time
        90 0-32 Octets
        100 14-80 Octets
        """,
    ),
    **rows(
        2,
        """
        0 2 Binary mandatory
        5 0-64 Spaced
        7 0-64 Spaced
        10 1 Digits
        15 0-3 Letters
        20 0-32 Spaced repeats
        22 0-32 Graphic
        25 0-64 Spaced repeats
        30 8 Date
        35 11 Time
        37 8 Date
        38 11 Time
        40 0-256 SpacedLines
        55 8 PartDate
        60 11 Time
        80 0-32 Spaced repeats
        85 0-32 Spaced repeats
        90 0-32 Spaced
        95 0-32 Spaced
        100 0-3 Letters
        101 0-64 Spaced
        103 0-32 Spaced
        105 0-256 Spaced
        110 0-32 Spaced
        115 0-32 Spaced
        116 0-128 Spaced
        120 0-2000 SpacedLines
        122 0-32 Spaced repeats
        """,
    ),
    (7, 10): Row(1, 1, "Mode", True, False),
    (7, 20): Row(1, COUNT_OCTETS, "SizeFromOne", True, False),
    (7, 90): Row(1, COUNT_OCTETS, "Size", False, False),
    (7, 95): Row(1, COUNT_OCTETS, "Size", False, False),
    (8, 10): Row(0, GREATEST, "Octets", True, True),
    (9, 10): Row(1, COUNT_OCTETS, "Size", True, False),
}
OTHER = Row(0, 8192, "Octets", False, True)
MANDATORY = {
    record: [key[1] for key, row in ROWS.items() if key[0] == record and row.is_mandatory]
    for record in (1, 2, 7, 8, 9)
}
# The record that follows.
NEXT = {0: 1, 1: 2, 2: 7, 7: 8, 8: 9}


def row_of(record: int, dataset: int) -> Optional[Row]:
    """Return the row of a dataset, or None if the dataset is undefined."""
    return ROWS.get((record, dataset), OTHER if record in (1, 2) else None)


def admits(row: Row, octets: bytes) -> bool:
    """Return whether a row accepts octets."""
    return row.least <= len(octets) <= row.most and KINDS[row.kind](octets)
