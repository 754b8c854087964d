"""The shapes of envelopes and of scripts that are measured."""
from __future__ import annotations

import os
import random
from typing import Dict, List, Tuple

import rules
from envelopes import SMALLEST, SMALLEST_FIELDS, SMALLEST_HEAD, STORY, STORY_FIELDS, STORY_HEAD

TOP = os.path.dirname(os.path.dirname(os.path.dirname(os.path.realpath(__file__))))
PROSE = b"The bank kept its rates where they were, as it had said it may"
# Rows of tables as in reports of markets.
WIDE_ROW = b"Frankfurt    DAX     16,213.90   +0.41 %"
NARROW_ROW = b"DAX 16,213"
PLACES = [
    (2, 5, b"Rates"),
    (2, 15, b"ECO"),
    (2, 90, b"Frankfurt"),
    (2, 101, b"Germany"),
    (2, 110, b"TST"),
    (2, 120, b"Rates stay."),
]
OBJECT = rules.object_of(SMALLEST_HEAD, [b""], b"")


def keywords(octets: int) -> bytes:
    """Return the smallest envelope with 400 keywords of this many octets."""
    return rules.packed([*SMALLEST_FIELDS, *[(2, 25, b"k" * octets)] * 400], OBJECT, 1024)


def prose(lines: int, header: List[Tuple[int, int, bytes]], subfile: int) -> bytes:
    """Return an envelope with this many lines of prose, in subfiles of this many octets."""
    return rules.packed(header, rules.object_of(STORY_HEAD, [PROSE] * lines, b""), subfile)


def lines_of(line: bytes, lines: int) -> bytes:
    """Return an envelope whose text repeats this line, with its line end."""
    head, tail = rules.object_of(STORY_HEAD, [b""], b"").split(b"\2")
    return rules.packed(SMALLEST_FIELDS, head + b"\2" + line * lines + tail, 32_768)


def shapes(times: int) -> Dict[str, bytes]:
    """Return the shapes, each of about 100,000 octets times this number."""
    return {
        "envelopes of 114 octets": SMALLEST * 900 * times,
        "envelopes of 246 octets": STORY * 400 * times,
        "stories of 4 KB, 22 datasets": prose(64, [*STORY_FIELDS, *PLACES], 32_768) * 24 * times,
        "400 keywords of 8 octets": keywords(8) * 19 * times,
        "400 keywords of 64 octets": keywords(64) * 4 * times,
        "long text, subfiles of 32 KB": prose(1640 * times, SMALLEST_FIELDS, 32_768),
        "tables, lines of 40 octets": lines_of(b"%s\r\n" % WIDE_ROW, 2500 * times),
        "tables, lines of 10 octets": lines_of(b"%s\r\n" % NARROW_ROW, 8500 * times),
        "lines of one octet, CR LF": lines_of(b"x\r\n", 34_000 * times),
        "lines of one octet, LF": lines_of(b"x\n", 34_000 * times),
        "subfiles of one octet": prose(256 * times, SMALLEST_FIELDS, 1),
    }


# The measured shapes, and those whose instructions the gate counts.
SHAPES, SMALL_SHAPES = shapes(10), shapes(1)
# Of each script the line of its story, how often it occurs there, and the words that `pack` is
# given.
SCRIPTS: "dict[str, tuple[bytes, int, list[str]]]" = {
    "a script of prose": (PROSE, 16_384, []),
    "a script of lines of one octet": (b"x", 340_000, []),
    "a script of prose, subfiles of one octet": (PROSE, 2600, ["--subfile", "1"]),
}
# The envelopes that are audited, their ids in this order.
AUDITS = {
    "10,000, by their ids": (10_000, False),
    "100,000, by their ids": (100_000, False),
    "1,000,000, by their ids": (1_000_000, False),
    "1,000,000, in no order": (1_000_000, True),
}
NUMBER = slice(34, 42)


def script(line: bytes, lines: int) -> bytes:
    """Return the smallest script, with a story that repeats this line."""
    with open(f"{TOP}/samples/smallest.script", "rb") as sample:
        return sample.read() + (line + b"\n") * lines


def write_numbered(path: str, envelopes: int, is_mixed: bool) -> None:
    """Write copies of the smallest envelope, numbered from 0.

    If `mixed`, they are shuffled, in the same order each time.
    """
    octets, numbers = bytearray(SMALLEST), list(range(envelopes))
    if is_mixed:
        random.Random(envelopes).shuffle(numbers)
    with open(path, "wb") as to:
        for number in numbers:
            octets[NUMBER] = b"%08d" % number
            to.write(octets)
