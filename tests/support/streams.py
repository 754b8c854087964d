"""Envelopes and scripts that were worked out by hand, and what the command prints of them.

These are written without `tests/rules.py`, so that the tests of the command do not depend on it.
"""
from __future__ import annotations

from typing import NamedTuple, Optional

from support.running import Ran


def dataset(record: int, number: int, octets: bytes) -> bytes:
    """Return a dataset, with an extended count of four bytes if two are too few."""
    short = len(octets) < 1 << 15
    count = len(octets).to_bytes(2 if short else 4, "big")
    return bytes([0x1C, record, number]) + (b"" if short else b"\x80\x04") + count + octets


def head(number: bytes) -> bytes:
    """Return record 1 with this envelope number, and 2:00."""
    return (
        dataset(1, 0, b"\0\4")
        + dataset(1, 20, b"\0\2")
        + dataset(1, 22, b"\0\1")
        + dataset(1, 30, b"TST")
        + dataset(1, 40, number)
        + dataset(1, 70, b"20240301")
        + dataset(2, 0, b"\0\4")
    )


def sized(story: bytes, subfile: int = 1024) -> bytes:
    """Return the records 7, 8 and 9 of a message of known size in one subfile."""
    size = len(story).to_bytes(4, "big")
    return (
        dataset(7, 10, b"\1")
        + dataset(7, 20, subfile.to_bytes(4, "big"))
        + dataset(7, 90, size)
        + dataset(8, 10, story)
        + dataset(9, 10, size)
    )


# The smallest message: a story of one empty line.
MESSAGE = b"\x01X1 4 N 0\r\n\x02\x03\x04"
# The mandatory datasets alone, and that message.
SMALLEST = head(b"00000001") + sized(MESSAGE)
# An envelope with by-lines, keywords and a story of two lines.
STORY = (
    head(b"00000002")
    + dataset(2, 105, b"Rates held")
    + dataset(2, 80, b"A. Moor")
    + dataset(2, 85, b"Editor")
    + dataset(2, 80, b"B. Lund")
    + dataset(2, 85, b"Writer")
    + dataset(2, 25, b"rates")
    + dataset(2, 25, b"bank")
    + dataset(2, 25, b"euro")
    + dataset(2, 250, b"\x00\xff")
    + sized(b"\x01TST0007 4 ECO 5 rates\r\n\x02Rates stay.\r\nNo change.\x03\x04")
)
ACCEPTED = b"1 accepted 114 octets\n"
STORY_ACCEPTED = b"1 accepted 246 octets\n"
MARKER = b"1 refused at octet 0 by layer dataset on 0:00, cause 1 Marker\n"

# What `show` prints of the smallest envelope.
SHOWN = b"""envelope 1
1:00 \\x00\\x04
1:20 \\x00\\x02
1:22 \\x00\\x01
1:30 TST
1:40 00000001
1:70 20240301
2:00 \\x00\\x04
message X 1 4 N 0
trailer
object 14 octets, 1 subfiles, mode 1, limit 1024, announced 14, maximum -
"""
TEXT = b"Rates stay.\nNo change.\n"

# The script of the smallest envelope.
SCRIPT = b"""1:00 \\x00\\x04
1:20 \\x00\\x02
1:22 \\x00\\x01
1:30 TST
1:40 00000001
1:70 20240301
2:00 \\x00\\x04
message X 1 4 N 0
text
"""
COMMANDS = ["check", "show", "story", "pack", "audit"]
NOON = ["--now", "2024-03-01T12:00:00Z"]

# The offsets of the datasets of the smallest envelope, and its end.
OFFSETS = [0, 7, 14, 21, 29, 42, 55, 62, 68, 77, 86, 105, 114]


def put(*changes: tuple[int, bytes]) -> bytes:
    """Return the smallest envelope with datasets replaced, each given by its index."""
    parts = [SMALLEST[at:to] for at, to in zip(OFFSETS, OFFSETS[1:])]
    for index, octets in changes:
        parts[index] = octets
    return b"".join(parts)


def with_fields(*fields: tuple[int, bytes]) -> bytes:
    """Return the smallest envelope with these datasets of record 2 after 2:00."""
    added = b"".join(dataset(2, number, octets) for number, octets in fields)
    return SMALLEST[:62] + added + SMALLEST[62:]


def checked(line: str) -> Ran:
    """Return what `check` prints if this is the line of its first and only envelope."""
    return Ran(0 if line.startswith("accepted") else 1, f"1 {line}\n".encode(), b"")


def size_of(octets: int) -> bytes:
    """Return a size as it is packed in record 7 and in 9:10."""
    return octets.to_bytes(4 if octets < 1 << 32 else 8, "big")


def split(
    fields: bytes, story: bytes, subfile: int, known: bool, most: Optional[int] = None
) -> bytes:
    """Return an envelope of these datasets and this object, in subfiles of this size."""
    sizes = dataset(7, 10, b"\1" if known else b"\0") + dataset(7, 20, size_of(subfile))
    if known:
        sizes += dataset(7, 90, size_of(len(story)))
    if most is not None:
        sizes += dataset(7, 95, size_of(most))
    parts = [story[at : at + subfile] for at in range(0, len(story), subfile)]
    data = b"".join(dataset(8, 10, part) for part in parts)
    return fields + sizes + data + dataset(9, 10, size_of(len(story)))


class Worked(NamedTuple):
    """A worked envelope."""

    script: bytes
    fields: bytes
    story: bytes
    # What `show` prints of it, without the number and the sizes.
    shown: list[bytes]
    text: bytes


# The datasets of the second envelope that the smallest has not, as `show` prints them.
STORY_LINES = b"""2:105 Rates held
2:80 A. Moor
2:85 Editor
2:80 B. Lund
2:85 Writer
2:25 rates
2:25 bank
2:25 euro
2:250 \\x00\\xFF
"""
STORY_MESSAGE = b"message TST 0007 4 ECO 5 rates\n"
SECOND = SHOWN.replace(b"00000001", b"00000002").splitlines()[1:8]
WORKED = [
    Worked(SCRIPT, SMALLEST[:62], SMALLEST[91:105], SHOWN.splitlines()[1:-1], b"\n"),
    Worked(
        SCRIPT.replace(b"00000001", b"00000002").partition(b"message")[0]
        + STORY_LINES.replace(b"xFF", b"xff")
        + STORY_MESSAGE
        + b"text\n"
        + TEXT,
        STORY[:158],
        STORY[187:237],
        [*SECOND, *STORY_LINES.splitlines(), *STORY_MESSAGE.splitlines(), b"trailer"],
        TEXT,
    ),
]


def escaped(name: str) -> str:
    """Return a file name or an argument as it is printed.

    Each octet of its control characters and backslashes is `\\x` and two digits.
    """
    hidden = {*map(chr, range(0x20)), "\x7f", *map(chr, range(0x80, 0xA0)), "\\"}
    letters = ((letter, "".join(f"\\x{octet:02X}" for octet in letter.encode())) for letter in name)
    return "".join(code if letter in hidden else letter for letter, code in letters)
