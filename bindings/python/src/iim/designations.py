"""The encodings that 1:90 Coded Character Set declares, by escape sequences of ISO 2022 (ECMA-35).

The final bytes are those of the register ISO-IR (the International Register of Coded Character
Sets).
"""
from __future__ import annotations

import re
from typing import Dict, Optional, Tuple

# The sets of 96 characters, by the final byte of ESC - (and of ESC . and ESC /): each with the
# name of its part of ISO 8859, and its number in the register.
OF_96: Dict[int, Tuple[str, int]] = {
    0x41: ("iso8859-1", 100),
    0x42: ("iso8859-2", 101),
    0x43: ("iso8859-3", 109),
    0x44: ("iso8859-4", 110),
    0x46: ("iso8859-7", 126),
    0x47: ("iso8859-6", 127),
    0x48: ("iso8859-8", 138),
    0x4C: ("iso8859-5", 144),
    0x4D: ("iso8859-9", 148),
    0x54: ("iso8859-11", 166),
    0x56: ("iso8859-10", 157),
    0x59: ("iso8859-13", 179),
    0x5F: ("iso8859-14", 199),
    0x62: ("iso8859-15", 203),
    0x66: ("iso8859-16", 226),
}
# The sets of 94 x 94 characters, by the final byte of ESC $ ): each with the encoding that has the
# set in its right half, and its number in the register.
OF_94_BY_94: Dict[int, Tuple[str, int]] = {
    0x41: ("gb2312", 58),
    0x42: ("euc_jp", 87),
    0x43: ("euc_kr", 149),
}
# The other coding systems, by the bytes after ESC %: each with its number in the register.
OTHERS: Dict[bytes, Tuple[str, int]] = {
    b"G": ("utf-8", 196),
    b"/G": ("utf-8", 190),
    b"/H": ("utf-8", 191),
    b"/I": ("utf-8", 192),
}
# The sets of the left half, which have ASCII, by the final byte of ESC (.
ASCII_SETS: Dict[int, int] = {0x42: 6}

# An escape sequence of ISO 2022: intermediate bytes, and a final byte.
SEQUENCE = re.compile(rb"\x1b([\x20-\x2f]*)([\x30-\x7e])")


def encoding_of(designations: bytes) -> Optional[str]:
    """Return the encoding that the value of 1:90 declares, or `None` if it is not in the table."""
    found: Optional[str] = None
    rest = designations
    while rest:
        match = SEQUENCE.match(rest)
        if match is None:
            return None
        between, last = match[1], match[2][0]
        if between[:1] == b"%":
            found = OTHERS.get(between[1:] + match[2], (None, 0))[0]
        elif between in (b"-", b".", b"/"):
            found = OF_96.get(last, (None, 0))[0]
        elif between in (b"$)", b"$*", b"$+"):
            found = OF_94_BY_94.get(last, (None, 0))[0]
        elif between == b"(" and last in ASCII_SETS:
            found = found or "ascii"
        else:
            return None
        if found is None:
            return None
        rest = rest[match.end() :]
    return found
