"""The likely reason of each cause and what to do, generated from docs/reference/causes.md.

The meaning of a cause comes from the library, by `iim.cause_text`.
"""
from __future__ import annotations

from typing import Dict, NamedTuple

import iim


class Cause(NamedTuple):
    """The explanation of a cause.

    Attributes:
        reason: The likely reason.
        advice: What to do.
    """

    reason: str
    advice: str


# fmt: off
CAUSES: Dict[int, Cause] = {
    1: Cause(
        "the dataset before it is longer or shorter than its count says, or a text-mode transfer "
        "or a conversion to UTF-8 changed its bytes; at octet 0 of a later envelope, extra bytes "
        "follow the envelope before it, such as a line end or NULs; at octet 0 of the first "
        "envelope, the file is not IIM",
        "check the count of the dataset before it; transfer the file again in binary mode, "
        "without extra bytes at its end",
    ),
    2: Cause(
        "a count of more than eight octets, or a damaged tag; a conversion to UTF-8, which makes "
        "two bytes of each byte from 80 on",
        "ask the sender for standard counts; transfer the file again in binary mode",
    ),
    3: Cause(
        "the transfer was interrupted, or the file is still being written; if 1:02 is named, a "
        "transfer that drops NULs (00)",
        "transfer the file again in binary mode, or wait until it is complete",
    ),
    10: Cause(
        "a record is missing or occurs twice; records 3 to 6, which are not supported; an "
        "envelope without an object",
        "check which records the sender writes, and in which order",
    ),
    11: Cause(
        "the sender's own dataset in one of these records; if 7:13 is named, a text-mode "
        "transfer, which makes CR LF of the LF in the tag of 7:10",
        "move the dataset to record 2; transfer the file again in binary mode",
    ),
    12: Cause(
        "two headlines or two release dates: an editing system adds a dataset where it should "
        "replace one",
        "find out which of the two is meant",
    ),
    13: Cause(
        "a text that is too long for its field, such as a headline of more than 256 bytes; a date "
        "without a century, a time without an offset; damage in an extended count, which may have "
        "eight octets; in one of the first datasets of record 1, a transfer that drops NULs (00), "
        "makes spaces of them, or makes CR LF of an LF",
        "shorten the value, or complete it; transfer the file again in binary mode",
    ),
    14: Cause(
        "the sender omits what it doesn't know, often the date sent, 1:70",
        "set the dataset that is named",
    ),
    15: Cause(
        "letters in a number; a date that does not exist, such as 20230229 in 2:30 Release Date; "
        "a time with hour 24 or without a sign before its offset; a control character in a text; "
        "a size of eight octets above 9,223,372,036,854,775,807; 7:20 set to 0; in a text that "
        "begins with LF, a text-mode transfer, which makes 0D 0A of a count of ten octets (0A)",
        'look up the dataset\'s kind in `format.md`, under "Kinds"; transfer the file again in '
        "binary mode",
    ),
    16: Cause(
        "the object is not an IPTC 7901 message, but a picture or another format",
        "use a reader for that format; the object is not a wire story",
    ),
    20: Cause(
        "the sender sets one and not the other",
        "set 7:10 to 1 and 7:90 to the size, or set 7:10 to 0 and omit 7:90",
    ),
    21: Cause(
        "7:95 was copied from another envelope",
        "raise 7:95 or omit it",
    ),
    22: Cause(
        "7:20 specifies another size than the one at which the sender splits the object",
        "set 7:20 to the size of the longest subfile",
    ),
    23: Cause(
        "the story was lengthened after its size was announced",
        "announce the size of what is sent",
    ),
    24: Cause(
        "a subfile is missing, or line ends were shortened in transfer",
        "count the bytes received, and transfer the file again",
    ),
    25: Cause(
        "a subfile is missing, line ends were shortened in transfer, or the sender counts "
        "something else",
        "count the bytes received, and transfer the file again",
    ),
    30: Cause(
        "the header has a part too many or too long, more than one space between parts, or no "
        "line end before STX; the object is not an IPTC 7901 message; at the end of a story, a "
        "text-mode transfer, which makes LF of CR LF",
        "compare with the parts of a message in `format.md`; transfer the file again in binary "
        "mode",
    ),
    32: Cause(
        "the story was truncated: no EOT (04) at its end",
        "check whether the last subfile is there",
    ),
    40: Cause(
        "line ends of CR alone, or LF dropped in transfer",
        "end lines with CR LF",
    ),
    41: Cause(
        "a second message inside the text, or damage",
        "look for a message header inside the story",
    ),
    50: Cause(
        "a very long text in record 2, or a damaged count",
        "check the size of record 2: `iimwire` accepts 65,536 octets; the libraries accept more, "
        "if you set the limit",
    ),
    51: Cause(
        "very many keywords",
        "check the number of datasets: `iimwire` accepts 512; the libraries accept more, if you "
        "set the limit",
    ),
    52: Cause(
        "an endless sequence of empty subfiles",
        "ask the sender: no valid story needs this",
    ),
}
# fmt: on


def sentence(cause: int) -> str:
    """Return the meaning of a cause as a sentence."""
    means = iim.cause_text(cause) or ""
    return f"{means[:1].upper()}{means[1:]}."
