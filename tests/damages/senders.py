"""Envelopes as senders get them wrong: records, values, sizes and messages."""
from __future__ import annotations

from typing import Callable, List, Tuple

import rules
from damages.damage import ACCEPTED, Damage, Made
from newsroom import FRENCH, NORWEGIAN, RUSSIAN, SUBFILE, Copy, placed


def packed_of(
    copy: Copy, order: Callable[[List[Tuple[Tuple[int, int], bytes]]], List[bytes]]
) -> bytes:
    """Return an envelope of the datasets of a copy, as a function arranges them."""
    octets = copy.octets
    parts = [(key, octets[at:end]) for key, (at, _, end) in placed(octets)]
    return b"".join(order(parts))


def records() -> Made:
    """Yield envelopes whose records or datasets are missing, repeated or in another order."""
    for called, copy in ("norwegian", NORWEGIAN), ("russian", RUSSIAN):
        of = copy.octets
        begin = of.index(b"\x1c\2\0")
        yield Damage(
            f"{called}: record 1 lost",
            of[begin:],
            ["record 1 is lost. With a record 1 inserted there, everything after it is accepted."],
        )
        yield Damage(
            f"{called}: records 1 and 2 exchanged",
            packed_of(
                copy,
                lambda parts: [
                    *(data for key, data in parts if key[0] == 2),
                    *(data for key, data in parts if key[0] == 1),
                    *(data for key, data in parts if key[0] > 2),
                ],
            ),
            [f"With the datasets in the order of their records: {ACCEPTED}."],
        )
    for record in 2, 7, 9:
        made = packed_of(FRENCH, lambda parts: [data for key, data in parts if key[0] != record])
        more = RUSSIAN.octets if record == 9 else b""
        yield Damage(
            f"french: record {record} lost",
            made + more,
            [
                f"With a record {record} put in: {ACCEPTED}",
                f"Likely reason: record {record} is missing.",
            ],
        )
    copy = FRENCH
    at, data, end = copy.place(2, 105)
    octets = copy.octets
    yield Damage(
        "french: headline twice",
        octets[:end] + octets[at:end] + octets[end:],
        [
            "Likely reason: 2:105 Headline is there twice, with the same value.",
            f"Without this dataset 2:105 Headline: {ACCEPTED}.",
        ],
    )
    other = rules.dataset_of(2, 105, b"Another headline")
    yield Damage(
        "french: two headlines",
        octets[:end] + other + octets[end:],
        [
            "Likely reason: 2:105 Headline is there twice, with two values.",
            "find out which of the two",
        ],
    )
    yield Damage(
        "french: no date sent",
        copy.without_field(1, 70).octets,
        [
            "Likely reason: the sender omits 1:70 Date Sent.",
            "With 1:70 Date Sent inserted before it",
        ],
    )
    added = rules.dataset_of(3, 10, b"x")
    begin = octets.index(b"\x1c\7")
    yield Damage(
        "french: a dataset of record 3",
        octets[:begin] + added + octets[begin:],
        [f"Without 3:10: {ACCEPTED}.", "record 3"],
    )


def values() -> Made:
    """Yield envelopes with invalid values, as senders write them."""
    for name, copy, key, value, sentences in [
        (
            "date with hyphens",
            NORWEGIAN,
            (2, 30),
            b"2024-10-07",
            ["With 2:30 Release Date as 20241007, without '-'"],
        ),
        (
            "date day first",
            NORWEGIAN,
            (2, 30),
            b"07102024",
            ["2:30 Release Date as 20241007, if it is day, month, year"],
        ),
        (
            "date month first",
            FRENCH,
            (2, 37),
            b"10072024",
            ["2:37 Expiration Date as 20241007, if it is month, day, year"],
        ),
        ("date with points", RUSSIAN, (2, 55), b"07.10.2024", ["2:55 Date Created as 20241007"]),
        (
            "date without century",
            FRENCH,
            (2, 30),
            b"241007",
            ["2:30 Release Date as 20241007, with its century"],
        ),
        (
            "no such day",
            FRENCH,
            (2, 30),
            b"20240230",
            ["It must be a date CCYYMMDD.", "Likely reason: a date that does not exist"],
        ),
        (
            "local time",
            NORWEGIAN,
            (2, 35),
            b"101500",
            [
                "2:35 Release Time as '101500+0000', if it is universal time",
                "the time has no offset from universal time",
            ],
        ),
        (
            "time with colons",
            FRENCH,
            (2, 35),
            b"10:00:00+02:00",
            ["2:35 Release Time as '100000+0200'"],
        ),
        (
            "time with Z",
            FRENCH,
            (2, 35),
            b"080000Z",
            ["2:35 Release Time as '080000+0000', with +0000"],
        ),
        (
            "headline too long",
            NORWEGIAN,
            (2, 105),
            "Ø".encode("latin-1") * 280,
            ["Its count is 280; the valid sizes are 0 to 256.", "without its last 24 octets"],
        ),
        (
            "TAB in the headline",
            NORWEGIAN,
            (2, 105),
            b"Budsjett\there",
            ["control characters were pasted into the text", "with a space in place of each"],
        ),
        (
            "LF in the headline",
            FRENCH,
            (2, 105),
            b"Budget\nvote",
            ["the text has line ends, which its dataset does not accept"],
        ),
        (
            "category with a slash",
            NORWEGIAN,
            (2, 15),
            b"P/F",
            ["the code has other octets than letters"],
        ),
        (
            "urgency in words",
            RUSSIAN,
            (2, 10),
            b"U",
            ["Likely reason: other octets than digits in a number."],
        ),
        (
            "short number",
            FRENCH,
            (1, 40),
            b"815",
            ["1:40 Envelope Number as 00000815, with zeros in front"],
        ),
        ("picture format", RUSSIAN, (1, 20), b"\0\x0b", ["1:20 is 11, JPEG (JFIF)"]),
    ]:
        made = copy.with_field(*key, value).octets
        yield Damage(name, made, sentences)
    yield from counts()


def counts() -> Made:
    """Yield envelopes whose counts and sizes are wrong."""
    copy = FRENCH
    at, data, end = copy.place(2, 105)
    octets = copy.octets
    value = octets[data:end]
    characters = len(value.decode("utf-8"))
    wrong = octets[: at + 3] + characters.to_bytes(2, "big") + octets[data:]
    more = len(value) - characters
    yield Damage(
        "french: the headline counted in characters",
        wrong,
        [
            f"2:105 Headline at {at:,} is {more} octets longer than it counts ({characters}), and"
            f" has {characters} characters in {len(value)} octets:",
            "Likely reason: the sender counts the characters of UTF-8 text, not its octets.",
        ],
    )
    total = len(copy.message)
    confirmed = octets[:-4] + (total - 30).to_bytes(4, "big")
    yield Damage(
        "french: 9:10 is wrong",
        confirmed,
        [
            f"9:10 confirms {total - 30:,}.",
            f"With 9:10 Confirmed ObjectData Size as {total:,}: {ACCEPTED}.",
        ],
    )
    at, data, end = copy.place(7, 90)
    short = octets[:data] + (total + 10).to_bytes(4, "big") + octets[end:]
    yield Damage(
        "french: 7:90 is too great",
        short,
        [
            "10 octets fewer than 7:90 announces",
            f"With 7:90 ObjectData Size Announced as {total:,}: {ACCEPTED}.",
        ],
    )
    at, data, end = copy.place(7, 20)
    small = octets[:data] + (512).to_bytes(4, "big") + octets[end:]
    yield Damage(
        "french: 7:20 is too small",
        small,
        [
            f"With 7:20 Max Subfile Size as 1,024: {ACCEPTED}.",
            "a subfile has 1,024 octets, and 7:20 allows 512",
        ],
    )


def messages() -> Made:
    """Yield envelopes whose message is wrong."""
    copy = NORWEGIAN
    lines = copy.lines
    for name, head, sentence in [
        ("words missing", [*copy.head[:4], b"", b""], "the words: digits, at most 6"),
        (
            "priority of two digits",
            [*copy.head[:2], b"44", *copy.head[3:]],
            "SP after the priority",
        ),
        ("source too long", [b"NTBNYHETER", *copy.head[1:]], "the source: letters, at most 8"),
    ]:
        made = copy._replace(head=head).octets
        yield Damage(f"norwegian: {name}", made, [f"this part of the message is {sentence}"])
    pasted = copy._replace(lines=[*lines[:3], b"a\2b", *lines[3:]]).octets
    yield Damage("norwegian: STX pasted into the text", pasted, ["Without octet", ACCEPTED])
    story = rules.object_of(copy.head, lines, b"").replace(b"\r\n", b"\r")
    story = story.replace(b"\r\2", b"\r\n\2", 1)
    made = rules.packed(copy.fields, story, SUBFILE)
    yield Damage(
        "norwegian: lines end with CR",
        made,
        [
            "Likely reason: lines end with CR alone.",
            "With each CR of the object that is alone made LF",
        ],
    )
    unfinished = rules.packed(copy.fields, copy.message[:-2], SUBFILE)
    yield Damage(
        "norwegian: no ETX and EOT",
        unfinished,
        [
            "With ETX (03) and EOT (04) put in at the end of the object, and the sizes as they are"
            " then",
        ],
    )
    html = rules.packed(copy.fields, b"<html><body>Nyheter</body></html>", SUBFILE)
    yield Damage(
        "norwegian: HTML as the object",
        html,
        ["Likely reason: the object is an HTML page, not an IPTC 7901 message."],
    )
