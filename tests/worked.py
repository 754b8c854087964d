"""Worked envelopes, which test tests/rules.py and tests/tickets.py instead of the product.

Each group yields pairs: the result of the rules for an envelope, and the correct result, which was
worked out by hand.
"""
from __future__ import annotations

from typing import Iterator, Optional, Sequence, Tuple

import rules
import tickets
from envelopes import SMALLEST, SMALLEST_FIELDS, SMALLEST_HEAD, VARIED, VARIED_FIELDS, VARIED_OBJECT
from envelopes import STORY, STORY_FIELDS, STORY_HEAD, STORY_LINES, STORY_OBJECT
from rules import Field, Limits, dataset_of, object_of, packed, read

# Where the datasets of the worked envelopes begin, and their tags.
TAGS = {
    0: "1C01000002",
    7: "1C01140002",
    14: "1C01160002",
    21: "1C011E0003",
    29: "1C01280008",
    42: "1C01460008",
    55: "1C02000002",
}
SMALLEST_TAGS = {
    **TAGS,
    62: "1C070A0001",
    68: "1C07140004",
    77: "1C075A0004",
    86: "1C080A000E",
    105: "1C090A0004",
}
STORY_TAGS = {
    **TAGS,
    62: "1C0269000A",
    77: "1C02500007",
    89: "1C02550006",
    100: "1C02500007",
    112: "1C02550006",
    123: "1C02190005",
    133: "1C02190004",
    142: "1C02190004",
    151: "1C02FA0002",
    158: "1C070A0001",
    164: "1C07140004",
    173: "1C075A0004",
    182: "1C080A0032",
    237: "1C090A0004",
}
NOW = 1709294400
Rows = Iterator[Tuple[object, object]]


def refused(octet: int, layer: str, name: str, cause: int) -> str:
    """Return a refusal as it is printed."""
    return (
        f"refused at octet {octet} by layer {layer} on {name}, cause {cause} {rules.CAUSES[cause]}"
    )


def put(at: int, end: int, octets: str, whole: bytes = SMALLEST) -> bytes:
    """Return an envelope with the octets from `at` up to `end` replaced."""
    return whole[:at] + bytes.fromhex(octets) + whole[end:]


def of(story: bytes, subfile: int = 1024, fields: Optional[Sequence[Field]] = None) -> bytes:
    """Return the smallest envelope with another object."""
    return packed(SMALLEST_FIELDS if fields is None else fields, story, subfile)


def textual(text: bytes) -> bytes:
    """Return the smallest envelope with another text."""
    return of(b"\x01X1 4 N 0\r\n\x02" + text + b"\3\4")


def answer(octets: bytes, limits: Limits = rules.LIMITS) -> str:
    """Return the result for octets in one chunk."""
    return read(octets, limits).answer()


def released(date: bytes) -> bytes:
    """Return the smallest envelope with a release date."""
    return SMALLEST[:62] + dataset_of(2, 30, date) + SMALLEST[62:]


def judge(octets: Optional[bytes], limits: Limits = rules.LIMITS) -> str:
    """Return the result for a ticket. `None` means that the octets are not a ticket."""
    return tickets.judged(octets or b"", limits)


def dated(*more: Tuple[int, bytes]) -> Sequence[Field]:
    """Return the smallest records 1 and 2, with some datasets of record 2."""
    return [*SMALLEST_FIELDS, *((2, dataset, octets) for dataset, octets in more)]


def whole_envelopes() -> Rows:
    """Yield complete envelopes."""
    for whole, tags in (SMALLEST, SMALLEST_TAGS), (STORY, STORY_TAGS):
        yield {at: whole[at : at + 5].hex().upper() for at in tags}, tags
    envelope = read(SMALLEST)
    yield envelope.answer(), "done 114"
    yield len(envelope.fields), 7
    yield envelope.message.head(), [b"X", b"1", b"4", b"N", b"0", b""]
    yield (envelope.message.lines, envelope.end()), ([b""], None)
    yield (envelope.numbers, envelope.total, envelope.subfiles), ({10: 1, 20: 1024, 90: 14}, 14, 1)
    envelope = read(STORY + b"\0")
    yield envelope.answer(), "done 246"
    yield envelope.fields, STORY_FIELDS
    yield envelope.message.lines, [b"Rates stay.", b"No change."]
    yield answer(SMALLEST + STORY), "done 114"
    envelope = read(VARIED)
    yield (envelope.answer(), envelope.fields), (f"done {len(VARIED)}", VARIED_FIELDS)
    yield envelope.message.head(), [b"Wire", b"0042", b"5", b"Eco9", b"000017", b"a b\x80"]
    yield envelope.message.lines, [b" one\ttwo", b"three", b"", b"four\xff"]
    yield (envelope.numbers, envelope.total), ({95: 256, 10: 0, 20: 9}, len(VARIED_OBJECT))
    for at in range(246):
        yield answer(STORY[:at]), "more"
    for at, name in (0, "0:00"), (64, "2:00"), (200, "8:10"):
        yield read(STORY[:at]).end(), refused(at, "dataset", name, 3)
    yield read(SMALLEST[:100]).end(), refused(100, "dataset", "8:10", 3)


def wrong_tags() -> Rows:
    """Yield envelopes with invalid tags."""
    yield answer(put(21, 26, "1C011E800400000003")), "done 118"
    yield answer(put(3, 5, "8000")), refused(4, "dataset", "1:00", 2)
    yield answer(put(3, 5, "8009")), refused(4, "dataset", "1:00", 2)
    yield answer(put(3, 5, "8101")), refused(3, "dataset", "1:00", 2)
    yield answer(put(3, 5, "8005")), refused(9, "record", "1:00", 13)
    yield answer(put(0, 1, "1D")), refused(0, "dataset", "0:00", 1)
    yield answer(put(89, 91, "8008000000000000000E")), "done 122"
    yield answer(put(89, 91, "80087FFFFFFFFFFFFFFF")), refused(98, "object", "8:10", 22)
    yield answer(put(89, 91, "80088000000000000000")), refused(98, "record", "8:10", 13)


def wrong_records() -> Rows:
    """Yield envelopes with invalid records 1 and 2."""
    headline = STORY[62:77]
    yield answer(STORY[:77] + headline + STORY[77:]), refused(81, "record", "2:105", 12)
    yield answer(put(24, 26, "000B")), refused(25, "record", "1:30", 13)
    yield answer(SMALLEST[:42] + SMALLEST[55:]), refused(46, "record", "1:70", 14)
    yield answer(SMALLEST[:21] + SMALLEST[29:42] + SMALLEST[55:]), refused(38, "record", "1:30", 14)
    yield answer(put(12, 14, "0001")), refused(13, "record", "1:20", 16)
    yield answer(put(56, 57, "03")), refused(59, "record", "3:00", 10)
    yield answer(put(64, 65, "1E")), refused(66, "record", "7:30", 11)
    yield answer(SMALLEST[:47] + b"20240229" + SMALLEST[55:]), "done 114"
    yield answer(SMALLEST[:47] + b"20230229" + SMALLEST[55:]), refused(54, "record", "1:70", 15)
    yield answer(released(b"20230229")), refused(74, "record", "2:30", 15)
    yield answer(released(b"2023022")), refused(66, "record", "2:30", 13)
    yield answer(SMALLEST[:62] + dataset_of(2, 30, b"20240301") * 2 + SMALLEST[62:]), refused(
        79, "record", "2:30", 12
    )
    short = put(82, 86, "0000000F")
    yield answer(short[:108] + b"\0\0" + short[110:]), refused(109, "record", "9:10", 13)


def wrong_sizes() -> Rows:
    """Yield envelopes with invalid sizes."""
    size, most, announced = SMALLEST[68:77], SMALLEST[62:68], SMALLEST[77:86]
    yield answer(put(67, 68, "00")), refused(85, "object", "7:90", 20)
    yield answer(SMALLEST[:62] + announced + size + most[:5] + b"\0" + SMALLEST[86:]), refused(
        85, "object", "7:10", 20
    )
    yield answer(SMALLEST[:77] + SMALLEST[86:]), refused(81, "object", "8:10", 20)
    yield answer(put(86, 86, "1C075F00040000000D")), refused(94, "object", "7:95", 21)
    yield answer(put(86, 86, "1C075F0008" + "FF" * 8)), refused(98, "record", "7:95", 15)
    yield answer(put(86, 86, "1C075F00087F" + "FF" * 7)), "done 127"
    yield answer(put(77, 86, "1C075A0008000000000000000E")), "done 118"
    yield answer(put(73, 77, "0000000D")), refused(90, "object", "8:10", 22)
    yield answer(put(73, 77, "00000000")), refused(76, "record", "7:20", 15)
    front = SMALLEST[:82] + bytes.fromhex("00000064 1C080A003C") + SMALLEST[91:103] + b"a" * 48
    yield answer(front + bytes.fromhex("1C080A0029")), refused(155, "object", "8:10", 23)
    back = bytes.fromhex("1C080A0027") + b"a" * 37 + b"\3\4" + bytes.fromhex("1C090A0004")
    yield answer(front + back), refused(199, "object", "9:10", 24)
    envelope = read(STORY[:242] + bytes.fromhex("00000031"))
    yield (envelope.answer(), envelope.message.lines), (
        refused(245, "object", "9:10", 25),
        STORY_LINES,
    )
    shorter = put(89, 91, "000D")
    yield answer(shorter[:104] + shorter[105:]), refused(108, "object", "9:10", 24)


def wrong_messages() -> Rows:
    """Yield envelopes with invalid messages."""
    text = bytes.fromhex("610A 620D0A 630D0D0A 64")
    envelope = read(textual(text))
    yield (envelope.answer(), envelope.message.lines), ("done 124", [b"a", b"b", b"c", b"d"])
    for prefix, octet, cause in (
        ("610D0D0D", 106, 40),
        ("6102", 104, 41),
        ("610D03", 105, 40),
        ("610D01", 105, 40),
    ):
        begun = bytes.fromhex(prefix)
        envelope = read(textual(begun + text[len(begun) :]))
        yield (envelope.answer(), envelope.message.lines), (
            refused(octet, "story", "8:10", cause),
            [b"a"],
        )
    begin, end = b"\x01X1 4 N 0", b"\2\3\4"
    yield answer(of(begin + b"\r" * 31 + b"\n" + end)), "done 144"
    yield answer(of(begin + b"\r" * 32 + end)), refused(131, "message", "8:10", 30)
    yield answer(of(begin + b"\r\n\2\3")), refused(108, "message", "9:10", 32)
    yield answer(of(begin + b"\r\n" + end + b"\n" * 32)), "done 146"
    yield answer(of(begin + b"\r\n" + end + b"\n" * 33)), refused(137, "message", "8:10", 30)


def limits() -> Rows:
    """Yield envelopes that are read with limits."""
    yield answer(STORY, (78, 16)), "done 246"
    yield answer(STORY, (77, 16)), refused(155, "limits", "2:250", 50)
    yield answer(STORY, (78, 15)), refused(155, "limits", "2:250", 51)
    yield answer(STORY, (77, 15)), refused(155, "limits", "2:250", 50)
    yield read(STORY, (77, 15)).end(), refused(155, "outside", "0:00", 61)


def values() -> Rows:
    """Yield values, dates and numbers."""
    for record, dataset, octets, is_admitted in (
        (2, 55, b"20240000", True),
        (2, 55, b"20240012", True),
        (2, 55, b"20240300", True),
        (2, 55, b"20241300", False),
        (1, 80, b"235959+0000", True),
        (1, 80, b"240000+0000", False),
        (1, 80, b"000060+0000", False),
        (1, 80, b"120000+0060", False),
    ):
        yield (octets, rules.admits(rules.ROWS[record, dataset], octets)), (octets, is_admitted)
    yield rules.instant_text(rules.instant_of(b"20240301", b"120000+0100")), "2024-03-01T11:00:00Z"
    yield rules.instant_of(b"20240301", b"120000+0000"), NOW
    yield rules.instant_of(b"99991231", b"235959-2359"), None
    yield rules.number_of(b""), None
    yield rules.number_of(bytes(9)), None
    yield rules.number_of(b"\0\0\4\0"), 1024
    yield rules.number_of(b"\1\0\0\0\0"), 4294967296


def saved() -> Rows:
    """Yield tickets."""
    new, earlier = b"IIMT\2" + bytes(33), b"IIMT\1" + bytes(29)
    empty = rules.Envelope()
    yield (tickets.ticket(empty), tickets.ticket(empty, 1), tickets.widened(earlier)), (
        new,
        earlier,
        new,
    )
    yield [judge(each, (0, 0)) for each in (new, earlier)], ["restored"] * 2
    yield judge(b"\0" + new[1:]), "100 TicketForm"
    yield judge(new[:4] + b"\x09" + new[5:]), "101 TicketVersion"
    yield judge(new + b"\0"), "100 TicketForm"
    yield judge(new[:23] + b"\1" + new[24:]), "102 Impossible"
    half = tickets.ticket(read(SMALLEST[:86])) or b""

    def heads(count: int) -> bytes:
        return half[:5] + b"\x08" + half[6:-14] + count.to_bytes(4, "big") + half[-10:]

    yield [judge(each) for each in (half, heads(2**32 - 1), heads(0))], [
        "restored",
        "restored",
        "102 Impossible",
    ]
    yield judge(heads(2**32 - 1), (0, 0)), "50 HeaderFull"
    yield judge(heads(2**32 - 1), (65536, 6)), "51 TooManyFields"
    envelope = read(SMALLEST[:86])
    envelope.section, envelope.subfiles = 8, 2**32 - 1
    yield envelope.read(SMALLEST[:86] + bytes.fromhex("1C080A0000")).answer(), refused(
        90, "limits", "8:10", 52
    )
    tag = read(SMALLEST[:86] + bytes.fromhex("1C080A8005"))
    yield (judge(tickets.ticket(tag)), tickets.ticket(tag, 1)), ("restored", None)
    early = tickets.spelled(tickets.place(tag), 1)
    yield (judge(early), judge(early.replace(b"\x80\5", b"\x80\4"))), ("102 Impossible", "restored")
    release = read(SMALLEST[:62] + dataset_of(2, 30, b"20240229"))
    release.fields[-1] = 2, 30, b"20230229"
    yield judge(tickets.ticket(release)), "102 Impossible"


def packing() -> Rows:
    """Yield packed envelopes."""
    yield object_of(
        STORY_HEAD, STORY_LINES, b""
    ), b"\x01TST0007 4 ECO 5 rates\r\n\x02Rates stay.\r\nNo change.\x03\x04"
    yield len(STORY_OBJECT), 50
    for subfile, size, count in (1, 491, 50), (7, 281, 8):
        octets = packed(STORY_FIELDS, STORY_OBJECT, subfile)
        envelope = read(octets)
        yield (len(octets), envelope.answer(), envelope.subfiles), (size, f"done {size}", count)
        yield (envelope.fields, envelope.message.head(), envelope.message.lines), (
            STORY_FIELDS,
            STORY_HEAD,
            STORY_LINES,
        )
    long = object_of(SMALLEST_HEAD, [b"a" * 32754], b"")
    one, two = of(long, 32768), of(long, 32767)
    yield (len(long), len(one), one[86:95].hex().upper()), (32768, 32872, "1C080A800400008000")
    yield (len(two), two[86:91].hex().upper(), two[91 + 32767 :][:5].hex().upper()), (
        32873,
        "1C080A7FFF",
        "1C080A0001",
    )
    octets = packed(SMALLEST_FIELDS, object_of(SMALLEST_HEAD, [b""], b""), 1024, False, 4294967296)
    yield (len(octets), octets[77:90].hex().upper()), (118, "1C075F0008" + "0000000100000000")
    yield octets[66:68].hex(), "0100"


def audits() -> Rows:
    """Yield reports of audits."""
    yield [rules.words_of(lines) for lines in ([b""], STORY_LINES, [b" a\tb ", b"c"])], [0, 4, 3]
    first = (
        SMALLEST[:42]
        + dataset_of(1, 60, b"5")
        + SMALLEST[42:55]
        + dataset_of(1, 80, b"120000+0100")
        + SMALLEST[55:]
    )
    yield rules.report([read(first), read(STORY), read(SMALLEST)], NOW), [
        "1 TST 00000001 20240301 priority 5 size 14 subfiles 1 words 0/0 age 3600 repeats -"
        " copy free",
        "2 TST 00000002 20240301 priority - size 50 subfiles 1 words 5/4 age - repeats - copy free",
        "3 TST 00000001 20240301 priority - size 14 subfiles 1 words 0/0 age - repeats 1 copy free",
        "3 envelopes, 1 repeated, 0 held",
    ]
    yield rules.report([], NOW), ["0 envelopes, 0 repeated, 0 held"]
    release, expiry = (30, b"20240301"), (37, b"20240301")
    for fields, now, copy in (
        (dated(release, (35, b"120000-0100")), NOW, "held"),
        (dated(release, (35, b"120000-0100")), NOW + 3600, "free"),
        (dated(expiry, (38, b"115959+0000")), NOW, "expired"),
        (dated(expiry), NOW, "free"),
        (dated(release), NOW, "free"),
        (dated(), NOW, "free"),
    ):
        yield rules.copy_of(fields, now), copy
    held = of(object_of(SMALLEST_HEAD, [b""], b""), 1024, dated(release, (35, b"120000-0100")))
    yield (len(held), rules.report([read(held)], NOW)), (
        143,
        [
            "1 TST 00000001 20240301 priority - size 14 subfiles 1 words 0/0 age - repeats -"
            " copy held",
            "1 envelopes, 0 repeated, 1 held",
        ],
    )


GROUPS = [
    whole_envelopes,
    wrong_tags,
    wrong_records,
    wrong_sizes,
    wrong_messages,
    limits,
    values,
    saved,
    packing,
    audits,
]
