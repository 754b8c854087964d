"""Envelopes for tests: two fixed ones, and random ones, valid or invalid in one place."""

from __future__ import annotations

from random import Random
from typing import Collection, List, Sequence

import rules
from rules import (
    DIGITS,
    FILLER,
    GREATEST,
    LETTERS,
    ROWS,
    SPACED,
    TRAILER,
    Field,
    Row,
    dataset_of,
)

# The mandatory datasets alone, and a story of one empty line.
SMALLEST_FIELDS = [
    (1, 0, b"\0\4"),
    (1, 20, b"\0\2"),
    (1, 22, b"\0\1"),
    (1, 30, b"TST"),
    (1, 40, b"00000001"),
    (1, 70, b"20240301"),
    (2, 0, b"\0\4"),
]
SMALLEST_HEAD = [b"X", b"1", b"4", b"N", b"0", b""]
SMALLEST = rules.packed(SMALLEST_FIELDS, rules.object_of(SMALLEST_HEAD, [b""], b""), 1024)
# By-lines, keywords, and a story of two lines.
STORY_FIELDS = [
    *SMALLEST_FIELDS[:4],
    (1, 40, b"00000002"),
    *SMALLEST_FIELDS[5:],
    (2, 105, b"Rates held"),
    (2, 80, b"A. Moor"),
    (2, 85, b"Editor"),
    (2, 80, b"B. Lund"),
    (2, 85, b"Writer"),
    (2, 25, b"rates"),
    (2, 25, b"bank"),
    (2, 25, b"euro"),
    (2, 250, b"\x00\xff"),
]
STORY_HEAD = [b"TST", b"0007", b"4", b"ECO", b"5", b"rates"]
STORY_LINES = [b"Rates stay.", b"No change."]
STORY_OBJECT = rules.object_of(STORY_HEAD, STORY_LINES, b"")
STORY = rules.packed(STORY_FIELDS, STORY_OBJECT, 1024)


def counted(each: Field, size: int) -> bytes:
    """Return a dataset whose count has this number of octets, or is in the tag if that is 0."""
    record, dataset, data = each
    if size == 0:
        return dataset_of(record, dataset, data)
    return bytes([0x1C, record, dataset, 0x80, size]) + len(data).to_bytes(size, "big") + data


def as_asked(record: int, number: int, octets: bytes) -> Field:
    """Return a dataset with these octets, or with the only value that is valid for it."""
    return record, number, rules.ASKED.get((record, number), (octets, 0))[0]


# Values of each kind, counts of each form, sizes that are not announced, subfiles of any size, and
# a message with all of its parts.
VARIED_OBJECT = b"\0\r\n\x16\1Wire0042 5 Eco9 000017 a b\x80\r\0\n\x16"
VARIED_OBJECT += b"\2 one\ttwo\nthree\r\n\r\r\nfour\xff\3end\r\n\4\n\0"
VARIED_FIELDS = [
    as_asked(*field)
    for field in [
        (1, 40, b"00000003"),
        (1, 5, b"AB"),
        (1, 5, b""),
        (1, 60, b"5"),
        (1, 20, b"\0\2"),
        (1, 22, b"\xff\xff"),
        (1, 30, b""),
        (1, 70, b"20240229"),
        (1, 80, b"235959-2359"),
        (1, 100, b"UNIQUE NAME 14"),
        (1, 200, b"\x1c\1\0"),
        (1, 0, b"\0\4"),
        (2, 30, b"20231231"),
        (2, 35, b"000000+0000"),
        (2, 0, b"\0\4"),
        (2, 55, b"20240012"),
        (2, 15, b"Eco"),
        (2, 22, b"\x80x"),
        (2, 40, b" a\r\nb"),
        (2, 80, b"A B"),
        (2, 80, b""),
        (2, 3, b""),
    ]
]
VARIED_SIZES = [(7, 95, b"\0\0\0\1\0"), (7, 10, b"\0"), (7, 20, b"\x09")]
VARIED_PARTS = [
    VARIED_OBJECT[:9],
    b"",
    VARIED_OBJECT[9:10],
    *(VARIED_OBJECT[at : at + 8] for at in range(10, len(VARIED_OBJECT), 8)),
    b"",
]
VARIED_DATASETS = [
    *VARIED_FIELDS,
    *VARIED_SIZES,
    *((8, 10, part) for part in VARIED_PARTS),
    (9, 10, bytes([0, len(VARIED_OBJECT)])),
]
VARIED = b"".join(
    counted(each, (0, 1, 0, 2, 0, 8)[at % 6]) for at, each in enumerate(VARIED_DATASETS)
)

LINE = bytes(octet for octet in range(256) if octet not in b"\1\2\3\4\n\r")
SETS = {
    "Graphic": rules.GRAPHIC,
    "Spaced": SPACED,
    "SpacedLines": rules.SPACED_LINES,
    "Letters": LETTERS,
    "Digits": DIGITS,
}


def some(random: Random, octets: Collection[int], least: int, most: int) -> bytes:
    """Return a random number of octets: often the least, and sometimes the greatest."""
    few = min(most, least + 12)
    many = most if most <= 64 or random.random() < 0.05 else few
    size = random.choice([least, random.randint(least, few), random.randint(least, few), many])
    return bytes(random.choices(sorted(octets), k=size))


def date(random: Random) -> bytes:
    """Return a date."""
    year = random.choice(
        [1, 4, 100, 400, 1900, 1999, 2000, 2023, 2024, 9999, random.randint(1, 9999)]
    )
    month = random.choice([1, 2, 2, 12, random.randint(1, 12)])
    day = random.choice([1, 28, 29, 30, 31])
    return b"%04d%02d%02d" % (year, month, day if rules.is_day(year, month, day) else 28)


def part_date(random: Random) -> bytes:
    """Return a date whose month, day, or both may be unknown."""
    whole = date(random)
    return random.choice(
        [whole, whole[:6] + b"00", whole[:4] + b"0000", whole[:4] + b"0001", whole[:4] + b"0031"]
    )


def time(random: Random) -> bytes:
    """Return a time with its offset."""

    def any_of(most: int) -> int:
        return random.choice([0, most, random.randint(0, most)])

    return b"%02d%02d%02d%c%02d%02d" % (
        any_of(23),
        any_of(59),
        any_of(59),
        random.choice(b"+-"),
        any_of(23),
        any_of(59),
    )


def value(random: Random, row: Row) -> bytes:
    """Return octets that a row of records 1 and 2 accepts."""
    if row.kind in SETS:
        return some(random, SETS[row.kind], row.least, row.most)
    if row.kind in ("Date", "PartDate", "Time"):
        return {"Date": date, "PartDate": part_date, "Time": time}[row.kind](random)
    return some(random, range(256), row.least, row.most)


def wrong_value(random: Random, record: int, dataset: int) -> bytes:
    """Return octets that are probably invalid: too few, too many, or with one octet changed."""
    row = rules.row_of(record, dataset) or rules.OTHER
    octets = value(random, row._replace(most=min(row.most, 2000)))
    how = random.randrange(4)
    if how == 0:
        return octets + b"0" * (min(row.most, 9000) + 1 - len(octets))
    if how == 1:
        return octets[: max(row.least - 1, 0)]
    at = random.randrange(len(octets)) if octets else 0
    octet = random.choice([*b"\0\t\n\r /:@[`{\x7f\x80\xff", random.randrange(256)])
    return octets[:at] + bytes([octet]) + octets[at + 1 :]


def digits_of(random: Random, number: int) -> bytes:
    """Encode a number in 1 to 8 octets: the fewest that hold it, or more."""
    least = max(1, (number.bit_length() + 7) // 8)
    return number.to_bytes(random.choice([least, random.randint(least, 8), max(least, 4)]), "big")


def fields(random: Random, record: int, others: int) -> List[Field]:
    """Return the datasets of record 1 or 2 in any order: all mandatory ones and some others."""
    known = [key[1] for key in ROWS if key[0] == record]
    numbers = list(rules.MANDATORY[record])
    for each in random.sample(known, random.randint(0, 4)):
        if ROWS[record, each].repeats or each not in numbers:
            numbers += [each] * (random.randint(1, 3) if ROWS[record, each].repeats else 1)
    numbers += random.choices([each for each in range(256) if each not in known], k=others)
    random.shuffle(numbers)
    return [
        as_asked(record, each, value(random, rules.row_of(record, each) or rules.OTHER))
        for each in numbers
    ]


def line_end(random: Random) -> bytes:
    """Return a line end."""
    return random.choice([b"\n", b"\r\n", b"\r\n", b"\r\r\n"])


def head(random: Random) -> List[bytes]:
    """Return the parts of a message's header. The info is often empty."""
    texts = (LETTERS, 8), (DIGITS, 8), (DIGITS, 1), (LETTERS | DIGITS, 8), (DIGITS, 6)
    return [
        *(some(random, kind, 1, most) for kind, most in texts),
        random.choice([b"", some(random, SPACED, 0, 64)]),
    ]


def text(random: Random) -> bytes:
    """Return lines with their line ends."""
    lines = [
        some(random, random.choice([LINE, b"ab \t"]), 0, 30)
        for _ in range(random.choice([1, 1, 2, 3, 6]))
    ]
    return b"".join(line + line_end(random) for line in lines[:-1]) + lines[-1]


def parts(random: Random) -> List[bytes]:
    """Return the parts of a message in order, with the marks between them."""
    front, back = (some(random, FILLER, 0, 32) if random.random() < 0.3 else b"" for _ in range(2))
    source, number, priority, category, words, info = head(random)
    info = b" " + info if info or random.random() < 0.3 else b""
    gap = random.choice([b"\r\n", b"\n", some(random, FILLER, 0, 31) + b"\n"])
    tail = some(random, TRAILER, 0, 64) if random.random() < 0.4 else b""
    header = [source, number, b" ", priority, b" ", category, b" ", words, info]
    return [front, b"\1", *header, gap, b"\2", text(random), b"\3", tail, b"\4", back]


def story(random: Random) -> bytes:
    """Return the octets of a message."""
    return b"".join(parts(random))


FILLERS = [b"\n" * 32, b"\n" * 33, b"\r" * 32, b"\0\x15"]
MARKS = [b"", b"\0", b"  "]
# What is put in the place of each part: some of it may be valid there.
OTHERS = [
    FILLERS,
    [b"", b"\1\1"],
    [b"", b"A" * 8, b"A" * 9, b"@", b"a["],
    [b"", b"1" * 8, b"1" * 9, b"/", b"1:"],
    MARKS,
    [b"", b"0", b"12", b"A"],
    MARKS,
    [b"", b"aZ9", b"A" * 8, b"A" * 9, b"A-"],
    MARKS,
    [b"", b"0" * 6, b"0" * 7, b"1A"],
    [b"", b" ", b" " * 65, b" " * 66, b" \x7f", b" \x80", b" \t"],
    [*FILLERS, b"", b"\r", b"\r" * 31 + b"\n", b"\r" * 32 + b"\n", b"\n" + b"\r" * 31],
    [b"", b"\2\2"],
    [
        b"",
        b"a\r",
        b"a\r\r",
        b"a\rb",
        b"a\r\r\nb",
        b"a\r\r\r\nb",
        b"a\r\r\r",
        b"\1",
        b"\2",
        b"a\r\4",
        b"\4",
        b"\n",
        b"\r\n\0",
    ],
    [b"", b"\3\3"],
    [b"", b"\r" * 64, b"\n" * 65, b"\x7f", b"\t", b"\x80", b"\0"],
    [b"", b"\4\4"],
    FILLERS,
]


def wrong_story(random: Random) -> bytes:
    """Return the octets of a message with one part that is probably invalid."""
    made, at = parts(random), random.randrange(len(OTHERS))
    made[at] = random.choice(OTHERS[at])
    return b"".join(made)


def subfiles(random: Random, octets: bytes, most: int) -> List[bytes]:
    """Return the object in subfiles of any size up to `most`, and a few empty subfiles."""
    made: List[bytes] = []
    at = 0
    while at < len(octets) or not made:
        size = (
            random.choice([most, random.randint(1, most), 0])
            if most < 40 or random.random() < 0.9
            else 0
        )
        made.append(octets[at : at + size])
        at += size
    return made + [b""] * random.choice([0, 0, 0, 1])


def datasets(random: Random, octets: bytes) -> List[Field]:
    """Return the datasets of a valid envelope with this object."""
    most = random.choice([1, 7, len(octets) or 1, 1024, 2**31, 2**40, GREATEST])
    numbers = [(20, digits_of(random, most))]
    is_known = random.random() < 0.6
    numbers.append((10, bytes([is_known])))
    if is_known:
        numbers.append((90, digits_of(random, len(octets))))
    if random.random() < 0.4:
        numbers.append(
            (
                95,
                digits_of(random, random.choice([len(octets), len(octets) + 1, 2**32, GREATEST])),
            )
        )
    random.shuffle(numbers)
    made = fields(random, 1, random.choice([0, 0, 1])) + fields(
        random, 2, random.choice([0, 0, 1, 3])
    )
    made += [(7, *each) for each in numbers]
    made += [(8, 10, part) for part in subfiles(random, octets, max(1, min(most, len(octets))))]
    return [*made, (9, 10, digits_of(random, len(octets)))]


def spelled(random: Random, each: Field) -> bytes:
    """Return a dataset with a count of any form."""
    size = len(each[2])
    if size <= 0x7FFF and random.random() < 0.8:
        return counted(each, 0)
    return counted(each, random.randint(max(1, (size.bit_length() + 7) // 8), 8))


def joined(random: Random, made: Sequence[Field]) -> bytes:
    """Return the octets of datasets, with counts of any form."""
    return b"".join(spelled(random, each) for each in made)


def wrong_size(random: Random, data: bytes) -> bytes:
    """Return a number near another one, or octets that do not encode a number."""
    if random.random() < 0.3:
        return random.choice([b"\xff" * random.randint(1, 9), b"\0", b"", b"\0" + data])
    size = max(0, rules.number(data) + random.choice([-1, 1, -2, 256]))
    return size.to_bytes(max(len(data), (size.bit_length() + 7) // 8), "big")


def spoiled(random: Random, made: Sequence[Field]) -> List[Field]:
    """Return datasets with one missing, doubled, moved or changed. Most results are invalid."""
    made, at = list(made), random.randrange(len(made))
    sizes = [place for place, each in enumerate(made) if each[0] in (7, 9)]
    if sizes and random.random() < 0.4:
        # (records 7 and 9 have separate rules)
        at = random.choice(sizes)
    record, dataset, data = made[at]
    how = random.randrange(6)
    if how == 0:
        del made[at]
    elif how == 1:
        made.insert(random.choice([at, random.randrange(len(made))]), made[at])
    elif how == 2:
        made.insert(random.randrange(len(made)), made.pop(at))
    elif how == 3:
        other = random.choice([0, 1, 2, 3, 7, 8, 9, 255]), random.choice(
            [10, 20, 90, 95, random.randrange(256)]
        )
        made[at] = random.choice([(other[0], dataset, data), (record, other[1], data)])
    elif how >= 4 and record in (7, 9):
        made[at] = record, dataset, wrong_size(random, data)
    else:
        made[at] = record, dataset, wrong_value(random, record, dataset)
    return made


def damaged(random: Random, octets: bytes) -> bytes:
    """Return the octets with some changed, removed, doubled or inserted, in one or two places."""
    for _ in range(random.choice([1, 1, 1, 2])):
        at = random.randrange(len(octets) + 1)
        end = min(len(octets), at + random.choice([1, 1, 2, 5, random.randint(1, 60)]))
        part = octets[at:end]
        mark = bytes([random.choice(b"\0\1\2\3\4\n\r \x16\x1c0a\x80\xff")])
        part = random.choice([random.randbytes(len(part)), b"", part + part, mark + part])
        octets = octets[:at] + part + octets[end:]
    return octets
