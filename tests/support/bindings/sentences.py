"""Parse the sentences and rows of an explanation, and compute their numbers from the file."""
from __future__ import annotations

import re
from typing import Dict, Iterator, List, NamedTuple, Set

import rules
from iim.explain.words import NAMED

CODES = {name: octet for octet, name in NAMED.items()}


class Claim(NamedTuple):
    """What is compared.

    Attributes:
        what: The sentence or row.
        printed: Its numbers.
        computed: The same numbers, from the file.
    """

    what: str
    printed: object
    computed: object


def number(text: str) -> int:
    """Return a printed number."""
    return int(text.replace(",", ""))


class File(NamedTuple):
    """A file and the rejected envelope in it.

    Attributes:
        octets: The bytes of the file.
        at: The offset of the rejected envelope.
        nth: Its number.
        octet: The offset of the rejected byte in it.
    """

    octets: bytes
    at: int
    nth: int
    octet: int

    @property
    def own(self) -> bytes:
        """The bytes from the envelope on."""
        return self.octets[self.at :]


def file_of(octets: bytes) -> File:
    """Return a file with its rejected envelope, by the test oracle."""
    at, nth = 0, 1
    while True:
        read = rules.read(octets[at:])
        if not read.is_done:
            octet = read.refusal.octet if read.refusal else len(octets) - at
            return File(octets, at, nth, octet)
        at, nth = at + read.at, nth + 1


def accepted(octets: bytes) -> bool:
    """Check whether the first envelope of some bytes is accepted, by the test oracle."""
    return rules.read(octets).is_done


def valid(octets: bytes) -> int:
    """Return the offset up to which the first envelope of some bytes is valid."""
    read = rules.read(octets)
    return read.refusal.octet if read.refusal else read.at


# --- Where and why


def where(file: File, text: str) -> Iterator[Claim]:
    """Yield the numbers of the position."""
    found = re.search(
        r"ctet ([\d,]+) of envelope ([\d,]+), which is octet ([\d,]+) of the file"
        r" \(hexadecimal ([0-9A-F]+)\)",
        text,
    )
    assert found, text
    printed = number(found[1]), number(found[2]), number(found[3]), int(found[4], 16)
    in_file = file.at + file.octet
    yield Claim(found[0], printed, (file.octet, file.nth, in_file, in_file))
    here = re.search(r"It is in (\d):(\d\d+)[^;]*, which begins at ([\d,]+); it has ([\d,]+)", text)
    if here is None:
        return
    begin, count = number(here[3]), number(here[4])
    tag = file.own[begin : begin + 13]
    head = 5 + (tag[4] if tag[3] == 0x80 else 0)
    size = int.from_bytes(tag[5:head] or tag[3:5], "big")
    yield Claim(here[0], (int(here[1]), int(here[2]), count), (tag[1], tag[2], size))
    after = re.search(r"That is in its (data|head), after ([\d,]+) octets? of it\.", text)
    assert after, text
    received = file.octet - begin - (head if after[1] == "data" else 0)
    yield Claim(after[0], number(after[2]), received)


def values(file: File, text: str) -> Iterator[Claim]:
    """Yield the numbers of an invalid value and of its count."""
    here = re.search(r"It is in (\d):(\d\d+)[^;]*, which begins at ([\d,]+); it has ([\d,]+)", text)
    if here is None:
        return
    key, begin, size = (int(here[1]), int(here[2])), number(here[3]), number(here[4])
    row = rules.row_of(*key)
    count = re.search(
        r"Its count is ([\d,]+); the valid (size is|sizes are) ([\d,]+)( to )?([\d,]+)?", text
    )
    if count and row:
        printed = number(count[1]), number(count[3]), number(count[5] or count[3])
        yield Claim(count[0], printed, (size, row.least, row.most))
    tag = file.own[begin : begin + 5]
    head = 5 + (tag[4] if tag[3] == 0x80 else 0)
    value = file.own[begin + head : begin + head + size]
    raw = re.search(r"It is ((?:[0-9A-F]{2} ?)+)( ?\.\.\.)?, '", text)
    if raw:
        printed_octets = bytes.fromhex(raw[1])
        yield Claim(raw[0], printed_octets, value[:16])
    bad = re.search(r"Invalid: ((?:octet [\d,]+ \([^)]+\)(?:, )?)+)", text)
    if bad and row:
        for at, name in re.findall(r"octet ([\d,]+) \(([^)]+\)?)\)", bad[1]):
            octet = file.own[number(at)]
            is_valid = rules.KINDS[row.kind](bytes([octet]) * max(row.least, 1))
            yield Claim(bad[0], (octets_named(name), False), ({octet}, is_valid))


# --- What to do


def octets_named(text: str) -> Set[int]:
    """Return the bytes that a list of names has."""
    if text.startswith("any octet"):
        rest = text.partition(" except ")[2]
        return set(range(256)) - (octets_named(rest) if rest else set())
    found: Set[int] = set()
    for part in re.split(r", | or ", text):
        span = re.fullmatch(r"(?:octets|the digits) (\w+) to (\w+)", part)
        if part in ("a digit", "a letter", "a capital letter", "a small letter"):
            kinds: Dict[str, str] = {
                "a digit": r"[0-9]",
                "a letter": r"[A-Za-z]",
                "a capital letter": r"[A-Z]",
                "a small letter": r"[a-z]",
            }
            found |= {octet for octet in range(128) if re.match(kinds[part], chr(octet))}
        elif span and part.startswith("octets"):
            found |= set(range(int(span[1], 16), int(span[2], 16) + 1))
        elif span:
            found |= set(range(ord(span[1]), ord(span[2]) + 1))
        elif part in CODES:
            found.add(CODES[part])
        elif re.fullmatch(r"'.'", part):
            found.add(ord(part[1]))
        elif part != "no octet":
            found.add(int(part, 16))
    return found


FIX = re.compile(
    r"\d+\. Octet ([\d,]+) \(now (.+?)\) as (.*?)(, a count of ([\d,]+)(?: (to|or) ([\d,]+))*[^:]*"
    r"for [^:]*\d:.*?|, the (?:tag marker|record|count) of the dataset at [\d,]+|, dataset .*?)?:"
    r" (the envelope is accepted|it is valid up to octet ([\d,]+))\."
)


def single_bytes(file: File, text: str) -> Iterator[Claim]:
    """Yield the results of the single-byte changes."""
    for found in FIX.finditer(text):
        at = number(found[1])
        yield Claim(found[0], octets_named(found[2]), {file.own[at]})
        if found[3].startswith("one of "):
            continue
        octets = sorted(octets_named(found[3]))
        changed = [file.own[:at] + bytes([octet]) + file.own[at + 1 :] for octet in octets[:3]]
        if found[9] is None:
            yield Claim(found[0], [True] * len(changed), [accepted(each) for each in changed])
        else:
            reached = max(
                valid(file.own[:at] + bytes([octet]) + file.own[at + 1 :]) for octet in octets
            )
            yield Claim(found[0], number(found[9]), reached)
        if found[4] and "a count of" in found[4]:
            counts = [(file.own[at - 1] << 8) + octet for octet in octets]
            ends = [number(found[5]), number(found[7] or found[5])]
            yield Claim(found[0], ends, [counts[0], counts[-1]])


def places(file: File, text: str) -> Iterator[Claim]:
    """Yield the numbers of lost, added and zeroed bytes."""
    own = file.own
    for found in re.finditer(
        r"at ([\d,]+) is ([\d,]+) octets? (shorter|longer) than it counts \(([\d,]+)\)", text
    ):
        at, count, size = number(found[1]), number(found[2]), number(found[4])
        end = at + 5 + size + (count if found[3] == "longer" else -count)
        read = int.from_bytes(own[at + 3 : at + 5], "big"), own[end : end + 1]
        yield Claim(found[0], (size, b"\x1c"), read)
    for found in re.finditer(
        r"ctets ([\d,]+) to ([\d,]+) are NUL, a hole of ([\d,]+) octets", text
    ):
        first, last, count = number(found[1]), number(found[2]), number(found[3])
        hole = own[first : last + 1]
        around = own[first - 1 : first] != b"\0" and own[last + 1 : last + 2] != b"\0"
        yield Claim(found[0], (count, b"\0" * count, True), (len(hole), hole, around))
    for found in re.finditer(
        r"With ([^.]+?) inserted before (?:one of the octets ([\d,]+) to ([\d,]+)|octet ([\d,]+))"
        r" the envelope is accepted",
        text,
    ):
        for at in (number(each) for each in found.groups()[1:] if each):
            fits = [own[:at] + bytes([octet]) + own[at:] for octet in octets_named(found[1])]
            yield Claim(found[0], True, any(map(accepted, fits)))
    for found in re.finditer(
        r"Without (?:one of the octets ([\d,]+) to ([\d,]+)|octet ([\d,]+)) \(([^)]+)\) the env",
        text,
    ):
        for at in (number(each) for each in found.groups()[:3] if each):
            rest = own[:at] + own[at + 1 :]
            yield Claim(found[0], (True, True), (accepted(rest), own[at] in octets_named(found[4])))
    for found in re.finditer(r"with the tag of 8:10 Subfile put in at ([\d,]+)", text):
        at = number(found[1])
        before = own[:at].rindex(b"\x1c\x08\x0a")
        end = before + 5 + int.from_bytes(own[before + 3 : before + 5], "big")
        yield Claim(found[0], at, end)


def ends(file: File, text: str) -> Iterator[Claim]:
    """Yield the numbers of what is missing or left over."""
    own = file.own
    found = re.search(
        r"The count of \d:\d+[^.]*? at ([\d,]+) is ([\d,]+) octets?, .*?: ([\d,]+) (is|are)", text
    )
    if found:
        at, size, missing = number(found[1]), number(found[2]), number(found[3])
        read = int.from_bytes(own[at + 3 : at + 5], "big")
        yield Claim(found[0], (size, missing), (read, at + 5 + read - len(own)))
    found = re.search(
        r"7:90 announces ([\d,]+) octets of the object, and ([\d,]+) were received: ([\d,]+)", text
    )
    if found:
        read_so_far = rules.read(own)
        announced = read_so_far.numbers[90]
        total = read_so_far.total
        numbers = number(found[1]), number(found[2]), number(found[3])
        yield Claim(found[0], numbers, (announced, total, announced - total))
    found = re.search(
        r"without the last ([\d,]+) octets?(, all (\S+))?, the file is accepted", text
    )
    if found:
        rest = file.octets[-number(found[1]) :]
        yield Claim(found[0], number(found[1]), len(own))
        if found[2]:
            yield Claim(found[0], octets_named(found[3]), set(rest))
    found = re.search(r"Without octets ([\d,]+) to ([\d,]+) of the file \(([\d,]+) octets?,", text)
    if found:
        first, last, count = (number(found[nth]) for nth in (1, 2, 3))
        yield Claim(found[0], (count, True), (last + 1 - first, accepted(file.octets[last + 1 :])))
        yield Claim(found[0], first, file.at)


def asked(file: File, text: str) -> Iterator[Claim]:
    """Yield the parts of the sentence on which envelope to ask for again."""
    found = re.search(r"Ask (\S+) for (\d{8}) of (\d{8}) again\.", text)
    if found:
        fields = rules.read(file.own[: file.octet]).fields
        parts = [rules.first(fields, 1, each) for each in (30, 40, 70)]
        printed: List[object] = [found[1].encode(), found[2].encode(), found[3].encode()]
        yield Claim(found[0], printed, parts)


def sizes(file: File, text: str) -> Iterator[Claim]:
    """Yield the sizes of the object."""
    found = re.search(
        r"Sizes: (?:([\d,]+) announced \(7:90\)|no size is announced)"
        r"(?:, at most ([\d,]+) \(7:95\))?;"
        r" ([\d,]+) octets? in ([\d,]+) subfiles? of at most ([\d,]+) \(7:20\)\.",
        text,
    )
    if found is None:
        return
    read = rules.read(file.own[: file.octet])
    numbers = [None if part is None else number(part) for part in found.groups()]
    computed = [read.numbers.get(90), read.numbers.get(95), read.total, read.subfiles]
    yield Claim(found[0], numbers, [*computed, read.numbers.get(20, 0)])
    differ = re.search(r"The received and the announced size differ by ([\d,]+)\.", text)
    if differ:
        yield Claim(differ[0], number(differ[1]), abs(read.numbers[90] - read.total))
    confirms = re.search(r"9:10 confirms ([\d,]+)\.", text)
    if confirms:
        at = file.own.rindex(b"\x1c\x09\x0a", 0, file.octet + 1)
        size = int.from_bytes(file.own[at + 3 : at + 5], "big")
        value = int.from_bytes(file.own[at + 5 : at + 5 + size], "big")
        yield Claim(confirms[0], number(confirms[1]), value)


def instants(file: File, text: str) -> Iterator[Claim]:
    """Yield the instants of an envelope."""
    fields = rules.read(file.own[: file.octet]).fields
    for words, record, date, time, default in (
        ("Sent", 1, 70, 80, None),
        ("Released at", 2, 30, 35, b"000000+0000"),
        ("Expires after", 2, 37, 38, b"235959+0000"),
    ):
        found = re.search(rf"{words} (\d{{4}}-\d\d-\d\dT\d\d:\d\d:\d\dZ)\.", text)
        day, clock = (rules.first(fields, record, each) for each in (date, time))
        clock = clock or default
        computed = None
        if day is not None and clock is not None:
            instant = rules.instant_of(day, clock)
            computed = None if instant is None else rules.instant_text(instant)
        yield Claim(words, found and found[1], computed)


# --- The whole file, and its likely reason


def verdict(file: File, text: str) -> Iterator[Claim]:
    """Yield the numbers of the verdict, and of the lines of the envelopes."""
    found = re.search(r"([\d,]+) octets?, ([\d,]+) envelopes? accepted, envelope ([\d,]+)", text)
    assert found, text
    printed = number(found[1]), number(found[2]), number(found[3])
    yield Claim(found[0], printed, (len(file.octets), file.nth - 1, file.nth))


def envelopes_of(octets: bytes) -> List[int]:
    """Return the sizes of the envelopes at the beginning of some bytes, by the test oracle."""
    sizes: List[int] = []
    at = 0
    while at < len(octets) and (read := rules.read(octets[at:])).is_done:
        sizes.append(read.at)
        at += read.at
    return sizes


def likely(file: File, text: str) -> Iterator[Claim]:
    """Yield the numbers of the likely reason."""
    own, reason = file.own, text.partition("Likely reason: ")[2]
    here = re.search(r"It is in (\d):(\d\d+)[^;]*, which begins at ([\d,]+); it has ([\d,]+)", text)
    found = re.match(r"\d:\d+[^.]*: it counts ([\d,]+); at (most|least) ([\d,]+), or", reason)
    if found and here:
        row = rules.row_of(int(here[1]), int(here[2]))
        assert row, text
        least_or_most = row.most if found[2] == "most" else row.least
        yield Claim(
            found[0], (number(found[1]), number(found[3])), (number(here[4]), least_or_most)
        )
    found = re.match(r"(a subfile|the object) has ([\d,]+) octets, and 7:(\d\d) allows", reason)
    if found and here:
        before = rules.read(own[: file.octet])
        size = number(here[4]) + (before.total if found[1] == "the object" else 0)
        limit = number(reason[found.end() :].split(" ")[1].rstrip("."))
        yield Claim(found[0], (number(found[2]), limit), (size, before.numbers[int(found[3])]))
    found = re.search(r"octets of the object: ([\d,]+) octets? fewer than 7:90", reason)
    if found:
        before = rules.read(own[: file.octet])
        yield Claim(found[0], number(found[1]), before.numbers[90] - before.total)
    found = re.match(r"([\d,]+) octets? follow the last envelope", reason)
    if found:
        yield Claim(found[0], number(found[1]), len(own))


def whole_file(file: File, text: str) -> Iterator[Claim]:
    """Yield the numbers of what was tried with the file as a whole."""
    own = file.own
    found = re.search(r"Without the first ([\d,]+) octets?[^.]*it is accepted: ([\d,]+)", text)
    if found:
        sizes = envelopes_of(own[number(found[1]) :])
        yield Claim(found[0], number(found[2]), len(sizes))
        yield Claim(found[0], sum(sizes), len(own) - number(found[1]))
    found = re.search(
        r"At octet ([\d,]+)(?: \(octet ([\d,]+) of the file\))? another envelope begins: from there"
        r" on, the bytes are accepted: ([\d,]+)",
        text,
    )
    if found:
        at = number(found[1])
        sizes = envelopes_of(own[at:])
        yield Claim(found[0], (number(found[3]), at + sum(sizes)), (len(sizes), len(own)))
        in_file = number(found[2]) if found[2] else 0
        yield Claim(found[0], in_file, file.at + at if file.at else 0)
    for found in re.finditer(
        r"\. Without octets ([\d,]+) to ([\d,]+) \(([\d,]+) octets?\)[^:]*: the envelope is", text
    ):
        first, last, count = (number(found[nth]) for nth in (1, 2, 3))
        rest = own[:first] + own[last + 1 :]
        yield Claim(found[0], (count, True), (last + 1 - first, accepted(rest)))
    found = re.search(r"is there ([\d,]+) times?, first at octet ([\d,]+): octets are lost", text)
    if found:
        mark = b"\xef\xbf\xbd"
        yield Claim(
            found[0], (number(found[1]), number(found[2])), (own.count(mark), own.index(mark))
        )
    found = re.search(r"below 256: these ([\d,]+) octets have none\.", text)
    if found:
        yield Claim(found[0], (number(found[1]), False), (len(own), b"\0" in own))
    found = re.search(r"At octet ([\d,]+) a record 2 begins", text)
    if found:
        yield Claim(found[0], own[number(found[1]) :][:2], b"\x1c\2")


def corrected(file: File, text: str) -> Iterator[Claim]:
    """Yield whether the envelope is accepted with each other form of the invalid value."""
    here = re.search(r"It is in \d:\d\d+[^;]*, which begins at ([\d,]+); it has ([\d,]+)", text)
    if here is None:
        return
    begin, size = number(here[1]), number(here[2])
    own = file.own
    for found in re.finditer(
        r"\. With (\d):(\d\d+) [A-Z][^.:]*? as '?([0-9+-]+)'?, [^:]*?(: the envelope is accepted)",
        text,
    ):
        value = found[3].encode()
        put = rules.dataset_of(int(found[1]), int(found[2]), value)
        made = own[:begin] + put + own[begin + 5 + size :]
        yield Claim(found[0], True, accepted(made))


def limits(file: File, text: str) -> Iterator[Claim]:
    """Yield the numbers of a limit that is exceeded."""
    found = re.search(
        r"With it, records 1 and 2 have ([\d,]+) (octets of data|datasets); at most ([\d,]+)", text
    )
    here = re.search(r"It is in \d:\d\d+[^;]*, which begins at [\d,]+; it has ([\d,]+)", text)
    if found is None or here is None:
        return
    # (the oracle stops before the dataset that exceeds the limit)
    fields = rules.read(file.own[: file.octet]).fields
    octets = sum(len(data) for _, _, data in fields) + number(here[1])
    computed = (octets, 65_536) if found[2] != "datasets" else (len(fields) + 1, 512)
    yield Claim(found[0], (number(found[1]), number(found[3])), computed)


# --- Rows


def listing(file: File, text: str) -> Iterator[Claim]:
    """Yield the lines of the accepted envelopes: number, offset, size and id."""
    own = text.partition("\nENVELOPES\n")[2].partition("\n\n")[0]
    rows = re.findall(r"^ +([\d,]+)  at ([\d,]+) +([\d,]+) octets?  (\S+ \S+ \S+)$", own, re.M)
    at = 0
    sizes = envelopes_of(file.octets)
    for row, size in zip(rows, sizes):
        read = rules.read(file.octets[at : at + size])
        ids = (rules.first(read.fields, 1, each) or b"" for each in (30, 40, 70))
        name = " ".join(rules.shown(part) for part in ids)
        nth = sizes.index(size) + 1 if sizes.count(size) == 1 else number(row[0])
        yield Claim(
            " ".join(row), (number(row[0]), *map(number, row[1:3]), row[3]), (nth, at, size, name)
        )
        at += size


def dumps(file: File, text: str) -> Iterator[Claim]:
    """Yield the rows of the hexadecimal dump: bytes, their text and the mark."""
    for row in re.findall(r"^  [0-9A-F]{8} .*$", text, re.M):
        at = int(row[2:10], 16)
        octets = file.octets[at : at + 16]
        cells = re.findall(r"[0-9A-F]{2}", row[11:60])
        plain = "".join(chr(octet) if 32 <= octet < 127 else "." for octet in octets)
        yield Claim(
            row,
            (cells, row[61:]),
            ([f"{octet:02X}" for octet in octets], plain),
        )
        if "[" in row[10:60]:
            mark = at + (row.index("[", 10) - 11) // 3
            yield Claim(row, mark, file.at + file.octet)


def items(file: File, text: str) -> Iterator[Claim]:
    """Yield the rows of the rejected envelope: the offset and the size of each dataset."""
    listed = text.rpartition(f"ENVELOPE {file.nth:,}  at octet {file.at:,}")[2]
    rows = re.findall(r"^ +([\d,]+)  (\d):(\d\d+)[^\n]*?, ([\d,]+)(?: |$)", listed, re.M)
    for at, record, dataset, size in rows:
        tag = file.own[number(at) : number(at) + 13]
        head = 5 + (tag[4] if tag[3:4] == b"\x80" else 0)
        count = int.from_bytes(tag[5:head] or tag[3:5], "big")
        printed = int(record), int(dataset), number(size)
        yield Claim(f"{at} {record}:{dataset}", printed, (tag[1], tag[2], count))


ALL = (
    *(verdict, where, values, likely, whole_file, corrected, single_bytes, places, ends, asked),
    *(sizes, instants, limits),
)


def claims(octets: bytes, text: str) -> Iterator[Claim]:
    """Yield all numbers of an explanation."""
    file = file_of(octets)
    plain = re.sub(r"\s+", " ", text)
    for each in ALL:
        yield from each(file, plain)
    for rows in (dumps, items, listing):
        yield from rows(file, text)
