"""The rules of the format a second time, in plain Python, independent of the crates.

`read` parses one envelope, up to its end or the end of the octets; `packed` returns the packed form
of an envelope, and `report` the output of an audit. docs/reference/format.md states the same rules
in words.
"""
from __future__ import annotations

import copy
from typing import Dict, Iterator, List, NoReturn, Optional, Sequence, Set, Tuple, Union

from rules_of_messages import Message
from rules_of_values import (
    ASKED,
    CAUSES,
    COUNT_OCTETS,
    DIGITS,
    EPOCH,
    FILLER,
    FIRST_SECOND,
    GRAPHIC,
    GREATEST,
    KINDS,
    LAST_SECOND,
    LAYERS,
    LETTERS,
    LIMITS,
    MANDATORY,
    NEXT,
    OTHER,
    OTHER_CAUSES,
    ROWS,
    SPACED,
    SPACED_LINES,
    SUBFILES,
    TRAILER,
    Field,
    Key,
    Limits,
    Row,
    admits,
    date_parts,
    instant_of,
    instant_text,
    is_date,
    is_day,
    is_part_date,
    is_size,
    is_time,
    named_causes,
    number,
    number_of,
    row_of,
    rows,
)

# With the names of the modules that this one is made of.
__all__ = [
    "ASKED",
    "CAUSES",
    "COUNT_OCTETS",
    "DIGITS",
    "EPOCH",
    "FILLER",
    "FIRST_SECOND",
    "GRAPHIC",
    "GREATEST",
    "KINDS",
    "LAST_SECOND",
    "LAYERS",
    "LETTERS",
    "LIMITS",
    "MANDATORY",
    "NEXT",
    "OTHER",
    "OTHER_CAUSES",
    "ROWS",
    "SPACED",
    "SPACED_LINES",
    "SUBFILES",
    "TRAILER",
    "Envelope",
    "Field",
    "Key",
    "Limits",
    "Message",
    "Refused",
    "Row",
    "admits",
    "copy_of",
    "dataset_of",
    "date_parts",
    "first",
    "head_bytes",
    "instant_in",
    "instant_of",
    "instant_text",
    "is_date",
    "is_day",
    "is_part_date",
    "is_size",
    "is_time",
    "named_causes",
    "number",
    "number_of",
    "object_of",
    "packed",
    "read",
    "read_changes",
    "report",
    "row_of",
    "rows",
    "shown",
    "sized",
    "words_of",
]

# --- An envelope ---


class Refused(Exception):
    """A refusal: its octet, layer, record, dataset and cause."""

    def __init__(self, octet: int, layer: str, record: int, dataset: int, cause: int) -> None:
        """Create a refusal."""
        super().__init__(
            f"refused at octet {octet} by layer {layer} on {record}:{dataset:02},"
            f" cause {cause} {CAUSES[cause]}"
        )
        self.octet, self.cause = octet, cause


class Envelope:
    """A reader of one envelope, and what it has read so far."""

    def __init__(self, limits: Limits = LIMITS) -> None:
        """Begin before the first octet."""
        self.limits = limits
        self.at = 0
        # The record of the last tag; the octets of a partial tag; the dataset, count and octets so
        # far of partial data.
        self.section, self.tag = 0, b""
        self.begun: Optional[Tuple[int, int, bytes]] = None
        self.is_done = False
        self.refusal: Optional[Refused] = None
        # The datasets of records 1 and 2, the keys of all that were read, and the octets of all.
        self.fields: List[Field] = []
        self.seen: Set[Key] = set()
        self.kept = 0
        # The numbers of record 7, the octets of the object and the tags of subfiles so far.
        self.numbers: Dict[int, int] = {}
        self.total = self.subfiles = 0
        self.message = Message()

    def copy(self) -> Envelope:
        """Return an independent copy. No dataset may be in progress."""
        other = copy.copy(self)
        other.fields, other.seen, other.numbers = (
            list(self.fields),
            set(self.seen),
            dict(self.numbers),
        )
        other.message = self.message.copy()
        return other

    def read(self, octets: bytes) -> Envelope:
        """Read up to the end of the envelope, the end of the octets, or the first refusal."""
        while not self.is_done and self.refusal is None and self.at < len(octets):
            self.read_one(octets)
        return self

    def read_one(self, octets: bytes) -> Envelope:
        """Read one dataset, or up to its refusal."""
        try:
            self.dataset(octets)
        except Refused as refusal:
            self.refusal = refusal
        return self

    def dataset(self, octets: bytes) -> None:
        """Read a dataset, or the received part of it."""
        tag = self.tag_of(octets[self.at : self.at + 5 + COUNT_OCTETS])
        if tag is None:
            self.tag, self.at = octets[self.at :], len(octets)
            return
        record, dataset, extended = tag[1], tag[2], tag[5:]
        count = number(extended or tag[3:5])
        self.at += len(tag)
        self.head(record, dataset, count, self.at - 1)
        data = octets[self.at : self.at + count]
        if record == 8:
            self.run(data)
        self.at += len(data)
        if len(data) < count:
            self.begun = dataset, count, data
        else:
            self.value(record, dataset, data, self.at - 1)

    def tag_of(self, octets: bytes) -> Optional[bytes]:
        """Return the tag at the start of at most 13 octets, or None if it is incomplete."""
        record, dataset = [*octets[1:3], 0, 0][:2]
        if octets[0] != 0x1C:
            raise Refused(self.at, "dataset", 0, 0, 1)
        if len(octets) > 3 and octets[3] > 0x80:
            raise Refused(self.at + 3, "dataset", record, dataset, 2)
        if len(octets) < 5:
            return None
        if octets[3] < 0x80:
            return octets[:5]
        if not 1 <= octets[4] <= COUNT_OCTETS:
            raise Refused(self.at + 4, "dataset", record, dataset, 2)
        size = 5 + octets[4]
        return octets[:size] if len(octets) >= size else None

    def head(self, record: int, dataset: int, count: int, octet: int) -> None:
        """Check a complete tag by the rules of each layer in turn."""
        self.head_in_record(record, dataset, count, octet)
        self.section = record
        if record in (1, 2):
            self.seen.add((record, dataset))
            self.head_in_limits(record, dataset, count, octet)
        elif record == 8:
            self.head_of_subfile(count, octet)
        elif record == 9:
            self.head_of_total(octet)

    def head_in_record(self, record: int, dataset: int, count: int, octet: int) -> None:
        """Check a tag by the rules of its record."""

        def refuse(cause: int, of: int = dataset, within: int = record) -> NoReturn:
            """Reject the tag."""
            raise Refused(octet, "record", within, of, cause)

        if record not in (self.section or 1, NEXT.get(self.section)):
            refuse(10)
        row = row_of(record, dataset)
        if row is None:
            refuse(11)
        if not row.repeats and self.has(record, dataset):
            refuse(12)
        if not row.least <= count <= row.most:
            refuse(13)
        if record != self.section and self.section:
            missing = [each for each in MANDATORY[self.section] if not self.has(self.section, each)]
            if missing:
                refuse(14, missing[0], self.section)

    def has(self, record: int, dataset: int) -> bool:
        """Return whether a dataset with these numbers was read."""
        if record == 7:
            return dataset in self.numbers
        return self.subfiles > 0 if record == 8 else (record, dataset) in self.seen

    def head_in_limits(self, record: int, dataset: int, count: int, octet: int) -> None:
        """Check a tag of record 1 or 2 against the limits."""
        if self.kept + count > self.limits[0]:
            raise Refused(octet, "limits", record, dataset, 50)
        if len(self.fields) + 1 > self.limits[1]:
            raise Refused(octet, "limits", record, dataset, 51)
        self.kept += count

    def bound(self) -> int:
        """Return the greatest number of octets that the object may have."""
        return min(GREATEST, self.numbers.get(90, GREATEST), self.numbers.get(95, GREATEST))

    def head_of_subfile(self, count: int, octet: int) -> None:
        """Check the tag of a subfile."""
        if self.subfiles >= SUBFILES:
            raise Refused(octet, "limits", 8, 10, 52)
        for cause, is_wrong in (
            (20, self.numbers[10] == 1 and 90 not in self.numbers),
            (22, count > self.numbers[20]),
            (23, self.total + count > self.bound()),
        ):
            if is_wrong:
                raise Refused(octet, "object", 8, 10, cause)
        self.subfiles += 1

    def head_of_total(self, octet: int) -> None:
        """Check the tag of record 9."""
        if self.total < self.numbers.get(90, 0):
            raise Refused(octet, "object", 9, 10, 24)
        if self.message.part != Message.AFTER:
            raise Refused(octet, "message", 9, 10, 32)

    def run(self, data: bytes) -> None:
        """Read octets of the object."""
        for at, octet in enumerate(data):
            cause = self.message.take(octet)
            if cause:
                raise Refused(self.at + at, "message" if cause == 30 else "story", 8, 10, cause)
        self.total += len(data)

    def value(self, record: int, dataset: int, data: bytes, octet: int) -> None:
        """Check a complete value."""
        if record == 8:
            return
        row = row_of(record, dataset)
        if row is None or not KINDS[row.kind](data):
            raise Refused(octet, "record", record, dataset, 15)
        asked, cause = ASKED.get((record, dataset), (data, 0))
        if data != asked:
            raise Refused(octet, "record", record, dataset, cause)
        if record in (1, 2):
            self.fields.append((record, dataset, data))
        elif record == 7:
            self.numbers[dataset] = number(data)
            self.check_numbers(dataset, octet)
        elif number(data) != self.total:
            raise Refused(octet, "object", 9, 10, 25)
        else:
            self.is_done = True

    def check_numbers(self, dataset: int, octet: int) -> None:
        """Check the numbers of record 7 against each other, each pair at the later one."""
        mode, announced, most = (self.numbers.get(each) for each in (10, 90, 95))
        if dataset in (10, 90) and mode == 0 and announced is not None:
            raise Refused(octet, "object", 7, dataset, 20)
        if dataset in (90, 95) and announced is not None and most is not None and announced > most:
            raise Refused(octet, "object", 7, dataset, 21)

    # What is answered

    def answer(self) -> str:
        """Return the result of `feed` for all octets in one chunk."""
        if self.refusal:
            return str(self.refusal)
        return f"done {self.at}" if self.is_done else "more"

    def end(self) -> Optional[str]:
        """Return the refusal if the input ends here, or None."""
        if self.refusal:
            return str(Refused(self.refusal.octet, "outside", 0, 0, 61))
        if self.is_done:
            return None
        record, dataset = [*self.tag[1:3], 0, 0][:2]
        if self.begun:
            record, dataset = self.section, self.begun[0]
        return str(Refused(self.at, "dataset", record, dataset, 3))


def read(octets: bytes, limits: Limits = LIMITS) -> Envelope:
    """Read one envelope, up to its end or the end of the octets."""
    return Envelope(limits).read(octets)


def read_changes(octets: bytes, limits: Limits = LIMITS) -> Iterator[Tuple[bytes, Envelope]]:
    """Yield each one-octet change of an envelope, with the result of reading it.

    The datasets before the change are read only once.
    """
    before = Envelope(limits)
    for at in range(len(octets)):
        while (after := before.copy().read_one(octets)).refusal is None and after.at <= at:
            before = after
        for octet in range(256):
            changed = octets[:at] + bytes([octet]) + octets[at + 1 :]
            yield changed, before.copy().read(changed)


# --- What the packer writes ---


def head_bytes(record: int, dataset: int, count: int) -> bytes:
    """Return the tag as the packer writes it."""
    if count <= 0x7FFF:
        return bytes([0x1C, record, dataset]) + count.to_bytes(2, "big")
    size = 4 if count <= 0xFFFFFFFF else 8
    return bytes([0x1C, record, dataset, 0x80, size]) + count.to_bytes(size, "big")


def dataset_of(record: int, dataset: int, data: bytes) -> bytes:
    """Return a dataset as the packer writes it."""
    return head_bytes(record, dataset, len(data)) + data


def sized(record: int, dataset: int, size: int) -> bytes:
    """Return a dataset with a number, in four octets if it fits, otherwise in eight."""
    return dataset_of(record, dataset, size.to_bytes(4 if size <= 0xFFFFFFFF else 8, "big"))


def object_of(head: Sequence[bytes], lines: Sequence[bytes], trailer: bytes) -> bytes:
    """Return a message as the packer writes it.

    The head is source, number, priority, category, words and info.
    """
    source, digits, priority, category, words, info = head
    front = b" ".join(
        [b"\1" + source + digits, priority, category, words, *([info] if info else [])]
    )
    return front + b"\r\n\2" + b"\r\n".join(lines) + b"\3" + trailer + b"\4"


def packed(
    fields: Sequence[Field],
    story: bytes,
    subfile: int,
    known: bool = True,
    most: Optional[int] = None,
) -> bytes:
    """Return the packed envelope of the fields and an object, in subfiles of this size."""
    parts = [dataset_of(*field) for field in fields]
    parts += [dataset_of(7, 10, b"\1" if known else b"\0"), sized(7, 20, subfile)]
    if known:
        parts.append(sized(7, 90, len(story)))
    elif most is not None:
        parts.append(sized(7, 95, most))
    parts += [dataset_of(8, 10, story[at : at + subfile]) for at in range(0, len(story), subfile)]
    return b"".join(parts) + sized(9, 10, len(story))


# --- The audit ---


def words_of(lines: Sequence[Union[bytes, bytearray]]) -> int:
    """Return the number of words in the lines: maximal runs without a space or a tab."""
    return sum(
        len([word for word in bytes(line).replace(b"\t", b" ").split(b" ") if word])
        for line in lines
    )


def shown(octets: bytes) -> str:
    """Return octets as text: printable ASCII as itself, a backslash and others in hexadecimal."""
    return "".join(
        chr(octet) if 0x20 <= octet <= 0x7E and octet != 0x5C else f"\\x{octet:02X}"
        for octet in octets
    )


def first(fields: Sequence[Field], record: int, dataset: int) -> Optional[bytes]:
    """Return the octets of the first dataset with these numbers, or None."""
    for field in fields:
        if field[:2] == (record, dataset):
            return field[2]
    return None


def instant_in(fields: Sequence[Field], dataset: int, time: bytes) -> Optional[int]:
    """Return the instant of a date and a time of record 2, or None if the date is invalid."""
    date = first(fields, 2, dataset)
    return None if date is None else instant_of(date, time)


def copy_of(fields: Sequence[Field], now: int) -> str:
    """Return whether the copy is held, expired or free at `now`, in seconds since 1970."""
    released = instant_in(fields, 30, first(fields, 2, 35) or b"000000+0000")
    expires = instant_in(fields, 37, first(fields, 2, 38) or b"235959+0000")
    if released is not None and released > now:
        return "held"
    return "expired" if expires is not None and now > expires else "free"


def report(envelopes: Sequence[Envelope], now: int) -> List[str]:
    """Return the lines of the audit of complete envelopes at the instant `now`."""
    made: List[str] = []
    names: Dict[Tuple[bytes, ...], int] = {}
    for at, envelope in enumerate(envelopes, 1):
        fields, words = envelope.fields, words_of(envelope.message.lines)
        name = tuple(first(fields, 1, dataset) or b"" for dataset in (30, 40, 70))
        priority, time = first(fields, 1, 60), first(fields, 1, 80)
        sent = instant_of(name[2], time) if time is not None else None
        announced = int(envelope.message.texts[Message.WORDS])
        made.append(
            f"{at} {shown(name[0])} {name[1].decode()} {name[2].decode()}"
            f" priority {priority.decode() if priority else '-'} size {envelope.total}"
            f" subfiles {envelope.subfiles} words {announced}/{words}"
            f" age {'-' if sent is None else now - sent}"
            f" repeats {names.get(name, '-')} copy {copy_of(fields, now)}"
        )
        names.setdefault(name, at)
    repeated = sum(" repeats - " not in line for line in made)
    held = sum(line.endswith(" copy held") for line in made)
    return [*made, f"{len(made)} envelopes, {repeated} repeated, {held} held"]
