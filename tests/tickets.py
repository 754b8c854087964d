"""Tickets a second time, in plain Python: the ticket of a state, and the result for any octets."""
from __future__ import annotations

from typing import Dict, List, NamedTuple, Optional, Tuple

from rules import (
    COUNT_OCTETS,
    DIGITS,
    GREATEST,
    LETTERS,
    SPACED,
    TRAILER,
    Envelope,
    Field,
    Limits,
    Message,
    Refused,
    number,
)

# The greatest size and the most octets of a count where tickets were of version 1.
EARLIER_GREATEST, EARLIER_OCTETS = 2**32 - 1, 4


class Place(NamedTuple):
    """The parts of a ticket; `begun` has the dataset, the count, the octets remaining, the data."""

    section: int
    phase: int
    tag: bytes
    begun: Optional[Tuple[int, int, int, bytes]]
    fields: List[Field]
    numbers: Dict[int, int]
    total: int
    subfiles: int
    part: int
    counter: int
    flag: int
    texts: List[bytes]


def place(envelope: Envelope) -> Place:
    """Return the position in the envelope."""
    message, begun = envelope.message, None
    if envelope.begun:
        dataset, count, data = envelope.begun
        begun = dataset, count, count - len(data), b"" if envelope.section == 8 else data
    phase = 2 if envelope.is_done else 1 if begun else 0
    texts = [message.texts[part] for part in sorted(message.texts)]
    front = envelope.section, phase, envelope.tag, begun, envelope.fields
    sizes = envelope.numbers, envelope.total, envelope.subfiles
    return Place(*front, *sizes, message.part, message.counter, message.flag, texts)


def ticket(envelope: Envelope, version: int = 2) -> Optional[bytes]:
    """Return the ticket of a position, or None if this version cannot encode it."""
    found = place(envelope)
    if version == 1 and not is_place(found, EARLIER_GREATEST, EARLIER_OCTETS):
        return None
    return spelled(found, version)


def spelled(place: Place, version: int = 2) -> bytes:
    """Encode a ticket."""
    wide = COUNT_OCTETS if version == 2 else EARLIER_OCTETS
    parts = [b"IIMT", bytes([version, place.section, place.phase])]
    if place.phase == 0:
        parts += [bytes([len(place.tag)]), place.tag]
    elif place.phase == 1 and place.begun:
        dataset, count, left, data = place.begun
        parts += [bytes([dataset]), count.to_bytes(wide, "big"), left.to_bytes(wide, "big"), data]
    parts.append(len(place.fields).to_bytes(4, "big"))
    for record, dataset, data in place.fields:
        parts += [bytes([record, dataset]), len(data).to_bytes(4, "big"), data]
    for each in (10, 20, 90, 95):
        parts.append(
            b"\1" + place.numbers[each].to_bytes(wide, "big") if each in place.numbers else b"\0"
        )
    parts += [place.total.to_bytes(wide, "big"), place.subfiles.to_bytes(4, "big")]
    parts.append(bytes([place.part, place.counter, place.flag]))
    return b"".join([*parts, *(bytes([len(text)]) + text for text in place.texts)])


def widened(octets: bytes) -> bytes:
    """Return the ticket of version 2 for the position that a ticket encodes."""
    return spelled(place_of(octets)[1])


def narrowed(place: Place) -> Optional[bytes]:
    """Return the ticket of version 1 for the parts of a position, or None if they do not fit."""
    try:
        return spelled(place, 1)
    except OverflowError:
        return None


class Unreadable(Exception):
    """Raised for octets that are not a ticket, with the result that is expected for them."""


class Cutter:
    """A reader of the parts of some octets, from the first octet on."""

    def __init__(self, octets: bytes) -> None:
        """Begin at the first octet."""
        self.rest = octets

    def take(self, size: int) -> bytes:
        """Return the next octets."""
        if size > len(self.rest):
            raise Unreadable("100 TicketForm")
        front, self.rest = self.rest[:size], self.rest[size:]
        return front

    def number(self, size: int) -> int:
        """Return the number that the next octets encode."""
        return number(self.take(size))


def place_of(octets: bytes) -> Tuple[int, Place]:
    """Return the version and the position that a ticket encodes, even an impossible position."""
    if len(octets) < 5 or octets[:4] != b"IIMT":
        raise Unreadable("100 TicketForm")
    version = octets[4]
    if version not in (1, 2):
        raise Unreadable("101 TicketVersion")
    wide = COUNT_OCTETS if version == 2 else EARLIER_OCTETS
    rest = Cutter(octets[5:])
    section, phase, tag, begun = rest.number(1), rest.number(1), b"", None
    if phase == 0:
        size = rest.number(1)
        if size >= 5 + wide:
            raise Unreadable("100 TicketForm")
        tag = rest.take(size)
    elif phase == 1:
        dataset, count, left = rest.number(1), rest.number(wide), rest.number(wide)
        if left > count:
            raise Unreadable("100 TicketForm")
        begun = dataset, count, left, b"" if section == 8 else rest.take(count - left)
    elif phase > 2:
        raise Unreadable("100 TicketForm")
    fields = [
        (rest.number(1), rest.number(1), rest.take(rest.number(4)))
        for _ in range(min(rest.number(4), len(octets)))
    ]
    numbers = {}
    for each in (10, 20, 90, 95):
        mark = rest.number(1)
        if mark > 1:
            raise Unreadable("100 TicketForm")
        if mark:
            numbers[each] = rest.number(wide)
    total, subfiles, part, counter, flag = (
        rest.number(wide),
        rest.number(4),
        rest.number(1),
        rest.number(1),
        rest.number(1),
    )
    texts = [rest.take(rest.number(1)) for _ in range(7)]
    if rest.rest:
        raise Unreadable("100 TicketForm")
    return version, Place(
        section, phase, tag, begun, fields, numbers, total, subfiles, part, counter, flag, texts
    )


def judged(octets: bytes, limits: Limits) -> str:
    """Return the expected result of `restore` for a ticket."""
    try:
        version, place = place_of(octets)
    except Unreadable as why:
        return str(why)
    if not is_place(
        place,
        GREATEST if version == 2 else EARLIER_GREATEST,
        COUNT_OCTETS if version == 2 else EARLIER_OCTETS,
    ):
        return "102 Impossible"
    begun = [place.begun[1]] if place.begun and place.section in (1, 2) else []
    if sum([*(len(data) for _, _, data in place.fields), *begun]) > limits[0]:
        return "50 HeaderFull"
    return "51 TooManyFields" if len(place.fields) + len(begun) > limits[1] else "restored"


def is_place(place: Place, greatest: int, wide: int) -> bool:
    """Return whether some octets reach a state, with these greatest sizes and widest counts."""
    if place.section not in (0, 1, 2, 7, 8, 9) or (place.section == 0 and place.begun):
        return False
    if place.phase == 0 and not is_begun_tag(place.tag, wide):
        return False
    if (place.phase == 2 or place.section == 9) and not (place.section == 9 and place.phase > 0):
        return False
    if place.begun and not 1 <= place.begun[2] <= place.begun[1]:
        return False
    is_early = place.section < 7
    if (is_early and place.numbers) or (place.section < 8 and (place.total or place.subfiles)):
        return False
    if not are_fields(place) or not are_numbers(place, greatest, wide):
        return False
    return is_message(place) and (place.section < 8 or is_object(place, greatest, wide))


def is_begun_tag(tag: bytes, wide: int) -> bool:
    """Return whether the octets are a proper prefix of a tag."""
    if tag[:1] not in (b"", b"\x1c") or tag[3:4] > b"\x80":
        return False
    if len(tag) < 5:
        return True
    return tag[3] == 0x80 and 1 <= tag[4] <= wide and len(tag) < 5 + tag[4]


def are_fields(place: Place) -> bool:
    """Return whether records 1 and 2 are valid, with a partial dataset or record 7 after them."""
    envelope = Envelope((2**64, 2**64))
    try:
        for record, dataset, data in place.fields:
            if record not in (1, 2):
                return False
            envelope.head(record, dataset, len(data), 0)
            envelope.value(record, dataset, data, 0)
        if place.section in (1, 2) and place.begun:
            envelope.head(place.section, place.begun[0], place.begun[1], 0)
        elif place.section >= 7:
            envelope.head(7, 10, 1, 0)
    except Refused:
        return False
    return envelope.section == min(place.section, 7)


def are_numbers(place: Place, greatest: int, wide: int) -> bool:
    """Return whether the numbers of record 7 are consistent."""
    numbers = place.numbers
    mode, size, announced, most = (numbers.get(each) for each in (10, 20, 90, 95))
    if mode not in (None, 0, 1) or size == 0 or any(each > greatest for each in numbers.values()):
        return False
    if mode == 0 and announced is not None:
        return False
    if announced is not None and most is not None and announced > most:
        return False
    if place.section == 7 and place.begun:
        dataset, count = place.begun[:2]
        return (
            dataset in (10, 20, 90, 95)
            and dataset not in numbers
            and 1 <= count <= (1 if dataset == 10 else wide)
        )
    if place.section == 7:
        return len(numbers) > 0
    return place.section < 7 or (
        mode is not None and size is not None and (mode == 0 or announced is not None)
    )


def is_object(place: Place, greatest: int, wide: int) -> bool:
    """Return whether the subfiles can hold this number of octets."""
    numbers = place.numbers
    bound = min(greatest, numbers.get(90, greatest), numbers.get(95, greatest))
    whole, ended, least = place.total, place.subfiles, 0
    if place.section == 8 and place.begun:
        dataset, count, left, _ = place.begun
        if dataset != 10 or count > numbers[20]:
            return False
        whole, ended, least, bound = (
            place.total - (count - left),
            place.subfiles - 1,
            0,
            bound - count,
        )
    if place.section == 9:
        least = numbers.get(90, 0)
        if place.part != Message.AFTER or (
            place.begun and (place.begun[0] != 10 or place.begun[1] > wide)
        ):
            return False
    return place.subfiles > 0 and least <= whole <= min(bound, ended * numbers[20]) and whole >= 0


def is_message(place: Place) -> bool:
    """Return whether a message can be at this position after the octets of the object."""
    texts, part, counter, flag = place.texts, place.part, place.counter, place.flag
    if part > Message.AFTER:
        return False
    # (each text with its octets, its most and its part)
    forms = [
        (texts[0], LETTERS, 8, Message.SOURCE),
        (texts[1], DIGITS, 8, Message.NUMBER),
        (texts[2], DIGITS, 1, Message.PRIORITY),
        (texts[3], LETTERS | DIGITS, 8, Message.CATEGORY),
        (texts[4], DIGITS, 6, Message.WORDS),
        (texts[5], SPACED, 64, Message.INFO),
        (texts[6], TRAILER, 64, Message.TAIL),
    ]
    for text, kind, most, of in forms:
        is_needed = (of < part and of not in (Message.INFO, Message.TAIL)) or of == part in (
            Message.NUMBER,
            Message.PRIORITY,
        )
        if (
            not kind.issuperset(text)
            or len(text) > (most if of <= part else 0)
            or len(text) < is_needed
        ):
            return False
    if not is_counted(part, counter, flag):
        return False
    fewest, longest = lengths(place)
    return fewest <= place.total and (longest is None or place.total <= longest)


def is_counted(part: int, counter: int, flag: int) -> bool:
    """Return whether the counter and the flag are possible in a part."""
    if part in (Message.BEFORE, Message.AFTER):
        return counter <= 32 and flag == 0
    if part == Message.GAP:
        return flag <= 1 and 1 <= counter <= (32 if flag else 31)
    return counter == 0 and flag <= (2 if part == Message.TEXT else 0)


def lengths(place: Place) -> Tuple[int, Optional[int]]:
    """Return the least and the greatest number of octets of a message up to a position.

    From the text on there is no greatest number.
    """
    part = place.part
    if part == Message.BEFORE:
        return place.counter, place.counter
    # SOH, the texts, and the spaces around the priority, before the words and before the info
    spaces = [Message.SPACE, Message.CATEGORY, Message.WORDS]
    least: int = 1 + sum(map(len, place.texts)) + sum(part >= each for each in spaces)
    info = len(place.texts[5])
    most = least + 32 + (part >= Message.INFO)
    least += part == Message.INFO or info > 0
    if part <= Message.INFO:
        return least, most
    if part == Message.GAP:
        return least + place.counter, most + place.counter
    # the gap and STX; the held CRs; ETX; EOT and the filler
    least += 2 + (place.flag if part == Message.TEXT else 0) + (part >= Message.TAIL)
    return least + (1 + place.counter if part == Message.AFTER else 0), None
