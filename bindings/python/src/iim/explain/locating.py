"""Locate bytes that are lost, added or zeroed, by trying where the envelope continues."""
from __future__ import annotations

import re
from typing import Iterator, List, NamedTuple, Optional, Tuple

import iim
from iim.explain import words
from iim.explain.channels import RECORDS, Tag, kind_of, plain_tags
from iim.explain.walk import Item
from iim.explain.words import counted, titled

# The bytes after the count of a dataset in which the next tag is looked for, and the number of
# tags that are tried.
WINDOW, TAGS = 1 << 16, 12
# The fewest zeros that are called a hole.
HOLE = 16


class Edit(NamedTuple):
    """A change of an envelope.

    Attributes:
        at: The offset of the bytes that are replaced.
        cut: Their number.
        put: What replaces them.
    """

    at: int
    cut: int
    put: bytes

    def of(self, octets: bytes) -> bytes:
        """Return bytes with the change."""
        return octets[: self.at] + self.put + octets[self.at + self.cut :]


class Located(NamedTuple):
    """A place at which bytes are lost, added or zeroed.

    Attributes:
        edit: The change that makes up for it.
        what: What is wrong, as a sentence without its end.
        how: What was tried, as the middle of a sentence.
        reason: The likely reason.
    """

    edit: Edit
    what: str
    how: str
    reason: str


def located(octets: bytes, item: Item, octet: int, total: Optional[int]) -> Iterator[Located]:
    """Yield the places in a dataset at which bytes may be lost, added or zeroed.

    Args:
        octets: The envelope, and what follows it.
        item: The dataset that is suspected.
        octet: The offset of the rejected byte.
        total: The size of the object that is announced, or `None`.
    """
    if item.size is None or item.number is None:
        return
    begin, end = item.at + item.head, item.at + item.head + item.size
    for _, at in tags_after(octets, item.record, begin, min(end, octet) + WINDOW)[:TAGS]:
        if at <= octet and at < end:
            yield shorter(octets, item, at)
        elif at > octet == end and hole_at(octets, end) is None:
            yield longer(octets, item, at)
        if item.record == 8 and octet >= end:
            lost = lost_block(octets, item, at, total)
            if lost is not None:
                yield lost
            yield from holes(octets, item, at)


def tags_after(octets: bytes, record: int, begin: int, end: int) -> List[Tuple[Tag, int]]:
    """Return the tags that may follow datasets of a record, and their offsets."""
    found = []
    allowed = RECORDS[RECORDS.index(record) :][:2] if record in RECORDS else RECORDS
    for match in re.finditer(rb"\x1c[\x01\x02\x07-\x09]", octets[begin:end]):
        at = begin + match.start()
        tag = next(plain_tags(octets, at), None)
        rule = iim.row(tag.record, tag.number) if tag else None
        if tag and rule and tag.record in allowed and rule.least <= tag.size <= rule.greatest:
            after = tag.end + tag.size
            if after >= len(octets) or octets[after] == 0x1C or tag.record == 8:
                found.append((tag, at))
    return found


def called(item: Item) -> str:
    """Return how a dataset is called in a sentence."""
    if item.record == 8:
        return f"the subfile at {item.at:,}"
    return f"{titled(item.record, item.number)} at {item.at:,}"


def inside(octets: bytes, begin: int, end: int, room: int = 1) -> int:
    """Return an offset in a value, with letters before it and for `room` bytes after it."""
    middle = (begin + end) // 2
    pattern = re.compile(rb"[!-~\x80-\xff](?=[!-~\x80-\xff]{%d})" % min(room, 8))
    for low, high in ((middle, end - room), (begin, end - room)):
        found = pattern.search(octets, low, max(low, high))
        if found:
            return found.start() + 1
    return max(begin, end - room)


def shorter(octets: bytes, item: Item, at: int) -> Located:
    """Return the place of bytes lost in a dataset, after which a tag begins at an offset."""
    begin = item.at + item.head
    size = item.size or 0
    count = begin + size - at
    put = inside(octets, begin, at)
    block = f"a block of {counted(count, 'octet')}" if count % 512 == 0 else counted(count, "octet")
    return Located(
        Edit(put, 0, b"x" * count),
        f"{called(item)} is {counted(count, 'octet')} shorter than it counts ({size:,})",
        f"with {counted(count, 'octet')} put in anywhere in its text",
        f"{block} of {called(item)} {'is' if count == 1 or count % 512 == 0 else 'are'} lost",
    )


def longer(octets: bytes, item: Item, at: int) -> Located:
    """Return the place of bytes added to a dataset, after which a tag begins at an offset."""
    begin = item.at + item.head
    size = item.size or 0
    count = at - begin - size
    cut = inside(octets, begin, at, count)
    verb = "was" if count == 1 else "were"
    reason = f"{counted(count, 'octet')} {verb} added to {called(item)}"
    characters = ""
    if _characters(octets[begin:at]) == size:
        reason = "the sender counts the characters of UTF-8 text, not its octets"
        characters = f", and has {size:,} characters in {at - begin:,} octets"
    return Located(
        Edit(cut, count, b""),
        f"{called(item)} is {counted(count, 'octet')} longer than it counts ({size:,}){characters}",
        f"with {counted(count, 'octet')} removed from its text",
        reason,
    )


def _characters(octets: bytes) -> int:
    """Return the number of characters of UTF-8 text, or -1."""
    try:
        return len(octets.decode("utf-8"))
    except UnicodeDecodeError:
        return -1


def remaining(octets: bytes, at: int) -> Tuple[int, Optional[int]]:
    """Return the bytes of the subfiles from a tag on, and what 9:10 confirms after them."""
    total = 0
    while True:
        tag = next(plain_tags(octets, at), None)
        if tag is None or tag.end + tag.size > len(octets):
            return total, None
        if tag.record == 9:
            return total, int.from_bytes(octets[tag.end : tag.end + tag.size], "big")
        total += tag.size
        at = tag.end + tag.size


def lost_block(octets: bytes, item: Item, at: int, total: Optional[int]) -> Optional[Located]:
    """Return the place of lost bytes that contained tags of subfiles, or `None`."""
    rest, confirmed = remaining(octets, at)
    wanted = total if total is not None else confirmed
    if wanted is None or item.size is None:
        return None
    begin, before = item.at + item.head, 0
    for tag in subfiles_before(octets, item.at):
        before += tag.size
    more = wanted - before - rest - item.size
    if more <= 0:
        return None
    present = octets[begin:at]
    heads = -(-more // max(item.size, 1))
    count = item.size + more + 5 * heads - len(present)
    if count <= 0 or heads > 64:
        return None
    middle = inside(octets, begin, at) - begin
    fill = b"x" * (item.size + more - len(present))
    data = present[:middle] + fill + present[middle:]
    made, left = data[: item.size], data[item.size :]
    while left:
        piece, left = left[: item.size], left[item.size :]
        made += b"\x1c\x08\x0a" + len(piece).to_bytes(2, "big") + piece
    block = "a block of " if count % 512 == 0 else ""
    return Located(
        Edit(begin, at - begin, made),
        f"{block}{counted(count, 'octet')} {'is' if block or count == 1 else 'are'} missing in"
        f" {called(item)} and after it",
        f"with {counted(count, 'octet')} put in there",
        f"{block}{counted(count, 'octet')} {'is' if block or count == 1 else 'are'} lost, as after"
        " a fault of a disk or of a transfer",
    )


def subfiles_before(octets: bytes, end: int) -> Iterator[Tag]:
    """Yield the tags of the subfiles before an offset."""
    at = 0
    while at < end:
        tag = next(plain_tags(octets, at), None)
        if tag is None:
            return
        if tag.record == 8:
            yield tag
        at = tag.end + tag.size


def hole_at(octets: bytes, octet: int) -> Optional[Tuple[int, int]]:
    """Return the span of zeros around an offset, or just before it, or `None` if there are few."""
    begin = octet
    while begin and octets[begin - 1 : begin] == b"\0":
        begin -= 1
    end = octet
    while octets[end : end + 1] == b"\0":
        end += 1
    return (begin, end) if end - begin >= HOLE else None


def holes(octets: bytes, item: Item, at: int) -> Iterator[Located]:
    """Yield the place of zeros that cover tags of subfiles, after which a tag is at an offset."""
    end = item.at + item.head + (item.size or 0)
    hole = hole_at(octets, end)
    if hole is None or not hole[0] <= end or at < hole[1] or at - end < 5:
        return
    sizes, left = [], at - end
    most = max(item.size or 1, 1)
    while left > 0:
        size = min(most, left - 5)
        if 0 < left - 5 - size < 5:
            size -= 5
        if size < 0:
            return
        sizes.append(size)
        left -= 5 + size
    made, begin = b"", end
    for size in sizes:
        made += b"\x1c\x08\x0a" + size.to_bytes(2, "big") + octets[begin + 5 : begin + 5 + size]
        begin += 5 + size
    count = counted(hole[1] - hole[0], "octet")
    yield Located(
        Edit(end, at - end, made),
        f"octets {hole[0]:,} to {hole[1] - 1:,} are NUL, a hole of {count}",
        f"with the tag of {words.titled(8, 10)} put in at {end:,}, where the hole covers it",
        f"{count} from {hole[0]:,} on were replaced by NUL (00), as by a fault of a disk or of a"
        " transfer",
    )


def joined_at(octets: bytes, begin: int) -> Iterator[int]:
    """Yield the offsets at which a record 1 may begin."""
    for match in re.finditer(rb"\x1c\x01[\x00-\xff][\x00-\x04]", octets[begin:]):
        tag = next(plain_tags(octets, begin + match.start()), None)
        rule = iim.row(1, tag.number) if tag else None
        if tag and rule and rule.least <= tag.size <= rule.greatest:
            after = octets[tag.end + tag.size : tag.end + tag.size + 1]
            if after == b"\x1c" and kind_of(tag) != words.OCTETS:
                yield begin + match.start()
