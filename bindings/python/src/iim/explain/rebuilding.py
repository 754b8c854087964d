"""Build an envelope again of its datasets: in order, without some of them, or with others.

The datasets are split by their counts alone. What is built is tried, and never shown as read.
"""
from __future__ import annotations

from typing import Callable, Dict, Iterator, List, NamedTuple, Optional, Sequence, Set, Tuple

import iim
from iim.explain import words
from iim.explain.channels import RECORDS, Part, encoded, plain_tags, sized

# The binary numbers that are tried as the last byte of a placeholder.
SINGLY = [bytes([value]) for value in range(256)]


class Rebuilt(NamedTuple):
    """An envelope that was built again.

    Attributes:
        how: What was done, as the beginning of a sentence.
        octets: The bytes of the envelope, and what follows it.
        reason: The likely reason.
        advice: What to do.
    """

    how: str
    octets: bytes
    reason: str
    advice: str


def split(octets: bytes) -> Tuple[List[Part], int]:
    """Return the datasets at the beginning of some bytes, and the offset after them.

    The last one is that of record 9, or the last complete one.
    """
    parts: List[Part] = []
    at = 0
    while at < len(octets):
        tag = next(plain_tags(octets, at), None)
        if tag is None or tag.end + tag.size > len(octets):
            break
        parts.append(Part(tag.record, tag.number, octets[tag.end : tag.end + tag.size]))
        at = tag.end + tag.size
        following = next(plain_tags(octets, at), None)
        if tag.record == 9 and (following is None or following.record != 8):
            break
    return parts, at


def placeholder(record: int, number: int) -> bytes:
    """Return a dataset with a valid value.

    A binary number gets the least value that is accepted in record 1.
    """
    rule = iim.row(record, number)
    least, kind = (rule.least, rule.kind) if rule else (0, words.OCTETS)
    values = {words.DATE: b"20240101", words.TIME: b"120000+0000"}
    values.update({words.DIGITS: b"0" * least, words.BINARY: b"\0" * least})
    value = values.get(kind, b"\1" * least)
    head = bytes([0x1C, record, number, 0, len(value)])
    likely = [head + value[:-1] + last for last in SINGLY] if kind == words.BINARY and value else []
    valid = (each for each in likely if iim.Receiver().try_bytes(each)[0] == len(each))
    return next(valid, head + value)


def record_1() -> bytes:
    """Return a record 1 of placeholders."""
    return b"".join(placeholder(1, number) for number in (0, 20, 22, 30, 40, 70))


def named(parts: Sequence[Part]) -> str:
    """Return the names of some datasets, of many the first ones."""
    titles = [words.titled(part.record, part.number) for part in parts]
    more = f" and {words.counted(len(titles) - 3, 'other')}" if len(titles) > 3 else ""
    return ", ".join(titles[:3]) + more


def rebuilt(octets: bytes) -> Iterator[Rebuilt]:
    """Yield the envelope at the beginning of some bytes, built again in several ways."""
    parts, end = split(octets)
    if not parts:
        return
    rest = octets[end:]
    for build in (_in_order, _without_repetition, _without_others, _with_records, _with_sizes):
        yield from build(parts, rest)


Way = Callable[[List[Part], bytes], Iterator[Rebuilt]]


def _in_order(parts: List[Part], rest: bytes) -> Iterator[Rebuilt]:
    """Yield the envelope with its records in order."""
    ordered = sorted(parts, key=lambda part: part.record)
    if ordered == parts:
        # (the last record of an envelope may be in front of it)
        return
    records = [part.record for part in parts]
    seen = " ".join(
        str(record) for nth, record in enumerate(records) if records[nth - 1 : nth] != [record]
    )
    yield Rebuilt(
        "With the datasets in the order of their records",
        encoded(ordered) + rest,
        f"the records are in the order {seen[:60]}, and must be in the order 1 2 7 8 9",
        "check in which order the sender writes the records",
    )


def _without_repetition(parts: List[Part], rest: bytes) -> Iterator[Rebuilt]:
    """Yield the envelope without what is repeated: exact copies, or the later ones."""
    for is_copy in (True, False):
        seen: Set[Tuple[int, int, bytes]] = set()
        kept: List[Part] = []
        left: List[Part] = []
        for part in parts:
            rule = iim.row(part.record, part.number)
            key = part.record, part.number, part.data if is_copy else b""
            repeats = part.record == 8 or rule is not None and rule.repeats and part.number != 0
            (left if key in seen and not repeats else kept).append(part)
            seen.add(key)
        if left:
            what = "copies" if is_copy else "later ones"
            yield Rebuilt(
                f"Without the {what} of {named(left)}",
                encoded(kept) + rest,
                f"{named(left)} {'is' if len(left) == 1 else 'are'} there twice"
                + (", with the same value" if is_copy else ", with other values"),
                "find out which of the two is meant" if not is_copy else "remove the copy",
            )
            return


def _without_others(parts: List[Part], rest: bytes) -> Iterator[Rebuilt]:
    """Yield the envelope without the datasets that the profile does not have."""
    kept = [part for part in parts if part.record in RECORDS and iim.row(part.record, part.number)]
    left = [part for part in parts if part not in kept]
    if left:
        yield Rebuilt(
            f"Without {named(left)}",
            encoded(kept) + rest,
            f"the sender has {named(left)}, which these records do not have",
            "move the sender's own datasets to record 2",
        )


# The datasets that a missing record gets.
OF_RECORDS: Dict[int, List[Tuple[int, bytes]]] = {
    2: [(0, b"\0\4")],
    7: [(10, b"\0"), (20, b"\0\0\0\1")],
    9: [(10, b"\0\0\0\0")],
}


def _with_records(parts: List[Part], rest: bytes) -> Iterator[Rebuilt]:
    """Yield the envelope with the records that it lacks."""
    end = next(
        (
            nth
            for nth, part in enumerate(parts)
            if nth and part.record == 1 and parts[nth - 1].record > 1
        ),
        len(parts),
    )
    following, own = parts[end:], parts[:end]
    present = {part.record for part in own}
    lacking = [record for record in RECORDS if record not in present]
    if not lacking or 8 in lacking or 1 in lacking:
        return
    made = [*own]
    for record in lacking:
        made += [Part(record, number, data) for number, data in OF_RECORDS[record]]
    made.sort(key=lambda part: part.record)
    which = " and ".join(map(str, lacking))
    yield Rebuilt(
        f"With a record {which} put in",
        encoded(sized(made)) + encoded(following) + rest,
        f"record {which} is missing",
        "check which records the sender writes",
    )


def _with_sizes(parts: List[Part], rest: bytes) -> Iterator[Rebuilt]:
    """Yield the envelope with the sizes that its subfiles have."""
    made = sized(parts)
    for with_mode in (False, True):
        changed = made if not with_mode else _with_mode(made)
        if changed is None or changed == parts:
            continue
        old = {(part.record, part.number): part.data for part in parts if part.record in (7, 9)}
        new = {(part.record, part.number): part.data for part in changed if part.record in (7, 9)}
        how = [
            f"{words.titled(*key)} as {int.from_bytes(new[key], 'big'):,}"
            for key in sorted(new)
            if old.get(key) != new[key]
        ]
        gone = [words.titled(*key) for key in sorted(old) if key not in new]
        how_in_all = [*how, *(f"no {each}" for each in gone)]
        yield Rebuilt(
            f"With {' and '.join(how_in_all)}",
            encoded(changed) + rest,
            "",
            "count the octets that were received: if none are lost, the sender counts wrong",
        )


def _with_mode(parts: List[Part]) -> Optional[List[Part]]:
    """Return the datasets with a size mode that fits them, and without a size that does not."""
    total = sum(len(part.data) for part in parts if part.record == 8)
    announced = any((part.record, part.number) == (7, 90) for part in parts)
    made = []
    for part in parts:
        if (part.record, part.number) == (7, 95) and int.from_bytes(part.data, "big") < total:
            continue
        if (part.record, part.number) == (7, 10):
            part = part._replace(data=b"\1" if announced else b"\0")
        made.append(part)
    return made


def without(octets: bytes, at: int, end: int) -> bytes:
    """Return bytes without those of a span."""
    return octets[:at] + octets[end:]


def object_changed(octets: bytes, change: Callable[[bytes], bytes]) -> Optional[bytes]:
    """Return an envelope whose object is changed, in subfiles and with sizes that fit it.

    Args:
        octets: The envelope, and what follows it.
        change: The change of the object.

    Returns:
        The bytes, or `None` if there is no complete object.
    """
    parts, end = split(octets)
    subfiles = [part.data for part in parts if part.record == 8]
    if not subfiles or parts[-1].record != 9:
        return None
    made = change(b"".join(subfiles))
    if made == b"".join(subfiles):
        return None
    # (the greatest subfile, so that 7:20 still fits)
    most = max(map(len, subfiles)) or 1
    pieces = [made[at : at + most] for at in range(0, len(made), most)] or [b""]
    front = [part for part in parts if part.record < 8]
    back = [part for part in parts if part.record > 8]
    return encoded(sized([*front, *(Part(8, 10, piece) for piece in pieces), *back])) + octets[end:]
