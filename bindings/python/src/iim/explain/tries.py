"""Find the bytes accepted at a rejected byte, and the single-byte fixes.

Each result was tried: the changed bytes were passed to the library in the state before the change.
"""
from __future__ import annotations

import functools
from typing import Dict, FrozenSet, Iterable, List, NamedTuple, Set, Tuple

import iim
from iim.explain import words
from iim.explain.walk import BLOCK, Item, Source, Walk

# The number of bytes before the rejected one that are changed, too: in any dataset, and in a
# message. (A trailer ends within 65 bytes.)
NEAR, NEAR_OF_MESSAGE = 16, 100
# The number of bytes after a change that are tried; an envelope of at most SHORT bytes is tried
# from its beginning, so that no saved state is needed.
REST, SHORT = BLOCK, 4_096
# A change is reported if it makes more than this many further bytes valid.
FURTHER = 8
# The number of tags before the rejected byte that are changed if a dataset is missing or redundant.
HEADS = 40

RECORD, OBJECT, MESSAGE, STORY = "record", "object", "message", "story"
REPEATED, MISSING = 12, 14
# The causes by which a dataset may have the number of another one, or include its bytes.
OF_NUMBERS = 10, 11, REPEATED, MISSING


# All bytes, each tried separately.
SINGLY = [bytes([value]) for value in range(256)]
# The bytes that can be valid in a tag, by their offset in it: the tag marker, a supported record,
# any number, and counts of each form.
IN_HEAD = [[b"\x1c"], [b"\1", b"\2", b"\7", b"\x08", b"\x09"], SINGLY, SINGLY[:129], SINGLY]
# The bytes that can be valid in dates and times.
IN_VALUE = {
    words.DATE: SINGLY[48:58],
    words.PART_DATE: SINGLY[48:58],
    words.TIME: [*SINGLY[48:58], b"+", b"-"],
}


class FixesOfByte(NamedTuple):
    """The results of changing one byte.

    Attributes:
        taken: The values with which the byte rejected before is accepted.
        whole: The values with which the envelope is accepted.
        far: The offset up to which the best value makes the envelope valid.
    """

    taken: FrozenSet[int]
    whole: FrozenSet[int]
    far: int


class Fix(NamedTuple):
    """A change that is reported: any one of some adjacent bytes to any one of some values.

    Attributes:
        order: The sort key, by which the likeliest change is first.
        first: The offset of the first of the bytes.
        last: The offset of the last of the bytes.
        octets: The values.
        whole: Whether the envelope is accepted with the change.
        far: The offset up to which the change makes the envelope valid.
    """

    order: Tuple[int, ...]
    first: int
    last: int
    octets: FrozenSet[int]
    whole: bool
    far: int


class Tries:
    """The changes that are tried on a rejected envelope."""

    def __init__(
        self, source: Source, refusal: iim.RefusedError, walk: Walk, limits: iim.Limits
    ) -> None:
        """Prepare the changes of an envelope.

        Args:
            source: The file.
            refusal: Where and why the envelope was rejected.
            walk: The items of its valid part.
            limits: The limits on records 1 and 2.
        """
        self.source, self.refusal, self.walk, self.limits = source, refusal, walk, limits
        self.at, self.octet = refusal.at, refusal.octet
        self.ends = isinstance(refusal, iim.TruncatedError)
        self.datasets = [item for item in walk.items if item.kind == "dataset"]
        self._short = self.take(0, self.octet + REST) if self.octet <= SHORT else None
        self._kept = -1, b""
        self._start = iim.Receiver(limits)
        self._near = self._start
        before = self.before(self.octet)
        self.place, self.accepted = before.current_position(), before.next_bytes()
        self.here = self.datasets[-1] if self.place.begun in ("tag", "data") else None
        self.begin = self._token()

    def take(self, octet: int, count: int) -> bytes:
        """Return bytes of the envelope."""
        return self.source.take(self.at + octet, count)

    def before(self, octet: int) -> iim.Receiver:
        """Return a receiver in the state before a byte that is not after the rejected one."""
        near = self._near
        if near.octets > octet or near is self._start:
            at, ticket = max(
                (place for place in self.walk.places if place[0] <= octet),
                key=lambda place: place[0],
            )
            near = iim.Receiver.resume(ticket, at, self.limits) if at else iim.Receiver(self.limits)
        while near.octets < octet:
            near.feed(self.take(near.octets, min(BLOCK, octet - near.octets)))
        self._near = near
        return near

    def edited(self, octet: int, cut: int, put: bytes) -> Tuple[int, bool]:
        """Replace `cut` bytes at an offset by others, and try the result.

        Returns:
            The offset, in the unchanged envelope, up to which the result is valid; and whether it
            is a complete envelope.
        """
        if self._short is not None:
            reach, whole = self._start.try_bytes(
                self._short[:octet] + put + self._short[octet + cut :]
            )
        else:
            reach, whole = self.before(octet).try_bytes(put + self._rest(octet + cut))
            reach += octet
        return (reach + cut - len(put) if reach >= octet + len(put) else octet), whole

    def _rest(self, octet: int) -> bytes:
        """Return the bytes from an offset on.

        The last result is cached, since it is used many times in turn.
        """
        if self._kept[0] != octet:
            self._kept = octet, self.take(octet, REST)
        return self._kept[1]

    def of_whole(self, octets: bytes) -> Tuple[int, bool]:
        """Return the size of the valid prefix of these bytes, and whether it is an envelope."""
        return self._start.try_bytes(octets)

    # --- Single-byte fixes

    def _token(self) -> int:
        """Return the offset of the first byte of the rejected token."""
        if (
            self.here is None
            or self.refusal.layer in (MESSAGE, STORY)
            and self.place.begun == "data"
        ):
            return self.octet
        return self.place.first

    def _candidates(self) -> Set[int]:
        """Return the offsets of the bytes that are changed."""
        at, found = self.octet, set(range(self.begin, self.octet + 1))
        found |= set(
            range(max(0, at - (NEAR_OF_MESSAGE if self._is_in_message() else NEAR)), at + 1)
        )
        for item in self.datasets[-3:]:
            found |= set(range(item.at, item.at + item.head))
        for item in self.datasets:
            if item.record == 7 and self.refusal.layer == OBJECT:
                found |= set(range(item.at, item.at + item.length))
        if self.refusal.cause in OF_NUMBERS:
            for item in self.datasets[-HEADS:]:
                found |= set(range(item.at + 2, item.at + item.head))
        return {octet for octet in found if octet <= at and at - octet < REST}

    def _is_in_message(self) -> bool:
        """Check whether a layer of the message rejected the byte."""
        return self.refusal.layer in (MESSAGE, STORY)

    @functools.cached_property
    def fixes(self) -> Dict[int, FixesOfByte]:
        """The results of changing each byte, without those bytes for which no value helps."""
        if self.ends:
            found = (
                range(self.here.at, min(self.here.at + self.here.head, self.octet))
                if self.here and self.here.number is not None
                else range(0)
            )
        else:
            return {
                octet: fix
                for octet in sorted(self._candidates())
                if (fix := self._try_values(octet, self._groups(octet))).taken
            }
        return {octet: fix for octet in found if (fix := self._try_values(octet, SINGLY)).whole}

    def _groups(self, octet: int) -> List[bytes]:
        """Return the groups of values that are tried at an offset.

        The first value of a group is tried first, and the others only if it is accepted. A value in
        no group can't be accepted.
        """
        if octet == self.octet:
            return [bytes([value]) for value in sorted(self.accepted)]
        item = next(
            (item for item in reversed(self.datasets) if item.at <= octet < item.at + item.length),
            None,
        )
        if item is None or item.number is None:
            return SINGLY
        if octet < item.at + item.head:
            return self._groups_of_head(item, min(octet - item.at, len(IN_HEAD) - 1))
        rule = iim.row(item.record, item.number)
        if item.record == 8 or rule and rule.kind in words.TEXTS:
            return words.CLASSES
        if rule and rule.kind in IN_VALUE:
            return IN_VALUE[rule.kind]
        return SINGLY if item is self.here or item.record == 7 else [bytes(range(256))]

    def _groups_of_head(self, item: Item, nth: int) -> List[bytes]:
        """Return the groups of values that are tried in a tag.

        Numbers without a name are one group. In a tag further back only those counts are tried
        after which a tag can begin.
        """
        if nth == 2:
            named = [value for value in range(256) if iim.dataset_name(item.record, value)]
            return [
                *(bytes([value]) for value in named),
                bytes(value for value in range(256) if value not in named),
            ]
        if nth < 3 or item.head != 5 or item in self.datasets[-3:]:
            return IN_HEAD[nth]
        shift, kept = (
            (8, self.take(item.at + 4, 1)[0])
            if nth == 3
            else (0, self.take(item.at + 3, 1)[0] << 8)
        )
        octets = self._rest(item.at + item.head)
        ends = ((value, (value[0] << shift) + kept) for value in IN_HEAD[nth])
        return [value for value, count in ends if octets[count : count + 1] == b"\x1c"]

    def _try_values(self, octet: int, groups: Iterable[bytes]) -> FixesOfByte:
        """Return the results of changing one byte to the values of some groups."""
        now = self.take(octet, 1)
        taken: Set[int] = set()
        whole: Set[int] = set()
        far = 0
        for values in groups:
            for value in values:
                if value == now[0]:
                    continue
                reach, ended = self.edited(octet, 1, bytes([value]))
                if not (reach > self.octet or ended):
                    break
                taken.add(value)
                if ended:
                    whole.add(value)
                far = max(far, reach)
        return FixesOfByte(frozenset(taken), frozenset(whole), far)

    def reported_fixes(self) -> List[Fix]:
        """Return the changes of one byte to report, the likeliest first.

        They are those with which the envelope is accepted. If no change does that, they are those
        that make more of it valid.
        """
        some = any(fix.whole for fix in self.fixes.values())
        reported: List[Fix] = []
        for octet, fix in sorted(self.fixes.items()):
            octets = fix.whole if some else fix.taken
            if not octets or not some and fix.far <= self.octet + FURTHER and octet != self.octet:
                continue
            last = reported[-1] if reported else None
            order = self._order(octet, octets)
            if (
                last
                and last[2:] == (octet - 1, octets, some, fix.far if not some else last.far)
                and last.order == order
            ):
                reported[-1] = last._replace(last=octet)
            else:
                reported.append(Fix(order, octet, octet, octets, some, fix.far))
        return sorted(reported, key=lambda each: (*each.order, -each.first))

    def _order(self, octet: int, octets: FrozenSet[int]) -> Tuple[int, ...]:
        """Return the sort key of a change.

        A changed bit is likelier than a changed byte, and that is likelier than a changed dataset
        number. A byte of the rejected token is likelier than one before it.
        """
        now = self.take(octet, 1)[0]
        of_number = any(octet == item.at + 2 for item in self.datasets)
        bits = min(bin(now ^ value).count("1") for value in octets)
        likely = 2 if of_number else 0 if bits == 1 else 1
        return likely, int(not self.begin <= octet <= self.octet)
