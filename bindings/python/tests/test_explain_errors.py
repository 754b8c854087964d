"""The byte at fault, and the fixes, that an explanation names."""
from __future__ import annotations

import concurrent.futures
import functools
import os
import random
import re
import time
from typing import (
    Callable,
    Dict,
    Iterable,
    List,
    NamedTuple,
    Optional,
    Sequence,
    Set,
    Tuple,
    TypeVar,
)

import envelopes
import iim
import pytest
import rules
import tickets
from envelopes import SMALLEST, STORY
from iim import _library
from iim.explain import (
    causes as explain_causes,
    words as explain_words,
)
from iim.explain.case import Case
from support.bindings.comparing import by_rules
from support.bindings.explaining import (
    accepted_after,
    case_of,
    explained_samples,
    reach,
    printed_text,
    unwrapped,
)


T = TypeVar("T")
Result = TypeVar("Result")
# An envelope, the offset of a byte in it, and the value in its place.
Change = Tuple[bytes, int, int]
# A change whose fix is not reported: the size of the envelope, the change, and the refusal.
Lost = Tuple[int, int, int, str]
# The number of single-byte changes tried, and the number whose output is checked.
CHANGES, PRINTED = 3_000, 228
# The number of fixes, the likeliest ones, among which the undone change must be.
FIXES = 16
# An explanation may take the processor time of so many calls of `iim_check` on an envelope of 246
# bytes, which is measured by this many calls for each fifty explanations. (It takes that of 4,000.)
MOST_CALLS, BASELINE_CALLS = 9_000, 20_000


class Tried(NamedTuple):
    """The changes whose fix is not reported, and the numbers of refusals and wrong fixes."""

    lost: List[Lost]
    refused: int
    false: int


class Timed(NamedTuple):
    """Results, and the processor time of the explanations and of as many calls of `iim_check`."""

    tried: Tried
    used: float
    baseline: float


def refused_by_rules(many: Iterable[bytes]) -> int:
    """Return how many inputs the test oracle rejects."""
    return sum(by_rules(octets).startswith("refused ") for octets in many)


def names_the_place(octets: bytes, case: Case, text: str) -> None:
    """Check the refusal against `check`, and the part of the message against the test oracle."""
    refused, tries = case.refusal, case.wholes[-1].tries
    assert refused and tries
    at = refused.at
    assert str(refused).partition(" ")[2] == by_rules(octets[at:])
    plain = unwrapped(text)
    named = f"{refused.record}:{refused.number:02}"
    place = f"ctet {refused.octet:,} of envelope {refused.nth:,}, which is octet"
    assert f"{place} {refused.octet_in_file:,} of the file" in plain, text
    assert re.search(
        rf"\(Cause {refused.cause} {refused.cause_name} on {named}\b.*?, layer {refused.layer}\.\)",
        plain,
    ), text
    assert explain_causes.sentence(refused.cause) in plain, text
    before = rules.read(octets[at : at + refused.octet])
    part = ticket_part(tickets.ticket(before))
    assert tries.place.part == part
    is_in_data = tries.place.begun == "data"
    assert tries.here or not is_in_data
    if is_in_data and tries.here and tries.here.record == 8:
        assert f"In the message: {explain_words.PARTS[part]}." in plain, text


def ticket_part(ticket: Optional[bytes]) -> int:
    """Return the part of the message that a ticket encodes."""
    assert ticket is not None
    message = _library.Message()
    _library.library.iim_header(ticket, len(ticket), message, _library.Answer())
    part: int = message.part
    return part


def could_stand(octets: bytes, case: Case) -> None:
    """Check the bytes accepted in place of the rejected one by trying each byte."""
    refused, tries = case.refusal, case.wholes[-1].tries
    assert refused and tries
    at, octet = refused.at, refused.octet
    front = octets[at : at + octet]
    assert set(tries.accepted) == accepted_after(front)


@functools.lru_cache(maxsize=None)
def part_after(front: bytes) -> int:
    """Return the part of the message in which a prefix of an envelope ends, by the test oracle."""
    return ticket_part(tickets.ticket(rules.read(front)))


def named(many: Iterable[bytes]) -> int:
    """Check each refusal against `check` and the test oracle, and return how many there are.

    The bytes accepted and the text are not checked.
    """
    count = 0
    for octets in many:
        refusal = case_of(octets).refusal
        try:
            iim.check(octets)
            assert refusal is None
        except iim.RefusedError as checked:
            assert refusal and str(refusal) == str(checked)
            part = iim.Receiver.resume(refusal.ticket, refusal.octet).current_position().part
            assert (str(refusal), part) == (str(checked), part_after(octets[: checked.octet]))
            count += 1
    return count


def explained(octets: bytes) -> Optional[Tuple[Case, str]]:
    """Check the explanation of an input, and return it, or `None` if the input is accepted."""
    case = case_of(octets)
    text = printed_text(case)
    assert all(len(line) <= 80 for line in text.splitlines()), max(text.splitlines(), key=len)
    if case.refusal is None:
        return None
    names_the_place(octets, case, text)
    could_stand(octets, case)
    return case, text


def all_explained(many: Iterable[bytes]) -> int:
    """Check the explanations of inputs, and return how many are rejected."""
    return sum(explained(octets) is not None for octets in many)


def side_by_side(function: Callable[[List[T]], Result], things: List[T]) -> List[Result]:
    """Return a function's results for parts of a list, computed in one process per processor."""
    count = 4 * (os.cpu_count() or 1)
    parts = [things[at::count] for at in range(count)]
    with concurrent.futures.ProcessPoolExecutor() as pool:
        return list(pool.map(function, [part for part in parts if part]))


def test_locates_the_error_of_each_sample() -> None:
    for name, (octets, lines) in explained_samples().items():
        case = case_of(octets)
        text = printed_text(case)
        accepted = [
            f"{found.nth} accepted {found.length} octets"
            for found in case.listed()
            if not case.refusal or found.nth < case.refusal.nth
        ]
        assert (name, accepted + ([str(case.refusal)] if case.refusal else [])) == (name, lines)
        if case.refusal:
            explained(octets)
        assert all(len(line) <= 80 for line in text.splitlines()), name


def test_locates_the_error_of_each_prefix() -> None:
    fronts = [whole[:count] for whole in (SMALLEST, STORY) for count in range(1, len(whole))]
    assert sum(side_by_side(all_explained, fronts)) == len(fronts)


def test_locates_the_error_of_each_change() -> None:
    changes = [
        SMALLEST[:at] + bytes([value]) + SMALLEST[at + 1 :]
        for at in range(len(SMALLEST))
        for value in range(256)
        if value != SMALLEST[at]
    ]
    assert len(changes) == 114 * 255
    refused = sum(side_by_side(named, changes))
    assert refused == sum(not envelope.is_done for _, envelope in rules.read_changes(SMALLEST))
    # (and the whole explanation of some)
    some = random.Random(11).sample(changes, PRINTED)
    assert sum(side_by_side(all_explained, some)) == refused_by_rules(some)


def change_explained(changes: Sequence[Change]) -> Tried:
    """Return the changes whose fix is not reported, and the numbers of refusals and wrong fixes."""
    lost: List[Lost] = []
    refused = false = 0
    for whole, at, value in changes:
        octets = whole[:at] + bytes([value]) + whole[at + 1 :]
        case = case_of(octets)
        if case.refusal is None:
            continue
        refused += 1
        tries = case.wholes[-1].tries
        assert tries
        outputs = tries.reported_fixes()[:FIXES]
        there = any(each.first <= at <= each.last and whole[at] in each.octets for each in outputs)
        if not there and not (at == case.refusal.octet and whole[at] in tries.accepted):
            lost.append((len(whole), at, value, str(case.refusal)))
        for each in outputs:
            for octet in random.Random(at).sample(sorted(each.octets), min(3, len(each.octets))):
                valid, is_whole = reach(
                    octets[: each.first] + bytes([octet]) + octets[each.first + 1 :]
                )
                false += is_whole != each.whole or not is_whole and valid <= case.refusal.octet
    return Tried(lost, refused, false)


def timed(changes: Sequence[Change]) -> Timed:
    """Try changes, and measure the processor time of that, and of some calls of `iim_check`.

    Both are measured in turn in one process, so that other work of the machine slows both.
    """
    used = baseline = 0.0
    parts = []
    for first in range(0, len(changes), 50):
        begun = time.process_time()
        for _ in range(BASELINE_CALLS):
            reach(STORY)
        middle = time.process_time()
        parts.append(change_explained(changes[first : first + 50]))
        used += time.process_time() - middle
        baseline += (middle - begun) * 50 / BASELINE_CALLS
    lost = [each for part in parts for each in part.lost]
    refused, false = sum(part.refused for part in parts), sum(part.false for part in parts)
    return Timed(Tried(lost, refused, false), used, baseline)


@pytest.mark.xdist_group("alone")
def test_finds_the_byte_that_was_changed() -> None:
    chance = random.Random(7)
    changes: List[Change] = []
    while len(changes) < CHANGES:
        whole = chance.choice([SMALLEST, STORY])
        at = chance.randrange(len(whole))
        values = [value for value in range(256) if value != whole[at]]
        changes.append((whole, at, chance.choice(values)))
    found = side_by_side(timed, changes)
    assert [each for part in found for each in part.tried.lost] == []
    assert sum(part.tried.false for part in found) == 0
    assert sum(part.tried.refused for part in found) > CHANGES // 2, "few are refused"
    calls = sum(part.used for part in found) / sum(part.baseline for part in found)
    assert calls <= MOST_CALLS, f"an explanation takes the time of {calls:.0f} calls of iim_check"


# A release time with no sign, after a dataset of three octets and one of eight.
UNSIGNED = rules.packed(
    [*envelopes.SMALLEST_FIELDS, (2, 201, b"\1" * 8), (2, 200, b"abc"), (2, 35, b"120000x0000")],
    rules.object_of(envelopes.SMALLEST_HEAD, [b""], b""),
    1024,
)


# The offsets of its single-byte fixes, the likeliest first: one bit of the count before it, by
# which the time is data of that dataset; the byte that is no sign; and one byte of the count before
# that. Another number of its dataset would keep the bad value, and is not offered.
MENDING, NUMBER = [79, 94, 66], 85


def test_lists_the_likeliest_fix_first() -> None:
    case = case_of(UNSIGNED)
    tries = case.wholes[-1].tries
    assert case.refusal and tries
    assert str(case.refusal) == "1 refused at octet 98 by layer record on 2:35, cause 15 BadValue"
    whole: Dict[int, Set[int]] = {}
    for at in range(case.refusal.octet + 1):
        for value in range(256):
            if (
                value != UNSIGNED[at]
                and reach(UNSIGNED[:at] + bytes([value]) + UNSIGNED[at + 1 :])[1]
            ):
                whole.setdefault(at, set()).add(value)
    assert sorted(whole) == sorted([*MENDING, NUMBER])
    assert (whole[79], whole[94], whole[66]) == ({UNSIGNED[79] ^ 0x10}, set(b"+-"), {0x20})
    outputs = tries.reported_fixes()
    assert [(each.first, each.last, each.octets, each.whole) for each in outputs] == [
        (at, at, frozenset(whole[at]), True) for at in [*MENDING, NUMBER]
    ]
    printed = printed_text(case).partition("WHAT TO DO\n")[2].partition("\n\n")[0]
    assert re.findall(r"\d\. Octet (\d+) ", printed) == [str(at) for at in MENDING]
    # (if no fix makes the envelope complete, the fixes that make more of it valid have the same
    # order)
    damaged = case_of(UNSIGNED[:-1] + bytes([UNSIGNED[-1] ^ 1])).wholes[-1].tries
    assert damaged
    further = damaged.reported_fixes()
    bits = [
        min(bin(UNSIGNED[each.first] ^ octet).count("1") for octet in each.octets)
        for each in further
    ]
    kinds = [2 if each.first == 85 else int(least > 1) for each, least in zip(further, bits)]
    assert (kinds, {each.whole for each in further}) == (sorted(kinds), {False})
    assert set(kinds) == {0, 1, 2}
