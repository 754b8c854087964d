"""Explain a refusal: where it is, why, what to do, and which bytes are accepted."""
from __future__ import annotations

from typing import TYPE_CHECKING, FrozenSet, Iterator, List, NamedTuple, Optional

import iim
from iim.explain import recognition, words
from iim.explain.causes import sentence
from iim.explain.tries import Fix, Tries
from iim.explain.walk import BLOCK, Item
from iim.explain.words import counted, fitted, name, names, shown, titled

if TYPE_CHECKING:
    from iim.explain.case import Case, Whole
    from iim.explain.findings import Finding

# The number of changes that are shown.
CHANGES = 5

NOTE = (
    "Nothing was repaired, and nothing after the refused octet was interpreted. Each change named"
    " here was tried."
)
EMPTY = (
    "The file has no octets. check prints nothing for it and exits with 0: check whether the"
    " transfer has started."
)
# What the bytes of a tag are, by their offset in it.
PARTS_OF_TAG = "the tag marker", "the record", "", "the count"


class Section(NamedTuple):
    """A section of the explanation.

    Attributes:
        title: The heading.
        lines: The paragraphs. One that begins with a number and a point is an item of a list.
    """

    title: str
    lines: List[str]


def sections(case: Case) -> Iterator[Section]:
    """Yield the sections that explain a refusal or an empty file."""
    if not case.source.size:
        yield Section("Empty file", [EMPTY])
    refused = case.refused
    if refused is None or refused.tries is None or refused.refusal is None:
        return
    refusal, tries = refused.refusal, refused.tries
    yield Section("Where", list(where(refusal, tries)))
    yield Section("Why", list(why(case, refusal, tries, refused)))
    yield Section("What to do", list(what_to_do(case)))
    if case.findings is None or not case.findings.is_foreign:
        title = "Bytes accepted next" if tries.ends else "Bytes accepted there"
        yield Section(title, list(accepted(tries)))
    yield Section("Note", [NOTE])


def where(refusal: iim.RefusedError, tries: Tries) -> Iterator[str]:
    """Yield sentences on the position of the rejected byte."""
    at, here = tries.octet, tries.here
    what = "The file ends after octet" if tries.ends else "Octet"
    in_file = f"octet {refusal.octet_in_file:,} of the file"
    hexadecimal = f"(hexadecimal {refusal.octet_in_file:X})"
    yield f"{what} {at:,} of envelope {refusal.nth:,}, which is {in_file} {hexadecimal}."
    if here is None:
        before = ""
        if tries.datasets:
            before = f", after {titled(tries.datasets[-1].record, tries.datasets[-1].number)}"
        yield f"It is between datasets{before}, where a tag must begin."
        return
    size = "its count is incomplete"
    if here.size is not None:
        size = f"it has {counted(here.size, 'octet')} of data"
    is_in_data = tries.place.begun == "data"
    received = at - here.at - (here.head if is_in_data else 0)
    named = here.label if here.number is not None else "a dataset whose number was not received"
    yield f"It is in {named}, which begins at {here.at:,}; {size}."
    part = "data" if is_in_data else "head"
    yield f"That is in its {part}, after {counted(received, 'octet')} of it."
    if is_in_data and here.record == 8 or refusal.cause == 32:
        yield f"In the message: {words.PARTS[tries.place.part]}."
        row = words.OF_ROW[tries.place.part]
        yield " ".join(f">{part}<" if nth == row else part for nth, part in enumerate(words.ROW))


def why(case: Case, refusal: iim.RefusedError, tries: Tries, whole: Whole) -> Iterator[str]:
    """Yield sentences on the cause, the numbers seen, and the likely reason."""
    here = tries.here
    named = f"Cause {refusal.cause} {refusal.cause_name}"
    on = f"on {titled(refusal.record, refusal.number)}, layer {refusal.layer}"
    kind = case.findings.kind if case.findings else None
    if kind is not None:
        detail = recognition.described(case.findings.octets) if case.findings else ""
        yield f"The file is {kind.name}{f' ({detail})' if detail else ''}. It is no IIM."
    yield f"{sentence(refusal.cause)} ({named} {on}.)"
    rule = iim.row(refusal.record, refusal.number)
    if refusal.cause == 13 and rule and here and here.size is not None:
        valid = f"size is {rule.least:,}"
        if rule.least < rule.greatest:
            valid = f"sizes are {rule.least:,} to {rule.greatest:,}"
        yield f"Its count is {here.size:,}; the valid {valid}."
    if refusal.cause in (13, 15) and rule and here and here.size is not None:
        yield from value_at_fault(tries, here, here.size, rule)
    if refusal.layer == "object":
        yield from whole.sizes()
    if refusal.cause == 25 and here and here.size is not None:
        yield f"9:10 confirms {int.from_bytes(tries.take(tries.begin, here.size), 'big'):,}."
    if refusal.cause in (50, 51):
        yield from over_limit(case, tries)
    yield f"Likely reason: {case.reason.reason}."


def over_limit(case: Case, tries: Tries) -> Iterator[str]:
    """Yield a sentence on the datasets and bytes that exceed a limit."""
    items = [item for item in tries.datasets if item.record in (1, 2) and item.size is not None]
    octets = sum(item.size or 0 for item in items)
    limits = case.limits
    if tries.refusal.cause == 50:
        yield f"With it, records 1 and 2 have {octets:,} octets of data; at most {limits.octets:,}."
    else:
        yield f"With it, records 1 and 2 have {len(items):,} datasets; at most {limits.fields:,}."


def value_at_fault(tries: Tries, here: Item, size: int, rule: iim.Rule) -> Iterator[str]:
    """Yield sentences on an invalid value."""
    begin = here.at + here.head
    value = tries.take(begin, min(size, BLOCK))
    if not value:
        return
    raw = value[:16].hex(" ").upper() + " ..." * (size > 16)
    yield f"It must be {words.KINDS[rule.kind]}. It is {raw}, '{fitted(shown(value, 24), 60)}'."
    if tries.refusal.cause == 15 and rule.kind in words.TEXTS and here.number is not None:
        of_octets = {octet: bytes([octet]) * max(1, rule.least) for octet in set(value)}
        bad = [
            f"octet {begin + nth:,} ({name(octet)})"
            for nth, octet in enumerate(value)
            if not iim.admits(here.record, here.number, of_octets[octet])
        ]
        if bad:
            more = f" and {counted(len(bad) - 6, 'other')}" * (len(bad) > 6)
            yield f"Invalid: {', '.join(bad[:6])}{more}."


def what_to_do(case: Case) -> Iterator[str]:
    """Yield the advice, the findings with their numbers, and which envelope to ask for again."""
    if case.reason.advice:
        advice = case.reason.advice
        yield f"First: {advice}."
    findings = case.findings.all if case.findings else []
    shown_first = findings if case.shows_all else findings[:CHANGES]
    for nth, each in enumerate(shown_first):
        yield f"{nth + 1}. {each.text}"
    if len(findings) > len(shown_first):
        yield f"These are {len(shown_first)} of {len(findings)}: --all prints all."
    yield case.ask


def present(tries: Tries, octet: int) -> str:
    """Return the name of the byte that is at an offset now, in parentheses."""
    return f" (now {name(tries.take(octet, 1)[0], is_raw(tries, octet))})"


def accepted(tries: Tries) -> Iterator[str]:
    """Yield sentences on the bytes that are accepted in place of the rejected one, or next."""
    now = "" if tries.ends else present(tries, tries.octet)
    yield f"At octet {tries.octet:,}{now}: {in_place(tries, tries.octet, tries.accepted)}."
    if not tries.accepted:
        yield "So the error is before it."
    fix = tries.fixes.get(tries.octet)
    if fix and fix.whole and fix.whole == tries.accepted:
        yield f"With {'any of these' if len(fix.whole) > 1 else 'it'} the envelope is accepted."


def fix_in_words(tries: Tries, fix: Fix) -> str:
    """Return a sentence on a single-byte change."""
    first, last = fix.first, fix.last
    which = f"Octet {first:,}" if first == last else f"One of the octets {first:,} to {last:,}"
    so = "the envelope is accepted" if fix.whole else f"it is valid up to octet {fix.far:,}"
    now = present(tries, first) if first == last else ""
    return f"{which}{now} as {in_place(tries, first, fix.octets)}: {so}."


def is_raw(tries: Tries, octet: int) -> bool:
    """Check whether a byte is part of a tag or of a binary number."""
    found = (each for each in reversed(tries.datasets) if each.at <= octet < each.at + each.length)
    item = next(found, None)
    if item is None or octet < item.at + item.head:
        return True
    rule = iim.row(item.record, item.number) if item.number is not None else None
    return item.record != 8 and rule is not None and rule.kind > words.TIME


def in_place(tries: Tries, octet: int, octets: FrozenSet[int]) -> str:
    """Return the bytes that are accepted at an offset, in words, and their meaning in a tag."""
    named = names(octets, is_raw(tries, octet))
    found = (each for each in reversed(tries.datasets) if each.at <= octet < each.at + each.head)
    item = next(found, None)
    if not item or not octets:
        return named
    nth = octet - item.at
    if nth == 2:
        return in_number(item, named, octets)
    if nth == 4 and item.head == 5:
        counts = sorted((tries.take(octet - 1, 1)[0] << 8) + value for value in octets)
        of = " or ".join(f"{count:,}" for count in counts)
        if len(counts) > 3:
            of = f"{counts[0]:,} to {counts[-1]:,}"
        return f"{named}, a count of {of} for {item.label}"
    return f"{named}, {PARTS_OF_TAG[min(nth, 3)]} of the dataset at {item.at:,}"


def in_number(item: Item, named: str, octets: FrozenSet[int]) -> str:
    """Return the numbers that are accepted for a dataset, in words, and the datasets' names."""
    has_name = (value for value in sorted(octets) if iim.dataset_name(item.record, value))
    titles = [titled(item.record, value) for value in has_name]
    first = ", ".join(titles[:3]) + " or others" * (len(octets) > min(3, len(titles)))
    if len(octets) > 8:
        return f"one of {len(octets)} other numbers" + f", such as {first}" * bool(titles)
    return f"{named}, dataset {first}" if titles else named


def ask_of(finding: Optional[Finding]) -> bool:
    """Check whether nothing has to be sent again, since the file has all octets in another form."""
    return (
        finding is not None
        and finding.kind == "inside"
        and bool(finding.outcome and finding.outcome.is_all)
    )
