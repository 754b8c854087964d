"""Strategies of hypothesis for all parts of the format, valid and invalid.

Each strategy shrinks to its smallest example: an invalid envelope shrinks to a few octets with one
fault. Results that are called *damaged*, *spoiled* or *changed* may still be valid: the rules in
tests/rules.py decide. Strategies for saved states are in `vectors.ticket_strategies`.

An envelope is made with few draws, and strategies with parameters are made once (`once`), since
otherwise most of the time would be spent on making strategies.
"""
from __future__ import annotations

import functools
import math
from typing import Any, Callable, Collection, FrozenSet, List, Sequence, Tuple, TypeVar, cast

import rules
from envelopes import LINE, OTHERS, SETS, SMALLEST, STORY, as_asked, counted
from hypothesis import settings
from hypothesis import strategies as st
from hypothesis.strategies import DrawFn, SearchStrategy
from rules import DIGITS, FILLER, GREATEST, LETTERS, ROWS, SPACED, TRAILER, Row

T = TypeVar("T")
Maker = TypeVar("Maker", bound=Callable[..., Any])
Field = Tuple[int, int, bytes]
ANY = frozenset(range(256))


def examples(count: int) -> settings:
    """Return settings for a number of examples in the gate, in proportion in other profiles."""
    return settings(max_examples=max(1, count * settings.default.max_examples // 100))


def once(function: Maker) -> Maker:
    """Return a function that makes each of its strategies once."""
    return cast(Maker, functools.lru_cache(maxsize=None)(function))


# --- Choices, octets and numbers ---


@once
def up_to(most: int, least: int = 0) -> SearchStrategy[int]:
    """Generate a number from 0 to a maximum."""
    return st.integers(least, most)


def choose(draw: DrawFn, options: Sequence[T]) -> T:
    """Draw one of the options. Draws shrink to the first option."""
    return options[draw(up_to(len(options) - 1))]


@once
def fixed(size: int) -> SearchStrategy[bytes]:
    """Generate this number of octets, in one draw."""
    return st.binary(min_size=size, max_size=size)


def in_any_order(draw: DrawFn, items: Sequence[T]) -> List[T]:
    """Draw an order of the items, as the number of a permutation.

    Draws shrink to the given order.
    """
    left, found = list(items), []
    number = draw(up_to(math.factorial(len(left)) - 1))
    while left:
        number, at = divmod(number, len(left))
        found.append(left.pop(at))
    return found


@once
def table_of(kind: FrozenSet[int]) -> bytes:
    """Return a table that maps each octet to one of a kind."""
    letters = sorted(kind)
    return bytes(letters[octet % len(letters)] for octet in range(256))


def draw_octets(draw: DrawFn, kind: Collection[int], least: int, most: int) -> bytes:
    """Draw octets of a kind: mostly few, sometimes one octet repeated up to the maximum."""
    few = min(most, least + 12)
    size = draw(up_to(few + (1 if most > 64 else 3), least))
    if size > few:
        octets = draw(fixed(1)) * most
    else:
        octets = draw(fixed(size))
    return octets.translate(table_of(frozenset(kind)))


@once
@st.composite
def octets_of(draw: DrawFn, kind: FrozenSet[int], least: int, most: int) -> bytes:
    """Generate octets of a kind: mostly few, sometimes one octet repeated up to the maximum."""
    return draw_octets(draw, kind, least, most)


def rarely(draw: DrawFn, kind: Collection[int], most: int) -> bytes:
    """Draw nothing, or in a third of the examples octets of a kind."""
    return draw_octets(draw, kind, 0, most) if choose(draw, [False, False, True]) else b""


def draw_number(draw: DrawFn, number: int) -> bytes:
    """Encode a number in 1 to 8 octets: the fewest that hold it, or more."""
    least = max(1, (number.bit_length() + 7) // 8)
    return number.to_bytes(draw(up_to(8, least)), "big")


def draw_near(draw: DrawFn, number: int, most: int = 2**64 - 1) -> int:
    """Draw a number near another one, or at a bound."""
    bounds = 0, 1, most, GREATEST, GREATEST + 1, 2**32
    others = number - 1, number + 1, number + draw(up_to(100)), *bounds
    return min(most, max(0, choose(draw, others)))


# --- Values, datasets and records ---

YEARS = [2024, 2023, 2000, 1999, 1900, 400, 100, 4, 1, 9999]
LIKE_YEARS = [2024, 2023, 2000, 1900, 1, 0, 9999]


@st.composite
def dates(draw: DrawFn) -> bytes:
    """Generate a date of the calendar."""
    year = choose(draw, [*YEARS, draw(up_to(9999, 1))])
    month = choose(draw, [1, 2, 2, *range(3, 13)])
    day = choose(draw, [1, 28, 29, 30, 31])
    return b"%04d%02d%02d" % (year, month, day if rules.is_day(year, month, day) else 28)


@st.composite
def part_dates(draw: DrawFn) -> bytes:
    """Generate a date whose month, or day, or both may be unknown."""
    whole = draw(DATES)
    return whole[:4] + choose(draw, [whole[4:], whole[4:6] + b"00", b"0000", b"0001", b"0031"])


@st.composite
def any_dates(draw: DrawFn) -> bytes:
    """Generate a date, or eight digits that look like one."""
    how = draw(up_to(3))
    if how >= 2:
        return draw(DATES if how == 2 else PART_DATES)
    year, month = choose(draw, LIKE_YEARS), choose(draw, [2, 1, 2, 4, 11, 12, 0, 13])
    return b"%04d%02d%02d" % (year, month, choose(draw, [1, 0, 28, 29, 30, 31, 32]))


@st.composite
def times(draw: DrawFn) -> bytes:
    """Generate a time with its offset."""
    hour, minute, second, offset, more = (
        choose(draw, [0, most, draw(up_to(most))]) for most in (23, 59, 59, 23, 59)
    )
    return b"%02d%02d%02d%c%02d%02d" % (hour, minute, second, choose(draw, b"+-"), offset, more)


DATES, PART_DATES, TIMES = dates(), part_dates(), times()
BY_FORM = {"Date": DATES, "PartDate": PART_DATES, "Time": TIMES}


@once
def values(row: Row) -> SearchStrategy[bytes]:
    """Generate octets that a row of records 1 and 2 accepts."""
    if row.kind in BY_FORM:
        return BY_FORM[row.kind]
    return octets_of(frozenset(SETS.get(row.kind, ANY)), row.least, row.most)


@once
@st.composite
def wrong_values(draw: DrawFn, record: int, dataset: int) -> bytes:
    """Generate octets with too few, too many, or one changed."""
    row = rules.row_of(record, dataset) or rules.OTHER
    octets = draw(values(row._replace(most=min(row.most, 2000))))
    how = draw(up_to(3))
    if how == 0:
        return octets + b"0" * (min(row.most, 9000) + 1 - len(octets))
    if how == 1:
        return octets[: max(row.least - 1, 0)]
    at = draw(up_to(max(0, len(octets) - 1)))
    octet = choose(draw, b"\0\t\n\r /:@[`{\x7f\x80\xff" + draw(fixed(1)))
    return octets[:at] + bytes([octet]) + octets[at + 1 :]


@once
@st.composite
def datasets_of(draw: DrawFn, record: int, others: int = 0) -> List[Field]:
    """Generate the datasets of record 1 or 2 in any order: the mandatory ones and some others."""
    known = [key[1] for key in ROWS if key[0] == record]
    found = list(rules.MANDATORY[record])
    for _ in range(draw(up_to(4))):
        each = choose(draw, known)
        if ROWS[record, each].repeats:
            found += [each] * draw(up_to(3, 1))
        elif each not in found:
            found.append(each)
    unknown = [each for each in range(256) if each not in known]
    found += [choose(draw, unknown) for _ in range(draw(up_to(others)))]
    fields = []
    for each in in_any_order(draw, found):
        octets = draw(values(rules.row_of(record, each) or rules.OTHER))
        fields.append(as_asked(record, each, octets))
    return fields


# --- Messages ---

LINE_ENDS = b"\n", b"\r\n", b"\r\r\n"


@once
@st.composite
def lines(draw: DrawFn, most: int = 5) -> List[bytes]:
    """Generate the lines of a story."""
    kinds: List[Collection[int]] = [LINE, b"ab \t"]
    return [draw_octets(draw, choose(draw, kinds), 0, 30) for _ in range(draw(up_to(most, 1)))]


def draw_text(draw: DrawFn, found: Sequence[bytes]) -> bytes:
    """Draw the line ends of lines."""
    return b"".join(line + choose(draw, LINE_ENDS) for line in found[:-1]) + found[-1]


@st.composite
def heads(draw: DrawFn) -> List[bytes]:
    """Generate the parts of a message's header. The info is often empty."""
    parts = (LETTERS, 8), (DIGITS, 8), (DIGITS, 1), (LETTERS | DIGITS, 8), (DIGITS, 6)
    found = [draw_octets(draw, kind, 1, most) for kind, most in parts]
    return [*found, rarely(draw, SPACED, 64)]


@st.composite
def parts_of_messages(draw: DrawFn) -> List[bytes]:
    """Generate the parts of a message in order, with the marks between them."""
    front, back = (rarely(draw, FILLER, 32) for _ in range(2))
    source, number, priority, category, words, info = draw(HEADS)
    info = b" " + info if info or draw(up_to(1)) else b""
    gap = choose(draw, [b"\n", b"\r\n", b""]) or draw_octets(draw, FILLER, 0, 31) + b"\n"
    text, tail = draw_text(draw, draw(lines())), rarely(draw, TRAILER, 64)
    header = [source, number, b" ", priority, b" ", category, b" ", words, info]
    return [front, b"\1", *header, gap, b"\2", text, b"\3", tail, b"\4", back]


HEADS, PARTS = heads(), parts_of_messages()


def messages() -> SearchStrategy[bytes]:
    """Generate the octets of a message."""
    return MESSAGES


@st.composite
def wrong_messages(draw: DrawFn) -> bytes:
    """Generate the octets of a message with one part replaced."""
    found, at = draw(PARTS), draw(up_to(len(OTHERS) - 1))
    found[at] = choose(draw, OTHERS[at])
    return b"".join(found)


MESSAGES, WRONG_MESSAGES = PARTS.map(b"".join), wrong_messages()


# --- Sizes, subfiles and envelopes ---


def draw_subfiles(draw: DrawFn, octets: bytes, most: int) -> List[bytes]:
    """Draw subfiles of at most this many octets for an object, some of them empty."""
    found: List[bytes] = []
    while octets or not found:
        size = choose(draw, [most, most, 0, draw(up_to(most, 1))]) if len(found) < 20 else most
        found.append(octets[:size])
        octets = octets[size:]
    return found + [b""] * choose(draw, [0, 0, 1])


def draw_sizes(draw: DrawFn, size: int) -> List[Field]:
    """Draw the datasets of record 7 for an object of this size, in any order."""
    most = choose(draw, [1024, 1, 7, size or 1, 2**31, 2**40, GREATEST])
    is_known = draw(up_to(1))
    found = [(7, 20, draw_number(draw, most)), (7, 10, bytes([is_known]))]
    if is_known:
        found.append((7, 90, draw_number(draw, size)))
    bound = choose(draw, [None, None, size, size + 1, 2**32, GREATEST])
    if bound is not None:
        found.append((7, 95, draw_number(draw, bound)))
    return in_any_order(draw, found)


def draw_datasets(draw: DrawFn, octets: bytes) -> List[Field]:
    """Draw the datasets of a valid envelope with this object."""
    found = draw(datasets_of(1, 1)) + draw(datasets_of(2, 3))
    sizes = draw_sizes(draw, len(octets))
    (most,) = (rules.number(data) for _, dataset, data in sizes if dataset == 20)
    parts = draw_subfiles(draw, octets, max(1, min(most, len(octets))))
    found += [*sizes, *((8, 10, part) for part in parts)]
    return [*found, (9, 10, draw_number(draw, len(octets)))]


def draw_encoded(draw: DrawFn, found: Sequence[Field]) -> bytes:
    """Draw the octets of datasets, with counts of all forms."""
    octets = b""
    for each, form in zip(found, draw(fixed(len(found)))):
        least = max(1, (len(each[2]).bit_length() + 7) // 8)
        is_short = len(each[2]) <= 0x7FFF and form < 0xC0
        octets += counted(each, 0 if is_short else max(least, form % 8 + 1))
    return octets


@st.composite
def records(draw: DrawFn) -> List[Field]:
    """Generate the datasets of a valid envelope."""
    return draw_datasets(draw, draw(MESSAGES))


@st.composite
def valid_envelopes(draw: DrawFn) -> bytes:
    """Generate the octets of a valid envelope."""
    return draw_encoded(draw, draw(RECORDS))


RECORDS, ENVELOPES = records(), valid_envelopes()


def envelopes() -> SearchStrategy[bytes]:
    """Generate a valid envelope."""
    return ENVELOPES


# --- Damage ---


def draw_wrong_size(draw: DrawFn, data: bytes) -> bytes:
    """Draw a number near another one, or octets that do not encode a number."""
    change = choose(draw, [1, -1, -2, 256, None, None])
    if change is None:
        return choose(draw, [b"\0", b"", b"\0" + data, b"\xff", b"\xff" * 8, b"\xff" * 9])
    size = max(0, rules.number(data) + change)
    return size.to_bytes(max(len(data), (size.bit_length() + 7) // 8), "big")


def draw_renumbered(draw: DrawFn, field: Field) -> Field:
    """Draw a dataset with another record or another number."""
    record, dataset, data = field
    if draw(up_to(1)):
        return choose(draw, [0, 1, 2, 3, 7, 8, 9, 255]), dataset, data
    return record, choose(draw, [10, 20, 90, 95, draw(up_to(255))]), data


def draw_spoiled(draw: DrawFn, given: Sequence[Field]) -> List[Field]:
    """Draw datasets with one missing, doubled, moved, renumbered or changed."""
    found = list(given) or [(1, 0, b"\0\4")]
    last, how = len(found) - 1, draw(up_to(5))
    at = draw(up_to(last))
    record, dataset, data = found[at]
    if how == 0:
        del found[at]
    elif how == 1:
        found.insert(choose(draw, [at, draw(up_to(last))]), found[at])
    elif how == 2:
        found.insert(draw(up_to(last)), found.pop(at))
    elif how == 3:
        found[at] = draw_renumbered(draw, found[at])
    elif record in (7, 9):
        found[at] = record, dataset, draw_wrong_size(draw, data)
    else:
        found[at] = record, dataset, draw(wrong_values(record, dataset))
    return found


def draw_resized(draw: DrawFn, given: Sequence[Field]) -> List[Field]:
    """Draw datasets with one changed whose value depends on other datasets."""
    found = list(given)
    special = [at for at, each in enumerate(found) if each[0] in (7, 9) or each[:2] in rules.ASKED]
    at = choose(draw, special)
    record, dataset, data = found[at]
    found[at] = record, dataset, draw_wrong_size(draw, data)
    return found


def draw_damaged(draw: DrawFn, octets: bytes) -> bytes:
    """Draw octets with some replaced, removed, doubled or inserted."""
    for _ in range(choose(draw, [1, 1, 1, 2])):
        at = draw(up_to(len(octets)))
        end = min(len(octets), at + choose(draw, [1, 1, 2, 5, draw(up_to(60))]))
        part, mark = octets[at:end], bytes([choose(draw, MARKS)])
        how = draw(up_to(4))
        part = (b"", part + part, mark + part, mark + part[1:], b"")[how]
        octets = octets[:at] + (draw(fixed(end - at)) if how == 4 else part) + octets[end:]
    return octets


MARKS = b"\0\1\2\3\4\n\r \x16\x1c0a\x80\xff"


@st.composite
def damaged(draw: DrawFn) -> bytes:
    """Generate an envelope that is invalid in its octets, its datasets or its message."""
    how = draw(up_to(4))
    if how == 0:
        return draw_damaged(draw, draw(ENVELOPES))
    if how <= 2:
        spoil = draw_spoiled if how == 1 else draw_resized
        return draw_encoded(draw, spoil(draw, draw(RECORDS)))
    message = draw(WRONG_MESSAGES) if how == 3 else draw_damaged(draw, draw(MESSAGES))
    return draw_encoded(draw, draw_datasets(draw, message))


DAMAGED = damaged()


def wrong_envelopes() -> SearchStrategy[bytes]:
    """Generate an envelope that is invalid in its octets, its datasets or its message."""
    return DAMAGED


def draw_split(draw: DrawFn, octets: bytes) -> List[bytes]:
    """Draw a few chunks of octets, some of them empty."""
    at = sorted(draw(up_to(len(octets))) for _ in range(draw(up_to(6))))
    return [octets[first:end] for first, end in zip([0, *at], [*at, len(octets)])]


@st.composite
def splits(draw: DrawFn) -> List[bytes]:
    """Generate an envelope, valid or not, in a few chunks."""
    return draw_split(draw, draw(DAMAGED if draw(up_to(1)) else ENVELOPES))


@st.composite
def streams(draw: DrawFn) -> bytes:
    """Generate a few envelopes in a row, the last of which may be invalid or incomplete."""
    found = STORY * choose(draw, [0, 0, 0, 0, draw(up_to(40))])
    for _ in range(draw(up_to(4))):
        found += choose(draw, [SMALLEST, STORY, b""]) or draw(ENVELOPES)
    how = draw(up_to(3))
    if how == 3:
        return found + draw(DAMAGED)
    return found + (STORY[: draw(up_to(len(STORY) - 1))] if how == 2 else b"")


# --- What an audit reports ---

DAYS = b"20240301", b"20240229", b"20240302"
HOURS = b"115959+0000", b"120000+0000", b"120001+0000"
DATED = (1, 70), (1, 80), (2, 30), (2, 35), (2, 37), (2, 38)


@st.composite
def dated(draw: DrawFn) -> List[Field]:
    """Generate the datasets of an envelope that is sent, released and expires around some days."""
    found = draw(datasets_of(1)) + draw(datasets_of(2))
    found = [field for field in found if field[:2] not in DATED]
    at = next(place for place, field in enumerate(found) if field[0] == 2)
    sent: List[Field] = [(1, 70, choose(draw, DAYS))]
    sent += [(1, 80, draw(TIMES))] if draw(up_to(1)) else []
    copy: List[Field] = []
    for dataset in (30, 35, 37, 38):
        if draw(up_to(1)):
            hour = choose(draw, [*HOURS, draw(TIMES)])
            copy.append((2, dataset, choose(draw, DAYS) if dataset in (30, 37) else hour))
    same = {(1, 30): b"TST", (1, 40): b"00000001"} if draw(up_to(1)) else {}
    found = sent + found[:at] + copy + found[at:]
    return [(*field[:2], same.get(field[:2], field[2])) for field in found]


@st.composite
def dated_streams(draw: DrawFn) -> bytes:
    """Generate a stream for an audit, whose last envelope may be invalid."""
    found = b""
    for _ in range(draw(up_to(5))):
        found += rules.packed(draw(DATED_FIELDS), draw(MESSAGES), choose(draw, [1024, 7]))
    return found + (draw(DAMAGED) if choose(draw, [False, False, False, True]) else b"")


DATED_FIELDS = dated()


# --- Scripts, and what is packed ---


class Script:
    """A value to pack: its datasets, header, lines and trailer."""

    def __init__(
        self, fields: List[Field], head: List[bytes], lines: List[bytes], trailer: bytes
    ) -> None:
        """Store the parts of the value."""
        self.fields, self.head, self.lines, self.trailer = fields, head, lines, trailer

    def __repr__(self) -> str:
        """Return the parts, for the report of an example."""
        return f"Script({self.fields}, {self.head}, {self.lines}, {self.trailer!r})"


@st.composite
def scripts(draw: DrawFn) -> Script:
    """Generate a value to pack."""
    fields = draw(datasets_of(1)) + draw(datasets_of(2, 1))
    return Script(fields, draw(HEADS), draw(lines(4)), rarely(draw, TRAILER, 64))
