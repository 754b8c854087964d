"""Check the program on generated values: of each row, dates, instants, numbers, tags, words."""
from __future__ import annotations

import itertools
from pathlib import Path
from typing import Callable, List, Tuple

import pytest
import rules
from hypothesis import given
from hypothesis import strategies as st
from rules import ROWS
from vectors.asking import Case, Vectors, check_all, digits, shown, yes
from vectors.strategies import (
    LIKE_YEARS,
    LINE_ENDS,
    any_dates,
    examples,
    lines,
    times,
    values,
    wrong_values,
)
from vectors.ticket_strategies import totals

CountCases = Callable[[int], None]
KEYS = [key for key in ROWS if key[0] in (1, 2)]


@pytest.mark.parametrize("key", KEYS, ids="{0[0]}:{0[1]:02}".format)
def test_admits_random_values(
    key: Tuple[int, int], vectors: Vectors, count_cases: CountCases
) -> None:
    """Ask whether a row accepts a value, for valid and some invalid values."""
    count, row = 0, ROWS[key]

    @examples(25)
    @given(values(row) | wrong_values(*key))
    def check(octets: bytes) -> None:
        nonlocal count
        question = f"admits {key[0]} {key[1]} {digits(octets)}"
        vectors.check(Case(is_new=False).ask(question, yes(rules.admits(row, octets))))
        count += 1

    check()
    count_cases(count)


def date_case(date: bytes, time: bytes) -> Case:
    """Return a case on a date and a time: the date, instants of that time, and their rows."""
    case, text = Case(is_new=False), date.decode()
    wanted = f"{text[:4]}-{text[4:6]}-{text[6:]}" if rules.is_date(date) else "none"
    case.ask(f"date {digits(date)}", wanted)
    for day in date, b"99991230", b"99991231", b"00010101":
        instant = rules.instant_text(rules.instant_of(day, time))
        case.ask(f"instant {digits(day)} {digits(time)}", instant)
    for record, dataset, octets in (1, 70, date), (2, 55, date), (2, 60, time):
        answer = yes(rules.admits(ROWS[record, dataset], octets))
        case.ask(f"admits {record} {dataset} {digits(octets)}", answer)
    return case


def test_reads_dates_at_the_edges(program: Path, count_cases: CountCases) -> None:
    """Read all dates with the first or last years, months and days, and beyond."""
    dates = itertools.product(LIKE_YEARS, (0, 1, 2, 4, 11, 12, 13), (0, 1, 28, 29, 30, 31, 32))
    octets = [b"%04d%02d%02d" % date for date in dates]
    times_of_day = b"000000+0000", b"235959-2359", b"000000+0001", b"240000+0000"
    count_cases(
        check_all(program, (date_case(date, time) for date in octets for time in times_of_day))
    )


def test_reads_dates_and_instants(vectors: Vectors, count_cases: CountCases) -> None:
    """Read dates and times, and octets that look similar."""
    count = 0

    @examples(200)
    @given(any_dates(), times() | wrong_values(1, 80))
    def check(date: bytes, time: bytes) -> None:
        nonlocal count
        vectors.check(date_case(date, time))
        count += 1

    check()
    count_cases(count)


def test_reads_numbers(vectors: Vectors, count_cases: CountCases) -> None:
    """Read numbers of any length, and octets that are too short or too long."""
    count, fronts = 0, st.builds(
        bytes.__mul__, st.sampled_from([b"\0", b"\xff"]), st.integers(0, 9)
    )

    @examples(200)
    @given(fronts, st.binary(max_size=3))
    def check(front: bytes, back: bytes) -> None:
        nonlocal count
        found = rules.number_of(front + back)
        case = Case(is_new=False)
        case.ask(f"number {digits(front + back)}", "none" if found is None else str(found))
        vectors.check(case)
        count += 1

    check()
    count_cases(count)


def test_writes_heads(vectors: Vectors, count_cases: CountCases) -> None:
    """Write tags with counts of all sizes."""
    count, octets = 0, st.integers(0, 255)

    @examples(200)
    @given(octets, octets, totals())
    def check(record: int, dataset: int, total: int) -> None:
        nonlocal count
        tag = shown(rules.head_bytes(record, dataset, total))
        vectors.check(Case(is_new=False).ask(f"head {record} {dataset} {total}", tag))
        count += 1

    check()
    count_cases(count)


def test_counts_words(vectors: Vectors, count_cases: CountCases) -> None:
    """Count the words of lines, with all forms of line ends."""
    count = 0

    @examples(120)
    @given(lines(4), st.sampled_from(LINE_ENDS))
    def check(found: List[bytes], end: bytes) -> None:
        nonlocal count
        text = end.join(found)
        question = f"words {digits(text)}"
        vectors.check(Case(is_new=False).ask(question, str(rules.words_of(found))))
        count += 1

    check()
    count_cases(count)
