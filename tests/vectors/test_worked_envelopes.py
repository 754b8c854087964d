"""Check the program on worked envelopes: all changes of an octet, all splits into two."""
from __future__ import annotations

from typing import Callable, Iterable, Iterator, List, Sequence, Tuple

import pytest
from rules import read
from vectors.asking import NAMED, Case
from vectors.cases import changes, continued, fed, in_other_ways, one_subfile_too_many, spoiled

CheckCases = Callable[[Iterable[Case]], None]
# What each octet of the varied envelope is changed to: no rule distinguishes the others.
CONTROLS = b"\0\1\2\3\4\5\7\x08\x09\n\r\x10\x13\x14\x15\x16\x17\x1c\x1d"
MARKS = {*CONTROLS, *b" !+-./019:@AZ[`az{~\x7f\x80\x81\xff"}
# The number of octets that one test changes.
PART = 64


def parts() -> Iterator[Tuple[str, int]]:
    """Yield each worked envelope in parts."""
    for name, whole in NAMED.items():
        yield from ((name, first) for first in range(0, len(whole), PART))


@pytest.mark.parametrize("name, first", parts())
def test_changes_each_octet(name: str, first: int, check_cases: CheckCases) -> None:
    """Replace each octet by each other octet, in the varied envelope only by those of MARKS."""
    octets: Sequence[int] = sorted(MARKS) if name == "varied" else range(256)
    check_cases(changes(name, first, first + PART, octets))


@pytest.mark.parametrize("name", NAMED)
def test_spoils_each_dataset(name: str, check_cases: CheckCases) -> None:
    """Drop, double, swap and renumber each dataset, and give it other counts."""
    check_cases(case for octets in spoiled(NAMED[name]) for case in fed(octets, len(octets)))


@pytest.mark.parametrize("name", ["smallest", "story"])
def test_spoils_each_dataset_of_a_stream(name: str, check_cases: CheckCases) -> None:
    """Read these envelopes from tickets, as streams, and in audits."""
    check_cases(case for octets in spoiled(NAMED[name]) for case in in_other_ways(octets))


@pytest.mark.parametrize("name", NAMED)
def test_continues_at_each_octet(name: str, check_cases: CheckCases) -> None:
    """Save after each prefix, restore, and feed the remaining octets."""

    def cases() -> Iterator[Case]:
        whole = NAMED[name]
        for at in range(len(whole) + 1):
            yield from continued(f"${name}[:{at}]", f"${name}[{at}:]", whole, at)

    check_cases(cases())


def test_cuts_the_worked_envelopes(check_cases: CheckCases) -> None:
    """Feed the worked envelopes in chunks of 1 to 64 octets."""
    cases: List[Case] = []
    for name, whole in NAMED.items():
        for seed in range(60):
            cases.append(Case().ask(f"cut {seed} ${name}", f"done {len(whole)}").ends(read(whole)))
    check_cases(cases)


def test_refuses_one_subfile_too_many(check_cases: CheckCases) -> None:
    """Begin a subfile after a ticket with the maximum number of subfiles."""
    check_cases([one_subfile_too_many()])
