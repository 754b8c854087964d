"""Check the program on small tickets with changed octets, and on all parts of a message."""
from __future__ import annotations

from typing import Callable, Iterable

import pytest
from rules import LIMITS
from tickets import spelled
from vectors.asking import Case
from vectors.cases import around, judged, parts_of_message, small_tickets

CheckCases = Callable[[Iterable[Case]], None]


def test_judges_each_octet_of_small_tickets(check_cases: CheckCases) -> None:
    """Restore small tickets with one octet changed."""
    check_cases(small_tickets())


@pytest.mark.parametrize("part", range(13))
def test_judges_each_part_of_a_message(part: int, check_cases: CheckCases) -> None:
    """Restore each part of a message, with its values near their bounds."""
    states = (state for place in parts_of_message(part) for state in around(place))
    check_cases(judged(spelled(state), LIMITS) for state in states)
