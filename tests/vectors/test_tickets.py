"""Check the program on generated saved states, changed in a few octets or in a few parts."""
from __future__ import annotations

import collections
from typing import Callable, Tuple

import tickets
from hypothesis import event, given
from rules import LIMITS
from tickets import Place
from vectors.asking import Vectors
from vectors.cases import judged
from vectors.strategies import examples
from vectors.ticket_strategies import changed_states, changed_tickets

CountCases = Callable[[int], None]
VERDICTS = {"restored", "100 TicketForm", "101 TicketVersion", "102 Impossible"}
LIMITED = {"50 HeaderFull", "51 TooManyFields"}


def test_judges_changed_tickets(vectors: Vectors, count_cases: CountCases) -> None:
    """Restore tickets with a few octets changed, removed or added."""
    count, reached = 0, collections.Counter[str]()

    @examples(400)
    @given(changed_tickets())
    def check(octets: bytes) -> None:
        nonlocal count
        reached[tickets.judged(octets, LIMITS)] += 1
        event(tickets.judged(octets, LIMITS))
        vectors.check(judged(octets, LIMITS))
        count += 1

    check()
    count_cases(count)
    assert sorted(VERDICTS - {*reached}) == []


def test_judges_changed_places(vectors: Vectors, count_cases: CountCases) -> None:
    """Restore states with a few parts changed, as tickets of both versions."""
    count, reached = 0, collections.Counter[str]()

    @examples(700)
    @given(changed_states())
    def check(found: Tuple[Place, Tuple[int, int]]) -> None:
        nonlocal count
        place, limits = found
        for octets in tickets.spelled(place), tickets.narrowed(place):
            if octets is not None:
                reached[tickets.judged(octets, limits)] += 1
                event(tickets.judged(octets, limits))
                vectors.check(judged(octets, limits))
                count += 1

    check()
    count_cases(count)
    assert sorted((VERDICTS | LIMITED) - {"101 TicketVersion"} - {*reached}) == []
