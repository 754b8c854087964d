"""Check the test oracle with envelopes that were worked out by hand."""
from __future__ import annotations

from typing import Callable, Iterable, Tuple

import pytest
import worked

Rows = Callable[[], Iterable[Tuple[object, object]]]


@pytest.mark.parametrize("rows", worked.GROUPS, ids=[group.__name__ for group in worked.GROUPS])
def test_agrees_with_worked_envelopes(rows: Rows, count_cases: Callable[[int], None]) -> None:
    """Compare the result of the rules with the correct result."""
    found = list(rows())
    assert [got for got, _ in found] == [want for _, want in found]
    count_cases(len(found))
