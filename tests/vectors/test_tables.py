"""Check the tables of the program: the causes, and the row of each dataset."""
from __future__ import annotations

from typing import Callable, Iterable

import pytest
import rules
from vectors.asking import Case
from vectors.cases import row_case

CheckCases = Callable[[Iterable[Case]], None]


def test_names_each_cause(check_cases: CheckCases) -> None:
    """Ask for the name of each cause: of an unpacker, of a size, and of a packer."""
    case = Case(is_new=False).ask("layers", *rules.LAYERS)
    causes = rules.named_causes(*sorted([*rules.CAUSES, 60]))
    case.ask("causes", *(f"{named}: {named}" for named in causes))
    case.ask("size_causes", *rules.named_causes(*range(20, 26)))
    check_cases([case.ask("pack_causes", *rules.named_causes(70, *range(80, 86)))])


@pytest.mark.parametrize("record", range(11))
def test_knows_each_row(record: int, check_cases: CheckCases) -> None:
    """Ask for all 256 rows of a record, each with single octets and lengths near its bounds."""
    check_cases(row_case(record, dataset) for dataset in range(256))
