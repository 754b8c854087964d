"""Check that the faults can be planted, and that a sample of them is found."""
from __future__ import annotations

import re
from pathlib import Path

import pytest
from faults import FAULTS, SAMPLE
from faults.fault import TOP, Fault
from faults.planting import Copy, verdict_of

LEAST = 60


def test_lists_enough_faults() -> None:
    """Count the faults; each is listed once."""
    assert len({(fault.file, fault.old, fault.new) for fault in FAULTS}) == len(FAULTS) >= LEAST
    assert len(SAMPLE) == 5


def test_applies_each_fault_once() -> None:
    """Check that the text of each fault occurs once in its file, and is changed."""
    assert [f"{each.file}: {each.old}" for each in FAULTS if not each.is_applicable()] == []


def test_names_a_test_for_each_fault() -> None:
    """Look up the test that has to find each fault."""
    lost = []
    for fault in FAULTS:
        file, _, name = fault.test.partition("::")
        path, function = TOP / file, name.rpartition("::")[2].partition("[")[0]
        if not path.is_file() or not re.search(rf"^ *def {function}\(", path.read_text(), re.M):
            lost.append(fault.test)
    assert lost == []


@pytest.mark.parametrize("fault", SAMPLE, ids=[fault.test.rpartition("::")[2] for fault in SAMPLE])
def test_finds_a_sample_of_the_faults(fault: Fault, library: Path, tmp_path: Path) -> None:
    """Plant a fault in a copy, and run its test there and in the repository."""
    assert verdict_of(Copy(tmp_path), fault) == ""
