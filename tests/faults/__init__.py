"""The faults that tests/mutate plants, and the sample of them that the gate tries."""
from __future__ import annotations

from typing import List

from faults import archiving, c_and_packages, explaining, javascript, python
from faults.fault import Fault

FAULTS: List[Fault] = [
    *python.FAULTS,
    *explaining.FAULTS,
    *archiving.FAULTS,
    *c_and_packages.FAULTS,
    *javascript.FAULTS,
]
# One in each fifth of the list, always the same.
SAMPLE = [FAULTS[len(FAULTS) * nth // 5] for nth in range(5)]
