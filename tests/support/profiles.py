"""Profiles of hypothesis: `gate`, the same examples in each run; `night`, 50 times as many.

`HYPOTHESIS_PROFILE=night` or `--hypothesis-profile night` selects a profile. A test scales its
number of examples by that of the profile (`vectors.strategies.examples`).
"""
from __future__ import annotations

import os
from typing import Any, Dict

from hypothesis import HealthCheck, settings

SLOW = [HealthCheck.too_slow, HealthCheck.data_too_large]


def load_profile() -> None:
    """Register the profiles, and load the one that the environment names."""
    both: Dict[str, Any] = {"deadline": None, "database": None, "suppress_health_check": SLOW}
    settings.register_profile("gate", derandomize=True, max_examples=100, **both)
    night: Dict[str, Any] = {"derandomize": False, "max_examples": 5000, "print_blob": True}
    settings.register_profile("night", **night, **both)
    settings.load_profile(os.environ.get("HYPOTHESIS_PROFILE", "gate"))
