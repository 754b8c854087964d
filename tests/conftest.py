"""Load the profile of hypothesis: `gate`, or the one that HYPOTHESIS_PROFILE names."""
from __future__ import annotations

from support.profiles import load_profile

load_profile()
