"""The release of the library."""
from __future__ import annotations

import iim


def release() -> str:
    """Return the release of the library, which is the version of the saved states it writes."""
    return str(iim.Receiver().current_ticket()[4])
