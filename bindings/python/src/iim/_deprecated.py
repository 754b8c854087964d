"""Warnings for the names of earlier releases."""
from __future__ import annotations

import warnings


def warn_of_old_name(old: str, new: str) -> None:
    """Warn the caller of the caller that an old name has a better one now.

    Args:
        old: The name that was used.
        new: The name to use.
    """
    warnings.warn(f"{old} is deprecated: use {new}", DeprecationWarning, stacklevel=3)
