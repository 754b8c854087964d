"""Open indexes for reading only, also on a file system that can't be written."""
from __future__ import annotations

import contextlib
import os
import sqlite3
import urllib.parse
from typing import Optional

from iim.archive import schema
from iim.archive.index import CACHE, LOCK_WAIT, check_form, check_path
from iim.archive.rows import NoIndex


def open_readonly(path: str, is_immutable: bool = False) -> sqlite3.Connection:
    """Open the database of an index for reading only. Nothing is written beside it.

    Args:
        path: The path of the database.
        is_immutable: Whether to read it without locks, as a file that nobody changes.

    Raises:
        NoIndex: The path has no index, or one of another form, or it can't be opened.
    """
    if not os.path.exists(path):
        raise NoIndex(f"{path}: there is no index")
    check_path(path)
    name = urllib.parse.quote(os.fsencode(os.path.abspath(path)))
    options = "mode=ro&immutable=1" if is_immutable else "mode=ro"
    try:
        database = sqlite3.connect(
            f"file:{name}?{options}", uri=True, isolation_level=None, timeout=LOCK_WAIT
        )
        database.execute(f"PRAGMA cache_size = -{CACHE >> 10}")
        check_form(database, path)
    except sqlite3.Error as fault:
        raise NoIndex(f"{path}: {fault}{hint_of(path)}") from None
    if schema.pragma(database, "user_version") != schema.FORM:
        older = "an index of an older release of iim-archive"
        raise NoIndex(f"{path}: {older}; `iim-archive migrate` brings it to the present form")
    return database


def hint_of(path: str) -> str:
    """Return what to do about an index that was left by a run that was killed, or nothing."""
    with contextlib.suppress(OSError):
        if os.path.getsize(f"{path}-wal"):
            return " (a run was killed: read it where its directory can be written)"
    return ""


def root_of(database: sqlite3.Connection) -> Optional[bytes]:
    """Return the directory that the names of an index are relative to, or `None`."""
    last = "SELECT root FROM runs WHERE text IS NOT NULL ORDER BY run DESC LIMIT 1"
    found = database.execute(last).fetchone()
    return found[0] if found else None


def full_path(root: Optional[bytes], path: bytes) -> bytes:
    """Return the path of a file of an index."""
    return path if root is None else os.path.join(root, path)
