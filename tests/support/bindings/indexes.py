"""Indexes of made rows, and what tests read in an index."""
from __future__ import annotations

import contextlib
import os
import sqlite3
from typing import Any, Dict, List, Optional, Sequence, Tuple

from iim.archive.index import Index, Rules
from iim.archive.rows import NEVER, Batch
from iim.archive.schema import RELEASE
from support.bindings.running import Name

RULES = Rules(RELEASE, 65_536, 512, "none", "latin-1")


def rows_in(index: Name, text: str, *values: Any) -> List[Any]:
    """Return the rows of a statement on an index, or its values if it has one column."""
    with contextlib.closing(sqlite3.connect(os.fspath(index))) as database:
        rows = database.execute(text, values).fetchall()
    return [row[0] for row in rows] if rows and len(rows[0]) == 1 else rows


def envelope_cells(file: int, nth: int, **columns: Any) -> List[Any]:
    """Return a row of an envelope, in the form that is bound."""
    made: Dict[str, Any] = {"at": 0, "length": 100, "service": "TST", "number": f"{nth:08}"}
    made.update({"date_sent": "20240301", "priority": "", "size": 50, "subfiles": 1})
    made.update({"announced": 5, "counted": 4, "sent": NEVER, "release": NEVER, "expires": NEVER})
    return [file, nth, *{**made, **columns}.values()]


def refusal_row(file: int, nth: int, at: int, cause: int = 15, name: str = "BadValue") -> Any:
    """Return a row of a refusal."""
    refusal = f'{{"envelope": {nth}, "at": {at}, "refused": {{"layer": "record", "dataset": "1:70",'
    refusal += (
        f' "octet": 54, "octet_in_file": {at + 54}, "cause": {cause}, "cause_name": "{name}",'
    )
    refusal += ' "name": "Date Sent"}, "id": {"service": "TST", "number": null, "date_sent": null},'
    # (of other days, so that an index by days is of use)
    date = f"2024{file % 12 + 1:02}{file % 28 + 1:02}"
    return (file, nth, at, cause, name, "TST", None, date, refusal + ' "fields": []}')


def made_index(
    path: Name,
    files: Sequence[Tuple[bytes, Sequence[Dict[str, Any]]]],
    refusals: Sequence[int] = (),
    root: Optional[bytes] = None,
    size: int = 1_000,
) -> str:
    """Write an index of files with envelopes of these columns.

    Args:
        path: The path of the index.
        files: The name of each file, and the columns of each envelope that differ from the usual.
        refusals: The numbers of the files that end with a refusal, from 1.
        root: The directory that names are relative to, or `None`.
        size: The size of each file.
    """
    with Index(os.fspath(path)) as index:
        index.begin("index", RULES, root)
        batch = Batch([], [], [], [], [])
        for file, (name, envelopes) in enumerate(files, 1):
            state = "refused" if file in refusals else "accepted" if envelopes else "empty"
            batch.files.append((file, name, size, 1, size, state, "", "0" * 64, b""))
            for nth, columns in enumerate(envelopes, 1):
                batch.others.extend(envelope_cells(file, nth, **columns))
            if file in refusals:
                batch.refusals.append(refusal_row(file, len(envelopes) + 1, 7))
        index.write(batch)
        index.end_run(index.end(0), True)
    return os.fspath(path)
