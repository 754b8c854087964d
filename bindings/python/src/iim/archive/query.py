"""Query the indexes of iim-archive: yield the selected rows, ordered by the files' names.

Each index is read by a connection of its own, so that there may be any number, and the rows are
merged. Which envelope another one repeats is determined for the selected ids alone.
"""
from __future__ import annotations

import argparse
import heapq
import itertools
import os
import sqlite3
from typing import Any, Iterable, Iterator, List, NamedTuple, Optional, Set, Tuple

from iim.archive.opening import open_readonly
from iim.archive.rows import Failure, NoIndex
from iim.archive.schema import TEXT_COLUMNS, TEXTS_OF_FILE

KINDS = "envelope", "refused", "empty", "failed", "linked"

# The columns that `--where` compares, by the kinds of rows that have them.
OF_FILES = {"file": "f.path", "state": "f.state", "sha256": "f.sha256", "run": "f.run"}
OF_FILES.update({"verified": "f.verified", "fixity": "f.fixity"})
OF_IDS = {name: f"e.{name}" for name in ("service", "number", "date_sent")}
OF_ENVELOPES = {
    name: f"e.{name}"
    for name in ("at", "length", "priority", "size", "subfiles", "announced", "counted")
}
OF_REFUSALS = {"cause": "e.cause", "cause_name": "e.cause_name"}
WHERE = (*OF_FILES, *OF_IDS, *OF_ENVELOPES, *OF_REFUSALS, *TEXT_COLUMNS)

# The columns of a row of each kind: those of its file, and then those of the kind.
FILE_COLUMNS = "f.path, f.state, f.reason, f.target, f.gone, f.sha256, f.run, f.verified, f.fixity"
WITH_TEXT = ", ".join(f"t.{name}" for name in TEXT_COLUMNS)

# All envelopes by their files, or those that a condition selects, before their files.
BY_FILES = "files AS f CROSS JOIN envelopes AS e ON e.file = f.file"
BY_IDS = "envelopes AS e"
# The envelopes of a service: `by_id` is searched for each date that occurs.
BY_SERVICE = """(
    WITH RECURSIVE dates (date_sent) AS (
        SELECT min(date_sent) FROM envelopes
        UNION ALL
        SELECT (SELECT min(date_sent) FROM envelopes WHERE date_sent > dates.date_sent)
        FROM dates WHERE dates.date_sent IS NOT NULL
    ) SELECT date_sent FROM dates
) AS dates CROSS JOIN envelopes AS e ON e.date_sent = dates.date_sent"""
WITH_FILES = " CROSS JOIN files AS f ON f.file = e.file"
BY_REPEATS = (
    "temp.many CROSS JOIN envelopes AS e USING (date_sent, service, number)"
    " CROSS JOIN files AS f ON f.file = e.file"
)
BY_WORDS = (
    f"texts AS t CROSS JOIN envelopes AS e ON e.file = t.rowid / {TEXTS_OF_FILE}"
    f" AND e.envelope = t.rowid % {TEXTS_OF_FILE} CROSS JOIN files AS f ON f.file = e.file"
)
TEXT_OF_ENVELOPE = f" LEFT JOIN texts AS t ON t.rowid = e.file * {TEXTS_OF_FILE} + e.envelope"

# The repeats: each envelope with an id that another one has, and the first one of that id.
SCRATCH = """
CREATE TABLE places (date_sent, service, number, path, envelope, part);
"""
REPEATS = """
SELECT path, envelope, first_path, first_envelope FROM (
    SELECT
        part, path, envelope, row_number() OVER same AS nth,
        first_value(path) OVER same AS first_path,
        first_value(envelope) OVER same AS first_envelope
    FROM places
    WINDOW same AS (PARTITION BY date_sent, service, number ORDER BY path, envelope)
) WHERE nth > 1 AND part = ? ORDER BY path, envelope"""
PLACES = """
SELECT date_sent, service, number, f.path, e.envelope, ?
FROM temp.many CROSS JOIN envelopes AS e USING (date_sent, service, number)
CROSS JOIN files AS f ON f.file = e.file WHERE f.gone = 0"""

NO_REPEAT = b"", 0, b"", 0

# An id, and an envelope: the path of its file, and its number.
Id = Tuple[str, str, str]
Place = Tuple[bytes, int]


class Row(NamedTuple):
    """A row of an index.

    Attributes:
        kind: 'envelope', 'refused' or 'file'.
        file: The columns of its file, as `FILE_COLUMNS` lists them.
        columns: Those of the envelope, or the refusal as JSON.
        text: The columns of its text, which are `None` if they are not wanted.
        first: The envelope that it repeats, or `None`.
    """

    kind: str
    file: Tuple[Any, ...]
    columns: Tuple[Any, ...] = ()
    text: Tuple[Optional[str], ...] = ()
    first: Optional[Place] = None


class Wanted(NamedTuple):
    """What the rows of a query must have, beside the columns of envelopes and refusals.

    Attributes:
        has_repeats: The envelope that an envelope repeats.
        has_text: The columns of the full-text index.
        has_file: The columns of the file of an envelope.
    """

    has_repeats: bool = True
    has_text: bool = False
    has_file: bool = False


# The columns of text and of a file that are not wanted.
NO_TEXT = (None,) * len(TEXT_COLUMNS)
OF_ACCEPTED = (None,) * 8

# A row with its sort key: path and number.
Sorted = Tuple[Place, Row]


def phrase(text: str) -> str:
    """Return a text as a phrase of a query of words."""
    return '"' + text.replace('"', '""') + '"'


class Selection:
    """The rows that the arguments of `query` select, as conditions of SQL.

    Attributes:
        kinds: The kinds of rows, and perhaps "gone".
        files, ids, envelopes, refusals: The conditions on the columns of each.
        words: The query of words, or `None`.
    """

    def __init__(self, arguments: argparse.Namespace) -> None:
        """Read the arguments."""
        self.kinds: Set[str] = {arguments.only} if arguments.only else set(KINDS)
        self.files: List[Tuple[str, Any]] = []
        self.ids: List[Tuple[str, Any]] = []
        self.envelopes: List[Tuple[str, Any]] = []
        self.refusals: List[Tuple[str, Any]] = []
        self._words: List[str] = [] if arguments.words is None else [f"({arguments.words})"]
        if arguments.date:
            first, last = arguments.date
            self.ids += [("e.date_sent = ?", first)] if first == last else []
            bounds = [("e.date_sent >= ?", first), ("e.date_sent <= ?", last)]
            self.ids += bounds if first != last else []
        if arguments.service is not None:
            self.ids.append(("e.service = ?", arguments.service))
        for name, value in arguments.where:
            self._add(name, value)
        if arguments.cause is not None:
            self._add("cause" if arguments.cause.isdigit() else "cause_name", arguments.cause)
        self._exclude(arguments.repeats)

    def _add(self, name: str, value: str) -> None:
        """Add a condition on a column."""
        if name in OF_FILES:
            is_path = name == "file"
            self.files.append((f"{OF_FILES[name]} = ?", os.fsencode(value) if is_path else value))
        elif name in OF_IDS:
            self.ids.append((f"{OF_IDS[name]} = ?", value))
        elif name in OF_ENVELOPES:
            self.envelopes.append((f"{OF_ENVELOPES[name]} = ?", value))
        elif name in OF_REFUSALS:
            self.refusals.append((f"{OF_REFUSALS[name]} = ?", value))
        else:
            self._words.append(f"{name} : {phrase(value)}")

    def _exclude(self, has_repeats: bool) -> None:
        """Exclude the kinds that lack the columns of a condition."""
        if self.refusals:
            self.kinds &= {"refused"}
        if self.envelopes or self._words or has_repeats:
            self.kinds &= {"envelope"}
        if self.ids:
            self.kinds &= {"envelope", "refused"}

    @property
    def words(self) -> Optional[str]:
        """The query of words."""
        return " AND ".join(self._words) or None

    @property
    def is_by_service(self) -> bool:
        """Whether the conditions on the ids are on a service, and not on a date."""
        names = {text.split()[0] for text, _ in self.ids}
        return "e.service" in names and "e.date_sent" not in names


def sql_of(conditions: Iterable[Tuple[str, Any]]) -> Tuple[str, List[Any]]:
    """Return conditions as SQL that follows another condition, and their values."""
    listed = list(conditions)
    return "".join(f" AND {text}" for text, _ in listed), [value for _, value in listed]


class Part:
    """One index of a query."""

    def __init__(self, path: str, is_immutable: bool, selection: Selection) -> None:
        """Open an index.

        Raises:
            NoIndex: The path has no index, or it can't be opened.
        """
        self.path, self._selection = path, selection
        self._database = open_readonly(path, is_immutable)
        self._has_text = self._has("texts")
        # (before the end of the first run there is no SQL index, and no search for each date)
        is_by_service = selection.is_by_service and self._has("by_id")
        self._by_ids = BY_SERVICE if is_by_service else BY_IDS
        if selection.words is not None and not self._has_text:
            raise NoIndex(f"{path}: has no full-text index (a run with --text makes one)")

    def _has(self, name: str) -> bool:
        """Check whether the index has a table or an SQL index."""
        found = self._rows("SELECT 1 FROM sqlite_master WHERE name = ?", (name,))
        return next(found, None) is not None

    def _rows(self, text: str, values: Iterable[Any] = ()) -> Iterator[Any]:
        """Yield the rows of a statement.

        Raises:
            Failure: The query of words is wrong.
        """
        try:
            yield from self._database.execute(text, tuple(values))
        except sqlite3.OperationalError as fault:
            if self._selection.words is None or not is_wrong_query(str(fault)):
                raise
            raise Failure(f"--words {self._selection.words}: {fault}") from None

    def _from(self, has_text: bool = False, by_repeats: bool = False) -> Tuple[str, List[Any]]:
        """Return the tables and the conditions of the selected envelopes, and the values."""
        chosen = self._selection
        tables = self._by_ids + WITH_FILES if chosen.ids else BY_FILES
        if by_repeats:
            tables = BY_REPEATS
        words = [("texts MATCH ?", chosen.words)] if chosen.words is not None else []
        if words:
            tables = BY_WORDS
        elif has_text and self._has_text:
            tables += TEXT_OF_ENVELOPE
        where, values = sql_of([*words, *chosen.ids, *chosen.files, *chosen.envelopes])
        return f"{tables} WHERE f.gone = 0{where}", values

    def ids(self, is_alone: bool) -> Iterator[Tuple[Id, int]]:
        """Yield the selected ids in order, with their numbers of envelopes.

        Args:
            is_alone: Whether this is the only index: then only ids of several envelopes count.
        """
        chosen, columns = self._selection, "e.date_sent, e.service, e.number"
        where, values = sql_of(chosen.ids)
        if next(self._rows("SELECT 1 FROM files WHERE gone = 1 LIMIT 1"), None):
            where += " AND e.file NOT IN (SELECT file FROM files WHERE gone = 1)"
        if chosen.words is not None or chosen.files or chosen.envelopes:
            of_chosen, more = self._from()
            where += f" AND ({columns}) IN (SELECT {columns} FROM {of_chosen})"
            values += more
        several = "HAVING count(*) > 1" if is_alone else ""
        text = f"SELECT {columns}, count(*) FROM {self._by_ids} WHERE 1 = 1{where}"
        for *found, count in self._rows(f"{text} GROUP BY {columns} {several}", values):
            yield (found[0], found[1], found[2]), count

    def places(self, many: Iterable[Id], part: int) -> Iterator[Any]:
        """Yield the envelopes of ids. The ids are stored for `envelopes`."""
        self._database.execute("CREATE TEMP TABLE many (date_sent, service, number)")
        with self._database:
            self._database.execute("BEGIN")
            self._database.executemany("INSERT INTO many VALUES (?, ?, ?)", many)
        return self._rows(PLACES, (part,))

    def envelopes(self, wanted: Wanted, by_repeats: bool) -> Iterator[Sorted]:
        """Yield the selected envelopes, in order."""
        tables, values = self._from(wanted.has_text, by_repeats)
        # (a join by the ids merges their columns, so each is named)
        of_envelope = (
            "e.file, e.envelope, e.at, e.length, e.service, e.number, e.date_sent, e.priority,"
            " e.size, e.subfiles, e.announced, e.counted, e.sent, e.release, e.expires"
        )
        columns = [f"f.path, {of_envelope}"]
        columns += [WITH_TEXT] if wanted.has_text and self._has_text else []
        columns += [FILE_COLUMNS] if wanted.has_file else []
        text = f"SELECT {', '.join(columns)} FROM {tables} ORDER BY f.path, e.envelope"
        no_text, after = NO_TEXT, 16
        if wanted.has_text and self._has_text:
            no_text, after = (), 16 + len(TEXT_COLUMNS)
        for row in self._rows(text, values):
            path = row[0]
            # (most queries need no more of a file than its name, and take less time without)
            file = row[after:] if wanted.has_file else (path, *OF_ACCEPTED)
            yield (path, row[2]), Row("envelope", file, row[1:16], no_text or row[16:after])

    def refusals(self) -> Iterator[Sorted]:
        """Yield the selected refusals, in order."""
        chosen = self._selection
        where, values = sql_of([*chosen.ids, *chosen.files, *chosen.refusals])
        is_some = chosen.ids or chosen.refusals
        tables = (BY_IDS + WITH_FILES if is_some else BY_FILES).replace("envelopes", "refusals")
        text = f"SELECT {FILE_COLUMNS}, e.envelope, e.told FROM {tables} WHERE f.gone = 0{where}"
        for row in self._rows(f"{text} ORDER BY f.path", values):
            yield (row[0], row[9]), Row("refused", row[:9], row[9:])

    def files(self) -> Iterator[Sorted]:
        """Yield the selected files without an envelope, in order."""
        kinds = self._selection.kinds & {"empty", "failed", "linked"}
        states = ", ".join(map(repr, sorted(kinds)))
        is_gone = "gone" in self._selection.kinds
        where, values = sql_of(self._selection.files)
        some = "f.gone = 1" if is_gone else f"f.gone = 0 AND f.state IN ({states})"
        text = f"SELECT {FILE_COLUMNS} FROM files AS f WHERE {some}{where} ORDER BY f.path"
        for row in self._rows(text, values):
            yield (row[0], 2**63), Row("file", row)


def is_wrong_query(fault: str) -> bool:
    """Check whether an error of SQLite is that of a query of words."""
    beginnings = "fts5:", "no such column", "unterminated string", "unknown special query"
    return fault.startswith(beginnings)


class Query:
    """A query of one or several indexes."""

    def __init__(self, arguments: argparse.Namespace, wanted: Wanted) -> None:
        """Open the indexes that the arguments of `query` name.

        Args:
            arguments: The arguments.
            wanted: What the rows must have.

        Raises:
            NoIndex: A path has no index, or can't be opened.
        """
        self._only_repeats, self._wanted = arguments.repeats, wanted
        self._has_repeats = wanted.has_repeats or arguments.repeats
        self._selection = Selection(arguments)
        self._parts = [Part(path, arguments.immutable, self._selection) for path in arguments.index]
        self._scratch = sqlite3.connect("", isolation_level=None)

    def _many(self) -> Iterator[Id]:
        """Yield the selected ids of several envelopes, in all indexes together."""
        streams = [part.ids(len(self._parts) == 1) for part in self._parts]
        merged = heapq.merge(*streams, key=first_of)
        for found, same in itertools.groupby(merged, key=first_of):
            if sum(count for _, count in same) > 1:
                yield found

    def _find_repeats(self) -> None:
        """Store the envelopes whose ids several have."""
        run = self._scratch
        run.executescript(f"CREATE TABLE many (date_sent, service, number); {SCRATCH} BEGIN;")
        run.executemany("INSERT INTO many VALUES (?, ?, ?)", self._many())
        for nth, part in enumerate(self._parts):
            many = run.execute("SELECT date_sent, service, number FROM many")
            places = part.places(many, nth)
            run.executemany("INSERT INTO places VALUES (?, ?, ?, ?, ?, ?)", places)
        run.execute("COMMIT")

    def _envelopes(self, nth: int) -> Iterator[Sorted]:
        """Yield the envelopes of an index, in order, each with the one that it repeats."""
        rows = self._parts[nth].envelopes(self._wanted, self._only_repeats)
        if not self._has_repeats:
            yield from rows
            return
        repeats = self._scratch.execute(REPEATS, (nth,))
        path, envelope, first_path, first_envelope = next(repeats, NO_REPEAT)
        for key, row in rows:
            # (both are in the same order, but a repeat need not be selected)
            while path and (path, envelope) < key:
                path, envelope, first_path, first_envelope = next(repeats, NO_REPEAT)
            if (path, envelope) == key:
                yield key, row._replace(first=(first_path, first_envelope))
            elif not self._only_repeats:
                yield key, row

    def rows(self) -> Iterator[Row]:
        """Yield all selected rows, in order."""
        kinds = self._selection.kinds
        streams: List[Iterator[Sorted]] = []
        if "envelope" in kinds:
            if self._has_repeats:
                self._find_repeats()
            streams += (self._envelopes(nth) for nth in range(len(self._parts)))
        if "refused" in kinds:
            streams += (part.refusals() for part in self._parts)
        if kinds & {"empty", "failed", "linked", "gone"}:
            streams += (part.files() for part in self._parts)
        merged = streams[0] if len(streams) == 1 else heapq.merge(*streams, key=first_of)
        return (row for _, row in merged)


def first_of(pair: Tuple[Any, Any]) -> Any:
    """Return the sort key of a pair."""
    return pair[0]
