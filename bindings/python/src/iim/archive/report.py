"""Summarize an archive by an index of iim-archive, as text.

The report has the totals, the refusals, the times, sizes and ages of the envelopes, and the damaged
files.
"""
from __future__ import annotations

import argparse
import contextlib
import datetime
import importlib
import json
import os
from typing import Any, Callable, Iterator, List, NamedTuple, Optional, Tuple

from iim import safe_output
from iim.archive.opening import full_path, open_readonly, root_of
from iim.archive.rows import ENDS, EPOCH, seconds
from iim.archive.verifying import STATES as FIXITY
from iim.explain import words

# The maximum number of rows of a table, of bars of a chart, and of damaged files.
ROWS, BARS, DAMAGED = 20, 40, 1_000

HERE = "e.file NOT IN (SELECT file FROM files WHERE gone = 1)"
ENVELOPES = f"FROM envelopes AS e WHERE {HERE}"
REFUSALS = f"FROM refusals AS e WHERE {HERE}"
# The files that are there, each counted under one of its names.
FILES = "FROM files AS e WHERE e.gone = 0 AND e.state <> 'linked' AND substr(e.path, -1) <> x'2F'"
ID = "e.service || ' ' || e.number || ' ' || e.date_sent"

AGES = [
    (3_600, "under an hour"),
    (86_400, "under a day"),
    (7 * 86_400, "under a week"),
    (30 * 86_400, "under 30 days"),
    (365 * 86_400, "under a year"),
]


# Writes the page of a file, and returns its link or `None`. It is called with the path, and with
# the size and the time of the last change that the index has.
PageOf = Callable[[bytes, Tuple[int, int]], Optional[str]]

# The words of a report, and what they mean.
LEGEND = {
    "repeated": "envelopes with the service, the number and the date sent of an earlier one",
    "held": "envelopes whose copy must not be used before its release",
    "expired": "envelopes whose copy must not be used any more",
    "refused": "files with an envelope that was rejected; the envelopes before it count",
    "empty": "files without octets",
    "failed": "files that could not be read",
    "linked": "other names of files, which are counted once",
    "gone": "files of the index that no longer exist; nothing else counts them",
}


class Bars(NamedTuple):
    """A bar chart.

    Attributes:
        title: The title.
        rows: The label and the count of each bar.
    """

    title: str
    rows: List[Tuple[str, int]]


class Table(NamedTuple):
    """A table.

    Attributes:
        title: The title.
        names: The names of the columns.
        rows: The rows, each a list of cells.
    """

    title: str
    names: List[str]
    rows: List[List[str]]


class Damaged(NamedTuple):
    """A file with a rejected envelope.

    Attributes:
        path: The path of the file.
        envelope: The number of the envelope, from 1.
        at: The offset of the rejected byte in the file.
        dataset: The dataset named, such as "1:70".
        cause: The number and the name of the cause.
        id: The identifier of the envelope, with `?` for each part that is not known.
        page: The link to the page that explains it, or `None`.
    """

    path: bytes
    envelope: int
    at: int
    dataset: str
    cause: str
    id: str
    page: Optional[str]


class Content(NamedTuple):
    """The content of a report.

    Attributes:
        name: The name of the index.
        now: The instant of the report.
        sums: The name and the value of each total.
        bars: The bar charts.
        tables: The tables.
        damaged: The damaged files.
        more: The number of damaged files that are not listed.
    """

    name: str
    now: str
    sums: List[Tuple[str, int]]
    bars: List[Bars]
    tables: List[Table]
    damaged: List[Damaged]
    more: int = 0

    @property
    def legend(self) -> List[Tuple[str, str]]:
        """The words whose totals are not 0, and what they mean."""
        return [(name, LEGEND[name]) for name, count in self.sums if count and name in LEGEND]


class Queries:
    """The queries of a report on an index, as of one instant."""

    def __init__(
        self,
        index: str,
        now: datetime.datetime,
        root: Optional[bytes] = None,
        is_immutable: bool = False,
    ) -> None:
        """Open an index.

        Args:
            index: The path of the index.
            now: The instant of the report.
            root: The directory that names are relative to, or `None` for that of the index.
            is_immutable: Whether to read the index without locks.

        Raises:
            NoIndex: The path has no index, or can't be opened.
        """
        self._database = open_readonly(index, is_immutable)
        self._database.create_function("bits", 1, bits_of, deterministic=True)
        self._root = root_of(self._database) if root is None else root
        self.now, self._second = now, seconds(now)
        # (copy expires after its last second: with a part of that second over, it has)
        self._expired = self._second + (now.microsecond > 0)

    def rows(self, text: str, *values: Any) -> List[Any]:
        """Return the rows of a query."""
        found: List[Any] = self._database.execute(text, values).fetchall()
        return found

    def number(self, text: str, *values: Any) -> int:
        """Return the single number of a query."""
        return int(self.rows(text, *values)[0][0] or 0)

    def inputs(self, index: str, output: str) -> List[safe_output.Input]:
        """Return the files that an output must not replace.

        They are those of the index, and those files of the archive that may be the output's.
        """
        inputs: List[safe_output.Input] = [index + end for end in ENDS]
        names = [os.fsencode(name) for name in (os.path.abspath(output), os.path.realpath(output))]
        below = b"" if self._root is None else os.path.join(self._root, b"")
        names = [name[len(below) :] if name.startswith(below) else name for name in names]
        found = "SELECT path FROM files WHERE path IN (?, ?)"
        with contextlib.suppress(OSError):
            there = os.stat(output)
            found += f" OR size = {there.st_size} AND changed = {there.st_mtime_ns}"
        return inputs + [full_path(self._root, path) for path, in self.rows(found, *names)]

    def sums(self) -> Iterator[Tuple[str, int]]:
        """Yield the name and the value of each total."""
        files = "SELECT count(*) FROM files WHERE"
        yield "files", self.number(f"SELECT count(*) {FILES}")
        yield "octets", self.number(f"SELECT sum(e.size) {FILES}")
        yield "envelopes", self.number(f"SELECT count(*) {ENVELOPES}")
        of_ids = f"SELECT count(*) AS n {ENVELOPES} GROUP BY {ID} HAVING n > 1"
        yield "repeated", self.number(f"SELECT sum(n - 1) FROM ({of_ids})")
        yield "held", self.number(f"SELECT count(*) {ENVELOPES} AND e.release > ?", self._second)
        late = "e.expires < ? AND (e.release IS NULL OR e.release <= ?)"
        expired = f"SELECT count(*) {ENVELOPES} AND {late}"
        yield "expired", self.number(expired, self._expired, self._second)
        for state in "refused", "empty", "failed", "linked":
            yield state, self.number(f"{files} gone = 0 AND state = ?", state)
        yield "gone", self.number(f"{files} gone = 1")

    def of_each(self, title: str, what: str, of: str, order: str = "2 DESC, 1") -> Bars:
        """Return a bar chart of the counts of each value.

        Values beyond the maximum of bars are one bar.
        """
        rows = self.rows(f"SELECT {what}, count(*) {of} GROUP BY 1 ORDER BY {order}")
        bars = [(shown(name), count) for name, count in rows[:BARS]]
        others = sum(count for _, count in rows[BARS:])
        return Bars(title, [*bars, ("others", others)] if others else bars)

    def by_day(self) -> Bars:
        """Return a bar chart of the envelopes by day sent, or by month or year for many days."""
        for length, what in (8, "day"), (6, "month"), (4, "year"):
            query = f"SELECT substr(e.date_sent, 1, ?), count(*) {ENVELOPES} GROUP BY 1 ORDER BY 1"
            rows = self.rows(query, length)
            if len(rows) <= BARS:
                break
        bars = [(with_hyphens(date), count) for date, count in rows[-BARS:]]
        return Bars(f"Envelopes by {what} sent", bars)

    def by_hour(self) -> Bars:
        """Return a bar chart of the envelopes by hour of the day, in UTC."""
        counts = dict(self.rows(f"SELECT e.sent % 86400 / 3600, count(*) {ENVELOPES} GROUP BY 1"))
        bars = [(f"{hour:02}", counts.get(hour, 0)) for hour in range(24)] if counts else []
        if None in counts:
            bars.append(("no time", counts[None]))
        return Bars("Envelopes by hour sent (UTC)", bars)

    def by_size(self) -> Bars:
        """Return a bar chart of the envelopes by the size of their objects, in powers of two."""
        rows = self.rows(f"SELECT bits(e.size), count(*) {ENVELOPES} GROUP BY 1 ORDER BY 1")
        bars = [(f"{1 << bits:,}", count) for bits, count in rows]
        return Bars("Sizes of objects, at most N octets", bars)

    def by_age(self) -> Bars:
        """Return a bar chart of the envelopes by age."""
        cases = ["WHEN e.sent IS NULL THEN -2", "WHEN e.sent > ? THEN -1"]
        cases += (f"WHEN ? - e.sent < {most} THEN {nth}" for nth, (most, _) in enumerate(AGES))
        what = f"CASE {' '.join(cases)} ELSE {len(AGES)} END"
        seconds_of_cases = [self._second] * (len(AGES) + 1)
        query = f"SELECT {what}, count(*) {ENVELOPES} GROUP BY 1 ORDER BY 1"
        titles = dict(enumerate([*(name for _, name in AGES), "a year or more"]))
        titles.update({-2: "no time sent", -1: "sent after now"})
        rows = self.rows(query, *seconds_of_cases)
        return Bars("Ages", [(titles[nth], count) for nth, count in rows])

    def repeats(self) -> Table:
        """Return a table of the ids with the most repeats."""
        query = f"SELECT {ID}, count(*) AS n {ENVELOPES} GROUP BY 1 HAVING n > 1"
        rows = self.rows(f"{query} ORDER BY n DESC, 1 LIMIT {ROWS}")
        cells = [[shown(name), f"{count:,}"] for name, count in rows]
        return Table("Repeats", ["id", "times"], cells)

    def next(self, title: str, column: str) -> Table:
        """Return a table of the envelopes whose release or expiration is next."""
        query = f"""SELECT f.path, e.envelope, {ID}, e.{column} FROM envelopes AS e
            JOIN files AS f ON f.file = e.file AND f.gone = 0
            WHERE e.{column} > ? ORDER BY e.{column}, f.path, e.envelope LIMIT {ROWS}"""
        cells = [
            [named(path), str(nth), shown(name), instant(second)]
            for path, nth, name, second in self.rows(query, self._second)
        ]
        return Table(title, ["file", "envelope", "id", "at"], cells)

    def damaged(self, page_of: PageOf) -> Iterator[Damaged]:
        """Yield the files with a rejected envelope."""
        parts_of_id = (f"coalesce(e.{name}, '?')" for name in ("service", "number", "date_sent"))
        query = f"""SELECT f.path, f.size, f.changed, e.envelope,
                json_extract(e.told, '$.refused.octet_in_file'),
                json_extract(e.told, '$.refused.dataset'),
                e.cause || ' ' || e.cause_name, {" || ' ' || ".join(parts_of_id)}
            FROM refusals AS e JOIN files AS f ON f.file = e.file AND f.gone = 0
            ORDER BY f.path LIMIT {DAMAGED}"""
        for path, size, changed, nth, at, dataset, cause, name in self.rows(query):
            link = page_of(full_path(self._root, path), (size, changed))
            yield Damaged(path, nth, at, dataset, cause, shown(name), link)

    def fixity(self) -> Bars:
        """Return a bar chart of the files by the outcome of their last verification."""
        what = "coalesce(e.fixity, CASE WHEN e.sha256 IS NULL THEN 'unknown' ELSE 'not yet' END)"
        counts = dict(self.rows(f"SELECT {what}, count(*) {FILES} GROUP BY 1"))
        titles = {state: state for state in FIXITY}
        titles.update({"not yet": "not verified yet", "unknown": "without a checksum"})
        return Bars(
            "Files by their last verification",
            [(title, counts[state]) for state, title in titles.items() if state in counts],
        )

    def not_intact(self) -> Table:
        """Return a table of the files that were not intact when they were last verified."""
        joined = FILES.replace("WHERE", "JOIN runs AS r ON r.run = e.verified WHERE")
        query = f"""SELECT e.path, e.fixity, r.started {joined}
            AND e.fixity <> 'intact' ORDER BY e.path LIMIT {ROWS}"""
        cells = [[named(path), state, instant(second)] for path, state, second in self.rows(query)]
        return Table("Not intact", ["file", "state", "verified at"], cells)

    def runs(self) -> Table:
        """Return a table of the last runs."""
        query = f"""SELECT run, command, release, started, ended, sums, files FROM
            (SELECT *, (SELECT count(*) FROM files AS f WHERE f.run = r.run) AS files
            FROM runs AS r ORDER BY run DESC LIMIT {ROWS}) ORDER BY run"""
        cells = [
            [
                str(run),
                command,
                release or "(not known)",
                instant(started),
                "(stopped)" if ended is None else instant(ended),
                f"{files:,}",
                ", ".join(f"{count:,} {name}" for name, count in json.loads(sums or "{}").items()),
            ]
            for run, command, release, started, ended, sums, files in self.rows(query)
        ]
        names = ["run", "command", "release", "started", "ended", "files read last", "totals"]
        return Table("Runs", names, cells)

    def all(self, name: str, page_of: PageOf) -> Iterator[Tuple[str, Any]]:
        """Yield the name and the value of each part of the report."""
        yield "name", words.printable(name)
        yield "now", instant(self._second)
        yield "sums", list(self.sums())
        cause, service = "e.cause || ' ' || e.cause_name", "coalesce(e.service, '(not known)')"
        by_cause = self.of_each("Refusals by cause", cause, REFUSALS)
        by_service = self.of_each("Refusals by service", service, REFUSALS)
        of_envelopes = [self.by_day(), self.by_hour(), self.by_size(), self.by_age()]
        yield "bars", [by_cause, by_service, *of_envelopes, self.fixity()]
        held = self.next("Held, and released next", "release")
        following = [self.repeats(), held, self.next("Expires next", "expires")]
        yield "tables", [*following, self.not_intact(), self.runs()]
        damaged = list(self.damaged(page_of))
        yield "damaged", damaged
        yield "more", self.number(f"SELECT count(*) {REFUSALS}") - len(damaged)


def bits_of(size: int) -> int:
    """Return the exponent of the smallest power of two that is not less than a size."""
    return int(max(0, size - 1)).bit_length()


def with_hyphens(date: str) -> str:
    """Return a date, or the year or month of one, with hyphens between its parts."""
    return "-".join(filter(None, (date[:4], date[4:6], date[6:])))


def shown(text: str) -> str:
    """Return a text of the index, which is Latin-1, with escapes for what can't be printed."""
    return words.shown(text.encode("latin-1", "replace"), 64)


def named(path: bytes) -> str:
    """Return the name of a file, with escapes for what can't be printed."""
    return words.printable(os.fsdecode(path))


def instant(second: int) -> str:
    """Return an instant in UTC as text."""
    return f"{EPOCH + datetime.timedelta(seconds=second):%Y-%m-%dT%H:%M:%SZ}"


# --- Text


def lines(content: Content) -> Iterator[str]:
    """Yield the lines of a report."""
    yield f"{content.name} at {content.now}"
    yield ", ".join(f"{count:,} {name}" for name, count in content.sums)
    for bars in content.bars:
        yield from bar_lines(bars)
    for table in content.tables:
        yield from ("", table.title.upper(), *(["  none"] if not table.rows else []))
        yield from ("  " + "  ".join(row) for row in table.rows)
    yield from ("", "DAMAGED FILES", *(["  none"] if not content.damaged else []))
    for each in content.damaged:
        where = f"envelope {each.envelope}, octet {each.at:,} of the file, {each.dataset}"
        yield f"  {named(each.path)}: {where}, cause {each.cause} ({each.id})"
    if content.more:
        yield f"  and {content.more:,} more, which `query --only refused` prints"
    if content.damaged:
        yield "`python3 -m iim explain FILE` shows the error in one of them."


def bar_lines(bars: Bars) -> Iterator[str]:
    """Yield the lines of a bar chart."""
    yield from ("", bars.title.upper(), *(["  none"] if not bars.rows else []))
    most = max((count for _, count in bars.rows), default=1) or 1
    for name, count in bars.rows:
        yield f"  {name[:28]:<28} {count:>11,} {'#' * (36 * count // most)}".rstrip()


# --- The command


def parts(arguments: argparse.Namespace) -> Iterator[Tuple[str, Any]]:
    """Yield the name and the value of each part of the report that the arguments specify.

    Pages of damaged files are written beside the report.

    Raises:
        NoIndex: The path has no index.
        OutputRefused: The report must not be written to its path.
    """
    root = None if arguments.root is None else os.fsencode(os.path.abspath(arguments.root))
    queries = Queries(arguments.index, arguments.now, root, arguments.immutable)
    page_of: PageOf = no_page
    output, force = arguments.html, arguments.force
    if output is not None:
        arguments.inputs = queries.inputs(arguments.index, output)
        safe_output.check_output(output, arguments.inputs, force=force)
    if output is not None and can_draw():
        from iim.archive.page import Pages

        page_of = Pages(output, arguments.limits, arguments.inputs, force).page_of
    yield from queries.all(arguments.index, page_of)


def no_page(path: bytes, known: Tuple[int, int]) -> Optional[str]:
    """Return no link, for a report without pages of damaged files."""
    return None


def can_draw() -> bool:
    """Check whether the modules that generate pages are installed."""
    try:
        for name in "jinja2", "matplotlib":
            importlib.import_module(name)
    except ImportError:
        return False
    return True
