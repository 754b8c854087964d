"""Print the rows of a query as lines of JSON, as one value of JSON, or as CSV."""
from __future__ import annotations

import argparse
import csv
import datetime
import functools
import io
import itertools
import json
import operator
from typing import Any, Callable, Iterable, Iterator, List, Optional, Tuple

from iim.archive.lines import (
    envelope_front,
    file_line,
    hex_of,
    name_of,
    refusal_line,
    repeats_end,
    text_of,
)
from iim.archive.query import Query, Row, Wanted
from iim.archive.rows import copy_of, seconds
from iim.archive.schema import TEXT_COLUMNS

# The number of rows that are printed at a time.
LINES = 1_000

OF_REFUSAL = "layer", "dataset", "octet", "octet_in_file", "cause", "cause_name"
OF_REPEAT = "repeats_file", "repeats_envelope"

OF_FILE = "reason", "linked", "state", "sha256", "run", "verified", "fixity"

# All columns that `--fields` can choose.
FIELDS: Tuple[str, ...] = (
    *("row", "file", "file_hex", "envelope", "at", "length", "service", "number", "date_sent"),
    *("priority", "size", "subfiles", "announced", "counted", "sent", "release", "expires"),
    *("age", "copy", *OF_REPEAT, *OF_REFUSAL, *OF_FILE, *TEXT_COLUMNS),
)

# The columns of CSV without `--fields`: those of envelopes, then those of refusals and of files.
COLUMNS = (
    "row file envelope at length service number date_sent priority size subfiles announced counted"
    " age copy repeats_file repeats_envelope"
    " layer dataset octet octet_in_file cause cause_name reason"
).split()

# The first characters by which a spreadsheet would take a cell for a formula.
FORMULA = tuple("=+-@\t\r")

# A function that returns the cells of a row.
Chooser = Callable[[Row], Any]


@functools.lru_cache(maxsize=4_096)
def safe_cell(text: str) -> str:
    """Return a text as a cell that a terminal or a spreadsheet shows and does not interpret.

    Control characters are escaped, and an apostrophe is put before what would be a formula.
    """
    mark = "'" if text.startswith(FORMULA) else ""
    if not text.isprintable():
        text = "".join(each if each.isprintable() else repr(each)[1:-1] for each in text)
    return mark + text


@functools.lru_cache(maxsize=4_096)
def quoted(text: str) -> str:
    """Return a text as a safe cell, in quotation marks if it needs them."""
    cell = safe_cell(text)
    return '"' + cell.replace('"', '""') + '"' if "," in cell or '"' in cell else cell


@functools.lru_cache(maxsize=64)
def text_of_name(path: bytes) -> str:
    """Return the name of a file as text."""
    return text_of(path)


class Cells:
    """The columns of a row as one tuple, in the order of `FIELDS`."""

    def __init__(self, now: datetime.datetime, has_hex: bool) -> None:
        """Prepare for the rows at an instant.

        Args:
            now: The instant, for ages and for copy that is held or expired.
            has_hex: Whether the names in hexadecimal are asked for.
        """
        self._now, self._second, self._has_hex = now, seconds(now), has_hex

    def of(self, row: Row) -> Tuple[Any, ...]:
        """Return the columns of a row."""
        path, state, reason, target, gone, sha256, run, verified, fixity = row.file
        name = text_of_name(path)
        octets = hex_of(path) if self._has_hex else None
        kind = row.kind if row.kind != "file" else "gone" if gone else state
        linked = None if target is None else text_of(target)
        last = reason, linked, state, sha256, run, verified, fixity
        return (kind, name, octets, *self._middle(row), *last, *(row.text or (None,) * 8))

    def line_of_envelope(self, row: Row) -> str:
        """Return the line of CSV of an envelope, with `COLUMNS`.

        It is the same as that of `of`, in a third of the time.
        """
        (
            _,
            nth,
            at,
            length,
            service,
            number,
            date,
            priority,
            size,
            subfiles,
            announced,
            counted,
            sent,
            release,
            expires,
        ) = row.columns
        copy = (
            "free" if release is None and expires is None else copy_of(release, expires, self._now)
        )
        age = "" if sent is None else self._second - sent
        first = ","
        if row.first is not None:
            first = f"{quoted(text_of_name(row.first[0]))},{row.first[1]}"
        return (
            f"envelope,{quoted(text_of_name(row.file[0]))},{nth},{at},{length},{quoted(service)},"
            f"{number},{date},{priority or ''},{size},{subfiles},{announced},{counted},"
            f"{age},{copy},{first},,,,,,,\n"
        )

    def _middle(self, row: Row) -> Tuple[Any, ...]:
        """Return the columns of an envelope or of a refusal."""
        if row.kind == "envelope":
            _, *columns, sent, release, expires = row.columns
            is_free = release is None and expires is None
            copy = "free" if is_free else copy_of(release, expires, self._now)
            age = None if sent is None else self._second - sent
            first = (None, None) if row.first is None else row.first
            named = first[0] and text_of_name(first[0])
            instants = sent, release, expires, age, copy
            return (*columns, *instants, named, first[1], *(None,) * len(OF_REFUSAL))
        if row.kind == "refused":
            refusal = json.loads(row.columns[1])
            refused = (refusal["refused"][name] for name in OF_REFUSAL)
            return (
                refusal["envelope"],
                refusal["at"],
                None,
                *refusal["id"].values(),
                *(None,) * 12,
                *refused,
            )
        return (None,) * 24


def lines(arguments: argparse.Namespace) -> Iterator[str]:
    """Yield the text of all selected rows, many lines at a time."""
    chosen: Optional[List[str]] = arguments.fields
    form = "csv" if arguments.csv else arguments.format
    fields = chosen or COLUMNS
    wanted = Wanted(*(bool({*fields} & {*names}) for names in (OF_REPEAT, TEXT_COLUMNS, OF_FILE)))
    rows = Query(arguments, wanted).rows()
    if form == "csv":
        return csv_lines(rows, fields, arguments.now)
    if chosen is None:
        texts = json_lines(rows, arguments.now)
    else:
        texts = (json.dumps(each) + "\n" for each in chosen_values(rows, chosen, arguments.now))
    return join_lines(texts) if form == "jsonl" else array_of(texts)


def chosen_values(rows: Iterable[Row], fields: List[str], now: datetime.datetime) -> Iterator[Any]:
    """Yield the chosen columns of rows, by their names."""
    cells = Cells(now, "file_hex" in fields)
    for row in rows:
        found = dict(zip(FIELDS, cells.of(row)))
        yield {name: found[name] for name in fields}


def json_lines(rows: Iterable[Row], now: datetime.datetime) -> Iterator[str]:
    """Yield the lines of rows as a run without an index prints them."""
    second = seconds(now)
    path, name = b"", ""
    for row in rows:
        if row.file[0] != path:
            path = row.file[0]
            name = name_of(path)
        if row.kind == "envelope":
            first = row.first and (name_of(row.first[0]), row.first[1])
            columns: Any = row.columns
            yield envelope_front(name, columns, now, second) + repeats_end(first)
        elif row.kind == "refused":
            yield refusal_line(name, row.columns[1])
        elif row.file[4]:
            yield file_line(name, "gone", None)
        else:
            yield file_line(name, row.file[1], row.file[2], row.file[3])


def csv_lines(rows: Iterable[Row], fields: List[str], now: datetime.datetime) -> Iterator[str]:
    """Yield the lines of CSV of rows. A missing cell is empty."""
    cells = Cells(now, "file_hex" in fields)
    is_plain = fields is COLUMNS
    # (with one column more, so that also one is a tuple)
    choose = operator.itemgetter(*(FIELDS.index(name) for name in fields), slice(0))
    yield ",".join(fields) + "\n"
    while True:
        out = io.StringIO()
        writer = csv.writer(out, lineterminator="\n")
        for row in itertools.islice(rows, LINES):
            if is_plain and row.kind == "envelope":
                out.write(cells.line_of_envelope(row))
            else:
                writer.writerow(safe_row(choose(cells.of(row))))
        if not out.tell():
            return
        yield out.getvalue()


def safe_row(row: Tuple[Any, ...]) -> List[Any]:
    """Return the cells of a row but the last, each as a cell that is safe."""
    return [safe_cell(cell) if type(cell) is str else cell for cell in row[:-1]]


def join_lines(texts: Iterator[str]) -> Iterator[str]:
    """Yield the lines, many at a time."""
    return iter(lambda: "".join(itertools.islice(texts, LINES)), "")


def array_of(texts: Iterator[str]) -> Iterator[str]:
    """Yield lines of JSON as one array, a value on each line."""
    before = "[\n"
    for text in texts:
        yield before + text[:-1]
        before = ",\n"
    yield "\n]\n" if before == ",\n" else "[]\n"
