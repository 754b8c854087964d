"""Queries of one index and of several."""
from __future__ import annotations
from support.bindings.running import NO_ARGUMENTS

import csv
import io
import os

from envelopes import STORY
from iim.archive import formats
from typing import Any, Callable, List, Tuple
from support.bindings.archive import Row, query, random_tree, stored
from support.bindings.paths import ARCHIVE, NOW
from support.bindings.running import run, write_file


def test_selects_by_date_service_cause_and_repeats(folder: str) -> None:
    tree, index = random_tree(f"{folder}/tree"), f"{folder}/index"
    stored(index, [tree])
    rows = query([index])[1]

    def id_of(row: Row) -> Row:
        found: Row = row if "counted" in row else row.get("id", {})
        return found

    asked: List[Tuple[List[str], Callable[[Row], Any]]] = [
        (["--service", "AAA"], lambda row: id_of(row).get("service") == "AAA"),
        (["--service", "B\x80"], lambda row: id_of(row).get("service") == "B\x80"),
        (["--service", ""], lambda row: id_of(row).get("service") == ""),
        (["--date", "20240301"], lambda row: id_of(row).get("date_sent") == "20240301"),
        (
            ["--date", "20240101..20240229"],
            lambda row: "20240101" <= (id_of(row).get("date_sent") or "") <= "20240229",
        ),
        (["--cause", "Truncated"], lambda row: row.get("refused", {}).get("cause") == 3),
        (["--cause", "3"], lambda row: row.get("refused", {}).get("cause") == 3),
        (["--repeats"], lambda row: row.get("repeats") is not None),
        (
            ["--repeats", "--service", "AAA"],
            lambda row: row.get("repeats") is not None and row["service"] == "AAA",
        ),
        (["--only", "envelope"], lambda row: "counted" in row),
        (["--only", "refused"], lambda row: "refused" in row),
        (["--only", "empty"], lambda row: "empty" in row),
        (["--only", "failed"], lambda row: "failed" in row),
        (
            ["--cause", "Truncated", "--date", "20240301"],
            lambda row: row.get("refused", {}).get("cause") == 3
            and row["id"]["date_sent"] == "20240301",
        ),
    ]
    for words, holds_of in asked:
        want = [row for row in rows if holds_of(row)]
        assert (words, query([*words, index])) == (words, (0, want, ""))
        assert want or words[-1] == "failed", f"none: {words}"
    assert query(["--cause", "Nothing", index]) == (0, [], "")
    wrong: List[List[str]] = [["--date", "2024"], ["--only", "all"], []]
    for words in wrong:
        assert (words, query([*words, *([index] if words else [])])[0]) == (words, 2)


def test_prints_csv_with_the_same_cells(folder: str) -> None:
    tree, index = random_tree(f"{folder}/tree"), f"{folder}/index"
    write_file(tree, 'é, "x"\n.iim', STORY)
    stored(index, [tree])
    rows = query([index])[1]
    status, output, errors = run([*ARCHIVE, "query", "--csv", "--now", NOW, index])
    assert (status, errors) == (0, b"")
    names, *lines = csv.reader(io.StringIO(output.decode()))
    assert names == formats.COLUMNS
    assert len(lines) == len(rows)
    for row, line in zip(rows, lines):
        cells = {name: cell for name, cell in zip(names, line) if cell}
        kind = "envelope" if "counted" in row else "refused" if "refused" in row else "empty"
        want = {"row": kind, **row, **row.get("refused", {}), **row.get("id", {})}
        want.update(
            {f"repeats_{name}": value for name, value in (row.get("repeats") or {}).items()}
        )
        want = {name: want[name] for name in names if want.get(name) not in (None, "")}
        want = {
            name: formats.safe_cell(value) if isinstance(value, str) else str(value)
            for name, value in want.items()
        }
        assert cells == want


def test_queries_several_indexes_as_one(folder: str) -> None:
    tree = random_tree(f"{folder}/tree")
    parts = [f"{folder}/{name}.index" for name in sorted(os.listdir(tree))]
    for part, name in zip(parts, sorted(os.listdir(tree))):
        stored(part, [f"{tree}/{name}"])
    stored(f"{folder}/whole", [tree])
    assert len(parts) > 3, f"{len(parts)} parts"
    for words in NO_ARGUMENTS, ["--repeats"], ["--cause", "3"], ["--csv"]:
        assert (words, run([*ARCHIVE, "query", "--now", NOW, *words, *parts])) == (
            words,
            run([*ARCHIVE, "query", "--now", NOW, *words, f"{folder}/whole"]),
        )
