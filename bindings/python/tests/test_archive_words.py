"""Words and columns by which copy is found, and the forms in which rows are printed."""
from __future__ import annotations

import contextlib
import csv
import io
import json
import os
import sqlite3
from pathlib import Path
from typing import Any, Dict, List, Tuple

import pytest
import rules
from envelopes import SMALLEST, SMALLEST_FIELDS, STORY, STORY_HEAD
from iim.archive import formats, query, texts
from support.bindings.archive import called, rows_called
from support.bindings.indexes import made_index, rows_in
from support.bindings.paths import NOW
from support.bindings.running import NO_ARGUMENTS, write_file

WRITTEN = [
    (2, 5, b"rates slug"),
    (2, 15, b"FIN"),
    (2, 20, b"banking"),
    (2, 25, b"euro"),
    (2, 25, b"interest"),
    (2, 80, b"A. Moor"),
    (2, 90, b"Geneva"),
    (2, 100, b"CHE"),
    (2, 101, b"Switzerland"),
    (2, 105, b"Rates held"),
]


def copy(*more: Tuple[int, int, bytes], lines: Any = (b"No change.",), head: Any = None) -> bytes:
    """Return an envelope with datasets of record 2 and 1:90."""
    first = [each for each in more if each[0] == 1]
    second = [each for each in more if each[0] == 2]
    fields = [*SMALLEST_FIELDS[:6], *first, SMALLEST_FIELDS[6], *second]
    story = rules.object_of(head or STORY_HEAD, list(lines), b"")
    packed: bytes = rules.packed(fields, story, 1024)
    return packed


def with_words(folder: str, text: str = "all", *more: str) -> str:
    """Write a tree of copy and its index."""
    write_file(folder, "tree/a.iim", SMALLEST + copy(*WRITTEN, lines=[b"Nothing moved", b"today."]))
    write_file(folder, "tree/b.iim", copy((2, 105, b"Moor fire"), lines=[b"Geneva watched."]))
    write_file(folder, "tree/c.iim", copy(lines=[b"Plain."]))
    index = f"{folder}/{text}.index"
    words = ["--into", index, "--root", folder, "--text", text, *more]
    assert called(*words, f"{folder}/tree")[0] == 0
    return index


def found(index: str, *words: str) -> List[Tuple[str, int]]:
    """Return the envelopes that a query finds: the letter of the file, and the number."""
    rows = rows_called("query", *words, index)
    return [(row["file"][5], row["envelope"]) for row in rows]


def test_finds_copy_by_words(folder: str) -> None:
    index = with_words(folder)
    for words, want in {
        "slug: slug": "a",
        "headline: rates": "a",
        "byline: moor": "a",
        "keywords: euro AND keywords: interest": "a",
        "category: fin": "a",
        "category: banking": "a",
        "city: geneva": "a",
        "country: switzerland": "a",
        "country: che": "a",
        "story: nothing": "a",
        '"moved today"': "a",
        "geneva": "ab",
        "moor": "ab",
        "moor NOT headline: moor": "a",
        "wat*": "b",
        "plain OR fire": "bc",
        "absent": "",
    }.items():
        numbers = [(name, 2 if name == "a" else 1) for name in want]
        assert (words, found(index, "--words", words)) == (words, numbers)
    # (the header's category and info, where record 2 has none)
    assert found(index, "--words", "category: eco") == [("b", 1), ("c", 1)]
    assert found(index, "--words", "slug: rates") == [("a", 2), ("b", 1), ("c", 1)]


def test_indexes_the_words_that_are_asked_for(folder: str) -> None:
    fields, none = with_words(folder, "fields"), with_words(folder, "none")
    assert found(fields, "--words", "rates held") == [("a", 2)]
    assert found(fields, "--words", "plain") == []
    assert rows_in(fields, "SELECT DISTINCT story FROM texts") == [""]
    told = f"{none}: has no full-text index (a run with --text makes one)"
    assert called("query", "--words", "rates", none) == (3, "", f"iim-archive: {told}\n")
    # (the next run does the same, and a file that is read again or gone has no old words)
    write_file(folder, "tree/a.iim", copy((2, 105, b"Other")))
    os.remove(f"{folder}/tree/b.iim")
    assert called("--into", fields, f"{folder}/tree")[0] == 0
    assert found(fields, "--words", "rates held") == []
    assert found(fields, "--words", "other") == [("a", 1)]
    assert found(fields, "--words", "fire") == []
    assert rows_in(fields, "SELECT count(*) FROM texts") == [3]


def test_reports_a_wrong_query_of_words(folder: str) -> None:
    index = with_words(folder)
    for words in '"', "AND", "nothing: x", "a b (":
        status, output, errors = called("query", "--words", words, index)
        assert (words, status, output, errors.count("\n")) == (words, 3, "", 1)
        assert errors.startswith(f"iim-archive: --words ({words}): "), errors


@pytest.mark.parametrize(
    "designation, octets, text",
    [
        (b"\x1b%G", "Zürich ў".encode(), "Zürich ў"),
        (b"\x1b-B", b"Pozna\xf1", "Poznań"),
        (b"\x1b.L", b"\xbc\xde\xe1\xda\xd2\xd0", "Москва"),
        (b"\x1b(B\x1b-F", b"\xc1\xe8\xde\xed\xe1", "Αθήνα"),
        (b"\x1b(B", b"caf\xe9", "café"),
    ],
)
def test_decodes_by_1_90(folder: str, designation: bytes, octets: bytes, text: str) -> None:
    write_file(folder, "tree/a.iim", copy((1, 90, designation), (2, 90, octets)))
    called("--into", f"{folder}/index", "--text", "fields", f"{folder}/tree")
    assert rows_in(f"{folder}/index", "SELECT city FROM texts") == [text]


def test_decodes_by_the_option(folder: str) -> None:
    write_file(folder, "tree/a.iim", copy((2, 90, "Łódź".encode())))
    for encoding, text in ("utf-8", "Łódź"), ("latin-1", "Å\x81Ã³dÅº"), ("ascii", "\ufffd" * 4):
        words = ["--text", "fields", "--encoding", encoding, "--again"]
        called("--into", f"{folder}/index", *words, f"{folder}/tree")
        city = rows_in(f"{folder}/index", "SELECT city FROM texts")[0]
        assert (encoding, city.replace("d", "")[: len(text)] if encoding == "ascii" else city) == (
            encoding,
            text,
        )
    assert [texts.is_encoding(name) for name in ("cp1251", "hex", "rot13", "none")] == [
        True,
        False,
        False,
        False,
    ]


def test_selects_by_each_column(folder: str) -> None:
    index = with_words(folder)
    wanted: Dict[str, Any] = {
        "number=00000001": [("a", 1), ("a", 2), ("b", 1), ("c", 1)],
        "envelope": None,
        "subfiles=1": [("a", 1), ("a", 2), ("b", 1), ("c", 1)],
        "length=114": [("a", 1)],
        "at=114": [("a", 2)],
        "announced=0": [("a", 1)],
        "counted=3": [("a", 2)],
        "priority=4": [],
        "service=TST": [("a", 1), ("a", 2), ("b", 1), ("c", 1)],
        "date_sent=20240301": [("a", 1), ("a", 2), ("b", 1), ("c", 1)],
        "date_sent=20240302": [],
        "file=tree/b.iim": [("b", 1)],
        "run=2": [],
        "state=accepted": [("a", 1), ("a", 2), ("b", 1), ("c", 1)],
        "headline=Rates held": [("a", 2)],
        "city=Geneva": [("a", 2)],
        "country=CHE": [("a", 2)],
        "slug=rates slug": [("a", 2)],
    }
    for condition, want in wanted.items():
        words = "--where", condition
        if want is None:
            assert called("query", *words, index)[0] == 2
        else:
            assert (condition, found(index, *words)) == (condition, want)
    both = "--where", "city=Geneva", "--where", "counted=3", "--words", "rates"
    assert found(index, *both) == [("a", 2)]
    assert found(index, *both, "--date", "20240302") == []
    assert found(index, "--where", 'headline="held') == [("a", 2)]


def test_prints_the_chosen_fields(folder: str) -> None:
    index = with_words(folder)
    fields = "file,envelope,headline,keywords,city,story"
    rows = rows_called("query", "--fields", fields, "--words", "rates held", index)
    want = {
        "file": "tree/a.iim",
        "envelope": 2,
        "headline": "Rates held",
        "keywords": "euro\ninterest",
        "city": "Geneva",
        "story": "Nothing moved\ntoday.",
    }
    assert rows == [want]
    words = ["--fields", fields, "--words", "rates held"]
    assert json.loads(called("query", "--format", "json", *words, index)[1]) == [want]
    assert called("query", "--format", "csv", *words, index)[1] == (
        f"{fields}\ntree/a.iim,2,Rates held,euro\\ninterest,Geneva,Nothing moved\\ntoday.\n"
    )
    whole = called("query", "--format", "json", "--now", NOW, index)[1]
    assert json.loads(whole) == rows_called("query", "--now", NOW, index)
    assert json.loads(called("query", "--format", "json", "--only", "gone", index)[1]) == []
    rows = rows_called("query", "--fields", "file,state,run,sha256,release,age", index)
    assert [len(row["sha256"]) for row in rows] == [64] * 4
    assert rows[0]["state"] == "accepted" and rows[0]["run"] == 1
    assert called("query", "--fields", "file,nothing", index)[0] == 2
    assert rows_called("query", "--fields", ",".join(formats.FIELDS), index)[1]["country"] == (
        "Switzerland\nCHE"
    )


def test_prints_cells_that_are_safe(folder: str) -> None:
    names = ["=1+1", "+a", "-b", "@c", "esc\x1b[2J", "rtl\u202e.iim", 'a,"b"\n', "\tt", "plain"]
    files = [(os.fsencode(name), [{"service": "=X"}]) for name in names]
    index = made_index(f"{folder}/index", files, [9])
    want = {
        "'=1+1",
        "'+a",
        "'-b",
        "'@c",
        "esc\\x1b[2J",
        "rtl\\u202e.iim",
        'a,"b"\\n',
        "'\\tt",
        "plain",
    }
    for fields in (
        NO_ARGUMENTS,
        ["--fields", "file,service"],
        ["--fields", ",".join(formats.COLUMNS)],
    ):
        status, output, errors = called("query", "--csv", *fields, index)
        assert (status, errors, output.count("\n")) == (0, "", 11)
        assert all(each.isprintable() for each in output.splitlines())
        names_, *rows = csv.reader(io.StringIO(output))
        found_names = {row[names_.index("file")] for row in rows}
        assert found_names == want
        assert {row[names_.index("service")] for row in rows} == {"'=X", "TST"}
    # (both ways of making a line give the same)
    assert called("query", "--csv", index) == called(
        "query", "--csv", "--fields", ",".join(formats.COLUMNS), index
    )
    # (numbers are no formulas)
    late = called("query", "--csv", "--now", "2020-01-01T00:00:00Z", "--fields", "age", index)
    assert late[0] == 0


def test_prints_names_that_are_no_utf_8(folder: str) -> None:
    names = [b"\xff.iim", b"caf\xe9.iim", "\u00e9.iim".encode()]
    index = made_index(f"{folder}/index", [(name, [{}]) for name in sorted(names)])
    output = called("query", index)[1]
    rows = [json.loads(line) for line in output.splitlines()]
    assert [(row["file"], row.get("file_hex")) for row in rows] == [
        ("caf\\xe9.iim", "636166e92e69696d"),
        ("\u00e9.iim", None),
        ("\\xff.iim", "ff2e69696d"),
    ]
    assert rows[2]["repeats"] == {"file": "caf\\xe9.iim", "file_hex": names[1].hex(), "envelope": 1}
    # (no part of a surrogate pair, which jq and PostgreSQL reject)
    assert "\\ud" not in output
    assert [row["file_hex"] for row in rows_called("query", "--fields", "file_hex", index)] == [
        names[1].hex(),
        None,
        names[0].hex(),
    ]
    # (as a run prints it)
    Path(folder, "tree").mkdir()
    Path(os.fsdecode(os.fsencode(f"{folder}/tree/") + names[0])).write_bytes(SMALLEST)
    assert rows_called(f"{folder}/tree")[0]["file"] == f"{folder}/tree/\\xff.iim"


def plans_of(monkeypatch: pytest.MonkeyPatch, *words: str) -> List[str]:
    """Run a query, and return the steps on envelopes and refusals of its statements' plans."""
    steps: List[str] = []
    rows = query.Part._rows

    def planned(part: Any, text: str, values: Any = ()) -> Any:
        plan = part._database.execute(f"EXPLAIN QUERY PLAN {text}", tuple(values)).fetchall()
        steps.extend(str(step[3]) for step in plan)
        return rows(part, text, values)

    with monkeypatch.context() as patched:
        patched.setattr(query.Part, "_rows", planned)
        assert called("query", *words)[0] == 0
    return [step for step in steps if " e " in f"{step} "]


def test_reads_only_what_a_query_selects(folder: str, monkeypatch: pytest.MonkeyPatch) -> None:
    files = [
        (b"/%04d" % at, [{"date_sent": f"2024{at // 28 + 1:02}{at % 28 + 1:02}", "service": name}])
        for at, name in ((at, f"S{at % 7}") for at in range(300))
    ]
    index = made_index(f"{folder}/index", files, range(1, 300, 3))
    with contextlib.closing(sqlite3.connect(index)) as database:
        causes = "UPDATE refusals SET cause = file % 50, cause_name = 'Cause' || (file % 50)"
        database.executescript(f"{causes}; ANALYZE;")
    for words, columns in (
        (["--date", "20240301"], "by_id (date_sent=?"),
        (["--date", "20240301..20240303"], "by_id (date_sent>? AND date_sent<?"),
        (["--service", "S3", "--only", "envelope"], "by_id (date_sent=? AND service=?"),
        (["--date", "20240301", "--repeats"], "by_id (date_sent=?"),
        (["--cause", "Cause15"], "by_cause_name (cause_name=?"),
        (["--cause", "15"], "by_cause (cause=?"),
    ):
        steps = plans_of(monkeypatch, *words, index)
        assert any(columns in step for step in steps), f"{words}: {steps}"
        assert not any(step.startswith("SCAN") for step in steps), f"{words}: {steps}"


def test_looks_for_repeats_only_if_asked(folder: str, monkeypatch: pytest.MonkeyPatch) -> None:
    index = made_index(f"{folder}/index", [(b"/a", [{"number": "00000001"}] * 2)])
    asked: List[bool] = []
    find = query.Query._find_repeats

    def counted(self: Any) -> None:
        asked.append(True)
        find(self)

    monkeypatch.setattr(query.Query, "_find_repeats", counted)
    for words in ["--fields", "file,service"], ["--csv", "--fields", "age"], ["--cause", "3"]:
        called("query", *words, index)
    assert asked == []
    for words in ["--fields", "repeats_file"], ["--repeats"], NO_ARGUMENTS:
        called("query", *words, index)
    assert len(asked) == 3


def test_finds_repeats_of_selected_copy(folder: str) -> None:
    index = with_words(folder)
    (row,) = rows_called("query", "--words", "fire", index)
    assert row["repeats"] == {"file": "tree/a.iim", "envelope": 1}
    assert found(index, "--repeats", "--where", "counted=3") == [("a", 2)]
    assert found(index, "--repeats", "--words", "plain") == [("c", 1)]


def test_caps_the_story_that_it_indexes(monkeypatch: pytest.MonkeyPatch, folder: str) -> None:
    monkeypatch.setattr(texts, "LONGEST_STORY", 10)
    write_file(folder, "tree/a.iim", copy(lines=[b"first", b"second", b"third"]) + STORY)
    called("--into", f"{folder}/index", "--text", "all", f"{folder}/tree")
    assert rows_in(f"{folder}/index", "SELECT story FROM texts ORDER BY rowid") == [
        "first\nseco",
        "Rates stay",
    ]
