"""The numbers of an index and of its report: each is compared with one that is known."""
from __future__ import annotations

import os
import re
import sqlite3
from pathlib import Path
from typing import Any, Dict, List, Tuple

import pytest
import rules
from envelopes import SMALLEST, STORY
from iim.archive import report
from iim.archive.index import Index
from iim.archive.page import PAGES, Pages
from iim.archive.rows import Batch
from newsroom import NORWEGIAN
from support.bindings.archive import called, rows_called
from support.bindings.indexes import RULES, envelope_cells, made_index, rows_in
from support.bindings.paths import NOW
from support.bindings.running import NO_ARGUMENTS, write_file

# NOW, in seconds since 1970.
SECOND = 1_709_294_400


def text_of_report(index: str, now: str = NOW) -> str:
    """Return the text of a report."""
    status, output, errors = called("report", "--now", now, index)
    assert (status, errors) == (0, "")
    return output


def section(text: str, title: str) -> List[str]:
    """Return the lines of a section of a report."""
    found = re.search(rf"^{re.escape(title)}\n((?:  .*\n)*)", text, re.M)
    assert found, f"{title} is not in {text}"
    return [line.strip() for line in found[1].splitlines()]


def bars(text: str, title: str) -> Dict[str, int]:
    """Return the labels and the counts of a chart."""
    rows = (re.fullmatch(r"(.*?) +([\d,]+)(?: #*)?", line) for line in section(text, title))
    return {row[1]: int(row[2].replace(",", "")) for row in rows if row}


def sums_line(text: str) -> Dict[str, int]:
    """Return the totals of a report."""
    pairs = (each.split(" ") for each in text.splitlines()[1].split(", "))
    return {name: int(count.replace(",", "")) for count, name in pairs}


def test_counts_nothing_of_files_that_are_gone(folder: str) -> None:
    tree, index = f"{folder}/tree", f"{folder}/index"
    held = STORY.replace(b"\x1c\x02\x69", b"\x1c\x02\x1e\x00\x0820991231\x1c\x02\x69")
    write_file(tree, "a.iim", held)
    write_file(tree, "b.iim", held + b"\x1d")
    write_file(tree, "empty.iim", b"")
    (sums,) = rows_called("--into", index, "--now", NOW, tree)
    names = "envelopes", "repeated", "held", "refused", "empty"
    assert [sums[name] for name in names] == [2, 1, 2, 1, 1]
    os.remove(f"{tree}/b.iim")
    os.remove(f"{tree}/empty.iim")
    (sums,) = rows_called("--into", index, "--now", NOW, tree)
    assert [sums[name] for name in names] == [1, 0, 1, 0, 0]
    assert rows_called("query", "--only", "refused", index) == []
    assert [row["envelope"] for row in rows_called("query", index)] == [1]
    counts = sums_line(text_of_report(index))
    want = {"files": 1, "octets": len(held), "envelopes": 1, "repeated": 0, "held": 1}
    assert {name: counts[name] for name in want} == want
    assert (counts["refused"], counts["gone"]) == (0, 2)


def test_forgets_the_refusal_of_a_mended_file(folder: str) -> None:
    tree, index = f"{folder}/tree", f"{folder}/index"
    write_file(tree, "a.iim", STORY + SMALLEST + b"\x1d")
    assert rows_called("--into", index, tree)[0]["refused"] == 1
    write_file(tree, "a.iim", STORY)
    assert rows_called("--into", index, tree)[0]["refused"] == 0
    assert rows_called("query", "--only", "refused", index) == []
    for table, count in ("refusals", 0), ("envelopes", 1), ("files", 1):
        assert (table, rows_in(index, f"SELECT count(*) FROM {table}")) == (table, [count])


def test_stores_offsets_and_sizes(folder: str) -> None:
    index = f"{folder}/index"
    write_file(folder, "tree/a.iim", SMALLEST + STORY + SMALLEST[:50])
    write_file(folder, "tree/b.iim", SMALLEST * 3)
    called("--into", index, f"{folder}/tree")
    one, two = len(SMALLEST), len(STORY)
    assert rows_in(index, "SELECT size, read FROM files ORDER BY path") == [
        (one + two + 50, one + two),
        (3 * one, 3 * one),
    ]
    assert rows_in(index, "SELECT envelope, at, cause FROM refusals") == [(3, one + two, 3)]
    assert rows_in(index, "SELECT envelope, at, length FROM envelopes WHERE file = 1") == [
        (1, 0, one),
        (2, one, two),
    ]


def test_stores_the_words_of_a_story(folder: str) -> None:
    index = f"{folder}/index"
    write_file(folder, "tree/a.iim", NORWEGIAN.octets)
    called("--into", index, f"{folder}/tree")
    announced, counted = int(NORWEGIAN.head[4]), rules.words_of(NORWEGIAN.lines)
    assert announced != counted
    assert rows_in(index, "SELECT announced, counted FROM envelopes") == [(announced, counted)]


def test_fails_if_files_failed_and_others_were_refused(folder: str) -> None:
    write_file(folder, "tree/a.iim", b"\x1d")
    os.mkfifo(f"{folder}/tree/b.iim")
    for words in NO_ARGUMENTS, ["--into", f"{folder}/index"]:
        assert (words, called(*words, f"{folder}/tree")[0]) == (words, 3)


def test_writes_a_batch_as_a_whole_or_not_at_all(folder: str) -> None:
    index = f"{folder}/index"
    made_index(index, [(b"/a", [{}])])
    with Index(index) as opened:
        opened.begin("index", RULES)
        rows = [(7, b"/b", 1, 1, 1, "accepted", "", "", b"")]
        twice = envelope_cells(7, 1) + envelope_cells(7, 1)
        with pytest.raises(sqlite3.IntegrityError):
            opened.write(Batch(rows, [], twice, [], []))
        no_file = envelope_cells(8, 1)
        with pytest.raises(sqlite3.IntegrityError):
            opened.write(Batch([], [], no_file, [], []))
    assert rows_in(index, "SELECT path FROM files") == [b"/a"]
    assert rows_in(index, "SELECT count(*) FROM envelopes") == [1]
    assert rows_in(index, "SELECT value FROM sums WHERE name = 'envelopes'") == [1]


def instants(**columns: int) -> Dict[str, Any]:
    """Return the columns of an envelope with instants relative to `NOW`."""
    return {name: SECOND + second for name, second in columns.items()}


def test_holds_and_expires_at_exact_seconds(folder: str) -> None:
    envelopes: List[Dict[str, Any]] = [
        instants(release=1),
        instants(release=0),
        instants(expires=0),
        instants(expires=-1),
        instants(expires=1),
        instants(release=1, expires=-1),
        {},
    ]
    index = made_index(f"{folder}/index", [(b"/a", envelopes)])
    copy = [row["copy"] for row in rows_called("query", "--now", NOW, index)]
    assert copy == ["held", "free", "free", "expired", "free", "held", "free"]
    counts = sums_line(text_of_report(index))
    assert (counts["held"], counts["expired"]) == (2, 1)
    later = "2024-03-01T12:00:00.5Z".replace(".5", ".500000")
    copy = [row["copy"] for row in rows_called("query", "--now", later, index)]
    assert copy == ["held", "free", "expired", "expired", "free", "held", "free"]
    assert sums_line(text_of_report(index, later))["expired"] == 2
    assert sums_line(text_of_report(index, "2024-03-01T12:00:01Z"))["held"] == 0


def test_lists_what_is_next(folder: str) -> None:
    envelopes = [
        {"number": f"{at:08}", **instants(release=100 - at, expires=200 + at)} for at in range(25)
    ]
    past = [{"number": "00000099", **instants(release=-5, expires=-3)}]
    index = made_index(f"{folder}/index", [(b"/a", envelopes + past)])
    text = text_of_report(index)
    held, expiring = section(text, "HELD, AND RELEASED NEXT"), section(text, "EXPIRES NEXT")
    assert (len(held), len(expiring)) == (20, 20)
    assert held[0] == "/a  25  TST 00000024 20240301  2024-03-01T12:01:16Z"
    assert held[19] == "/a  6  TST 00000005 20240301  2024-03-01T12:01:35Z"
    assert expiring[0] == "/a  1  TST 00000000 20240301  2024-03-01T12:03:20Z"
    assert expiring[1] == "/a  2  TST 00000001 20240301  2024-03-01T12:03:21Z"


DAY = 86_400


def test_counts_ages_at_their_borders(folder: str) -> None:
    borders = 3_600, DAY, 7 * DAY, 30 * DAY, 365 * DAY
    ages = [-1, 0, *(age for border in borders for age in (border - 1, border))]
    index = made_index(
        f"{folder}/index", [(b"/a", [{"sent": SECOND - age} for age in ages] + [{}])]
    )
    assert bars(text_of_report(index), "AGES") == {
        "no time sent": 1,
        "sent after now": 1,
        "under an hour": 2,
        "under a day": 2,
        "under a week": 2,
        "under 30 days": 2,
        "under a year": 2,
        "a year or more": 1,
    }


def test_counts_sizes_days_and_hours(folder: str) -> None:
    sizes = [0, 1, 2, 3, 4, 5, 1_024, 1_025, 65_536]
    times = [{"size": size, "sent": hour * 3_600 + 3_599} for hour, size in enumerate(sizes)]
    days = [{"date_sent": f"2024030{day}"} for day in (1, 1, 2)]
    index = made_index(f"{folder}/index", [(b"/a", times + days)])
    text = text_of_report(index)
    of_size = bars(text, "SIZES OF OBJECTS, AT MOST N OCTETS")
    assert of_size == {"1": 2, "2": 1, "4": 2, "8": 1, "64": 3, "1,024": 1, "2,048": 1, "65,536": 1}
    hours = bars(text, "ENVELOPES BY HOUR SENT (UTC)")
    assert (len(hours), [hours[f"{at:02}"] for at in range(10)], hours["no time"]) == (
        25,
        [1] * 9 + [0],
        3,
    )
    assert bars(text, "ENVELOPES BY DAY SENT") == {"2024-03-01": 11, "2024-03-02": 1}


def test_counts_repeats_refusals_and_services(folder: str) -> None:
    same: List[Dict[str, Any]] = [{"number": "00000007"}] * 3
    files = [(b"/%02d" % at, same) for at in range(4)] + [(b"/x", [{"service": "AAA"}])]
    index = made_index(f"{folder}/index", files, [1, 2])
    text = text_of_report(index)
    assert section(text, "REPEATS") == ["TST 00000007 20240301  12"]
    assert sums_line(text)["repeated"] == 11
    assert bars(text, "REFUSALS BY CAUSE") == {"15 BadValue": 2}
    assert bars(text, "REFUSALS BY SERVICE") == {"TST": 2}
    assert [line.partition(":")[0] for line in section(text, "DAMAGED FILES")] == ["/00", "/01"]
    assert "/00: envelope 4, octet 61 of the file, 1:70, cause 15 BadValue" in text


def test_lists_damaged_files_up_to_a_number(folder: str, monkeypatch: pytest.MonkeyPatch) -> None:
    monkeypatch.setattr(report, "DAMAGED", 3)
    files: List[Tuple[bytes, List[Any]]] = [(b"/%02d" % at, []) for at in range(5)]
    text = text_of_report(made_index(f"{folder}/index", files, range(1, 6)))
    listed = section(text, "DAMAGED FILES")
    assert len(listed) == 4
    assert listed[3] == "and 2 more, which `query --only refused` prints"


def test_reports_runs_and_fixity(folder: str) -> None:
    index, tree = f"{folder}/index", f"{folder}/tree"
    for name in "abcd":
        write_file(tree, f"{name}.iim", STORY)
    os.mkfifo(f"{tree}/fifo")
    called("--into", index, "--root", tree, tree)
    assert bars(text_of_report(index), "FILES BY THEIR LAST VERIFICATION") == {
        "not verified yet": 4,
        "without a checksum": 1,
    }
    os.remove(f"{tree}/a.iim")
    write_file(tree, "b.iim", SMALLEST)
    called("verify", index)
    write_file(tree, "e.iim", STORY)
    called("--into", index, tree)
    text = text_of_report(index)
    # (the file that changed was read again, and the one that is missing is gone)
    assert bars(text, "FILES BY THEIR LAST VERIFICATION") == {
        "intact": 2,
        "not verified yet": 2,
        "without a checksum": 1,
    }
    assert section(text, "NOT INTACT") == ["none"]
    runs = [line.split("  ") for line in section(text, "RUNS")]
    assert [[run[0], run[1], run[2], run[5]] for run in runs] == [
        ["1", "index", "2", "3"],
        ["2", "verify", "2", "0"],
        ["3", "index", "2", "3"],
    ]
    assert runs[1][6].startswith("4 files, 2 intact, 1 changed, 0 damaged, 1 missing, ")
    os.remove(f"{tree}/c.iim")
    called("verify", index)
    (line,) = section(text_of_report(index), "NOT INTACT")
    assert re.fullmatch(r"c\.iim  missing  20\S+Z", line)


def test_writes_fifty_pages_and_escapes_links(folder: str) -> None:
    paths = [write_file(folder, f"tree/{at}.iim", STORY + b"\x1d") for at in range(PAGES + 2)]
    pages = Pages(f"{folder}/a b#c?.html", (65_536, 512), [], False)
    known = [(os.stat(path).st_size, os.stat(path).st_mtime_ns) for path in paths]
    links = [pages.page_of(os.fsencode(path), each) for path, each in zip(paths, known)]
    assert (PAGES, links[50:]) == (50, [None, None])
    assert links[0] == "a%20b%23c%3F.files/1.html"
    assert links[49] == "a%20b%23c%3F.files/50.html"
    assert sorted(os.listdir(f"{folder}/a b#c?.files")) == sorted(
        f"{at}.html" for at in range(1, 51)
    )
    assert "6.iim" in Path(f"{folder}/a b#c?.files/7.html").read_text(encoding="utf-8")


def test_says_that_a_file_differs_from_the_index(folder: str) -> None:
    path = os.fsencode(write_file(folder, "tree/a.iim", STORY + b"\x1d"))
    now = os.stat(path).st_size, os.stat(path).st_mtime_ns
    second = 1_709_294_400 * 10**9
    pages = Pages(f"{folder}/report.html", (65_536, 512), [], False)
    for nth, known in enumerate([now, (now[0] - 1, now[1]), (now[0], second)], 1):
        assert pages.page_of(path, known) == f"report.files/{nth}.html"
        page = Path(f"{folder}/report.files/{nth}.html").read_text(encoding="utf-8")
        assert (known, "The file was changed after" in page) == (known, known != now)
    assert f"then it had {len(STORY) + 1} octets of 2024-03-01T12:00:00Z, and now it has" in page
