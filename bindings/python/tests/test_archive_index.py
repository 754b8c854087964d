"""Indexes of iim-archive, and what a second run reads."""
from __future__ import annotations
from support.bindings.archive import sums_of

import contextlib
import json
import os
import sqlite3
import sys

import rules
from envelopes import SMALLEST, STORY, STORY_FIELDS, STORY_HEAD
from iim.archive import index as archive_index
from support.bindings.archive import archive, in_program, query, random_tree, stored
from support.bindings.paths import environment, NOW, SAMPLES
from support.bindings.running import run, write_file


def test_stores_the_rows_that_it_prints(folder: str) -> None:
    tree = random_tree(f"{folder}/tree")
    status, rows, sums, errors = archive([tree])
    assert (status, errors) == (1, "")
    ways = "", "--workers 2", "--workers 2 --batch 1", "--batch 7"
    for at, words in enumerate(way.split() for way in ways):
        index = f"{folder}/{at}.index"
        assert (words, stored(index, [*words, tree])) == (
            words,
            (status, {**sums, "unchanged": 0, "gone": 0}, ""),
        )
        assert (words, query([index])) == (words, (0, rows, ""))
        assert (words, stored(index, [*words, tree])) == (
            words,
            (status, {**sums, "unchanged": sums["files"], "gone": 0}, ""),
        )
        assert (words, query([index])) == (words, (0, rows, ""))
    # (a name that is not UTF-8, and an index inside the tree)
    for name in b"\xff.iim", 'é\n "x".iim'.encode():
        with open(os.path.join(os.fsencode(tree), name), "wb") as to:
            to.write(STORY)
    status, rows, sums, errors = archive([tree])
    for turn in range(2):
        assert (turn, sums_of(f"{tree}/index", [tree])["files"]) == (turn, sums["files"])
    assert query([f"{tree}/index"]) == (0, rows, "")


def test_computes_ages_and_copy_at_each_instant(folder: str) -> None:
    dates = (
        (b"20240301", b"120000+0000"),
        (b"20240301", b"120001+0000"),
        (b"20240302", None),
        (b"99991231", b"000000+0000"),
    )
    for at, (date, time_sent) in enumerate(dates):
        fields = [
            *STORY_FIELDS[:5],
            (1, 70, date),
            *([(1, 80, time_sent)] if time_sent else []),
            (2, 0, b"\0\4"),
        ]
        for of_copy in (30, 35), (37, 38):
            more = [(2, of_copy[0], date), *([(2, of_copy[1], time_sent)] if time_sent else [])]
            write_file(
                folder,
                f"tree/{at}-{of_copy[0]}.iim",
                rules.packed([*fields, *more], rules.object_of(STORY_HEAD, [b"a"], b""), 1024),
            )
    stored(f"{folder}/index", [f"{folder}/tree"])
    for now in (
        NOW,
        "2024-03-01T12:00:00.000001Z",
        "2024-03-01T12:00:01Z",
        "2030-01-01T00:00:00Z",
        "9999-12-30T22:00:00Z",
        "0001-01-01T00:00:00Z",
    ):
        rows = archive(["--now", now, f"{folder}/tree"])[1]
        assert (now, query(["--now", now, f"{folder}/index"])[1]) == (now, rows)
        assert len(rows) == 8, f"{len(rows)} rows"


def test_reads_only_new_or_changed_files(folder: str) -> None:
    tree, index = f"{folder}/tree", f"{folder}/index"
    for name in "a", "b", "c", "d", "e/f", "e/g":
        write_file(tree, f"{name}.iim", SMALLEST * 3)
    assert sums_of(index, [tree])["envelopes"] == 18
    was = {name: os.stat(f"{tree}/{name}.iim") for name in ("a", "b", "c")}
    # (the same size and time: its new content is not read)
    write_file(tree, "a.iim", b"\x1d" * 342)
    os.utime(f"{tree}/a.iim", ns=(0, was["a"].st_mtime_ns))
    # (the same size, and then the same time)
    write_file(tree, "b.iim", STORY + b"\x1d" * 96)
    os.utime(f"{tree}/b.iim", ns=(0, was["b"].st_mtime_ns + 1))
    write_file(tree, "c.iim", STORY)
    os.utime(f"{tree}/c.iim", ns=(0, was["c"].st_mtime_ns))
    os.remove(f"{tree}/d.iim")
    write_file(tree, "e.iim", STORY)
    write_file(tree, "e/ff.iim", b"")
    status, sums, errors = stored(index, [tree])
    assert (status, errors) == (1, "")
    assert sums == {
        "files": 7,
        "unchanged": 3,
        "gone": 1,
        "envelopes": 12,
        "repeated": 10,
        "held": 0,
        "refused": 1,
        "empty": 1,
        "failed": 0,
        "linked": 0,
    }
    printed = [(os.path.relpath(row["file"], tree), row.get("length")) for row in query([index])[1]]
    want = [("a.iim", 114)] * 3 + [("b.iim", 246), ("b.iim", None), ("c.iim", 246), ("e.iim", 246)]
    want += [("e/f.iim", 114)] * 3 + [("e/ff.iim", None)] + [("e/g.iim", 114)] * 3
    assert printed == want
    assert query(["--only", "gone", index])[1] == [{"file": f"{tree}/d.iim", "gone": True}]
    # (a file that is present again, and unchanged, is not read)
    write_file(tree, "d.iim", b"\x1d" * 342)
    os.utime(f"{tree}/d.iim", ns=(0, 0))
    assert sums_of(index, [tree])["unchanged"] == 7
    assert query(["--only", "gone", index])[1] == []


# Makes a directory of this name impossible to list, since root may list any.
SHUT = """
list_all = os.scandir
def listed(path):
    if path.endswith(b"/b"):
        raise PermissionError(13, "Permission denied")
    return list_all(path)
os.scandir = listed
"""


def test_marks_only_files_that_are_gone(folder: str) -> None:
    tree, other, index = f"{folder}/tree", f"{folder}/tree-2", f"{folder}/index"
    for name in "a", "b/c", "b/d", "b.x", "e":
        write_file(tree, f"{name}.iim", SMALLEST)
    write_file(tree, "f.txt", STORY)
    write_file(other, "a.iim", STORY)
    assert sums_of(index, [tree, other])["files"] == 7
    os.rename(f"{tree}/b", f"{folder}/away")
    os.remove(f"{tree}/f.txt")
    # (another tree, other names, and a directory that can't be listed are not marked)
    want = {
        "files": 3,
        "unchanged": 3,
        "gone": 2,
        "envelopes": 5,
        "repeated": 3,
        "held": 0,
        "refused": 0,
        "empty": 0,
        "failed": 0,
        "linked": 0,
    }
    assert stored(index, ["--name", "*.iim", tree])[1] == want
    assert [os.path.relpath(row["file"], tree) for row in query(["--only", "gone", index])[1]] == [
        "b/c.iim",
        "b/d.iim",
    ]
    os.rename(f"{folder}/away", f"{tree}/b")
    assert sums_of(index, [tree])["gone"] == 1
    status, lines, errors = in_program(SHUT, ["--into", index, tree])
    assert (status, errors, lines[-1]["gone"], lines[-1]["failed"]) == (3, "", 1, 1)
    assert query(["--only", "failed", index])[1] == [
        {"file": f"{tree}/b/", "failed": "Permission denied"}
    ]
    assert [os.path.relpath(row["file"], tree) for row in query(["--only", "gone", index])[1]] == [
        "f.txt"
    ]
    assert (stored(index, [tree])[0], query(["--only", "failed", index])[1]) == (0, [])


def test_rereads_files_that_failed(folder: str) -> None:
    tree, index = f"{folder}/tree", f"{folder}/index"
    path = write_file(tree, "a.iim", SMALLEST)
    fails = (
        "def fails(*words, **named):\n    raise OSError(5, 'Input/output error')\n"
        "rows.blocks_of = fails"
    )
    status, lines, errors = in_program(fails, ["--into", index, tree])
    assert (status, errors, lines[-1]["failed"]) == (3, "", 1)
    assert query([index])[1] == [{"file": path, "failed": "Input/output error"}]
    assert stored(index, [tree])[0] == 0
    assert [row["length"] for row in query([index])[1]] == [114]


def test_rejects_files_that_are_no_index(folder: str) -> None:
    other = f"{folder}/other"
    with contextlib.closing(sqlite3.connect(other)) as database:
        database.execute("CREATE TABLE files (name)")
    write_file(folder, "text", b"no database " * 100)
    for path, why in (other, "not an index of iim-archive"), (
        f"{folder}/text",
        "file is not a database",
    ):
        assert (path, stored(path, [SAMPLES])) == (path, (3, None, f"iim-archive: {path}: {why}\n"))
        assert (path, query([path])) == (path, (3, [], f"iim-archive: {path}: {why}\n"))
    assert query([f"{folder}/absent"]) == (
        3,
        [],
        f"iim-archive: {folder}/absent: there is no index\n",
    )
    assert (
        stored(f"{folder}/absent/index", [SAMPLES])[2]
        == f"iim-archive: {folder}/absent/index: No such file or directory\n"
    )
    index = archive_index.Index(f"{folder}/index")
    assert stored(f"{folder}/index", [SAMPLES]) == (
        3,
        None,
        f"iim-archive: {folder}/index: another run is writing it\n",
    )
    index.close()
    assert stored(f"{folder}/index", [SAMPLES])[0] == 1


# Passes generated rows through the process that writes, and prints its peak memory.
MADE = """
import argparse, json, re, sys
from iim.archive import index, progress, updating
kept_in = index.Index(sys.argv[1])
kept_in.begin("index", index.Rules("2", 65_536, 512, "none", "latin-1"))
words = argparse.Namespace(name="*", into=sys.argv[1])
kept = updating.Update(kept_in, words, progress.Silence())
for file in range(1, int(sys.argv[2]) // 1000 + 1):
    rows = []
    for e in range(1000):
        number = "%08d" % ((file * 1000 + e) % 79_999)
        rows += file, e + 1, e * 100, 100, "TST", number, "20240301", "5"
        rows += 50, 1, 9, 9, 1
    row = file, b"/made/%06d" % file, 100_000, 1, 100_000, "accepted", "", "", b""
    kept.add([(row, rows, [], None, [])])
sums = kept_in.end(0)
kept_in.close()
with open("/proc/self/status") as status:
    peak = int(re.search(r"VmHWM:\\s+(\\d+) kB", status.read())[1])
print(json.dumps([sums["envelopes"], sums["repeated"], peak]))
"""


def test_keeps_no_id_in_memory(folder: str) -> None:
    status, output, errors = run(
        [sys.executable, "-c", MADE, f"{folder}/index", "120000"], env=environment()
    )
    assert (status, errors) == (0, b"")
    envelopes, repeated, kilobytes = json.loads(output)
    assert (envelopes, repeated) == (120_000, 120_000 - 79_999)
    assert kilobytes < 200_000, f"{kilobytes} KB"
    assert len(query(["--repeats", f"{folder}/index"])[1]) == 40_001
