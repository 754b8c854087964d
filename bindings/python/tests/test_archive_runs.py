"""The table of runs, what is read again, and names that are relative to a root."""
from __future__ import annotations

import contextlib
import json
import os
import re
import sqlite3
from typing import List

from envelopes import SMALLEST, STORY
from iim.archive.schema import RELEASE
from support.bindings.archive import called, flip, rows_called
from support.bindings.indexes import rows_in
from support.bindings.paths import NOW, TOP
from support.bindings.running import write_file


def test_records_each_run(folder: str) -> None:
    index, tree = f"{folder}/index", f"{folder}/tree"
    write_file(tree, "a.iim", SMALLEST)
    words = ["--limits", "70000", "300", "--name", "*.iim", "--text", "fields"]
    (sums,) = rows_called("--into", index, *words, "--encoding", "utf-8", tree)
    rows_called("--into", index, tree)
    rows_called("verify", index)
    columns = "run, command, release, octets, fields, text, encoding, root, trees, pattern, host"
    trees, host = json.dumps([tree]), os.uname().nodename
    assert rows_in(index, f"SELECT {columns} FROM runs") == [
        (1, "index", "2", 70_000, 300, "fields", "utf-8", None, trees, "*.iim", host),
        (2, "index", "2", 65_536, 512, "fields", "utf-8", None, trees, "*", host),
        (3, "verify", "2", None, None, None, None, None, "[]", "*", host),
    ]
    stored = rows_in(index, "SELECT sums FROM runs")
    assert json.loads(stored[0]) == sums
    assert json.loads(stored[2])["intact"] == 1
    assert rows_in(index, "SELECT count(*) FROM runs WHERE started <= ended") == [3]


def test_states_the_release_of_the_command() -> None:
    text = (TOP / "crates/iim_request/src/commands.rt").read_text(encoding="utf-8")
    assert re.findall(r'^const RELEASE: .* = "(\d+)";$', text, re.M) == [RELEASE]


def test_names_the_run_that_read_a_file(folder: str) -> None:
    index, tree = f"{folder}/index", f"{folder}/tree"
    write_file(tree, "a.iim", SMALLEST)
    rows_called("--into", index, tree)
    write_file(tree, "b.iim", SMALLEST)
    rows_called("--into", index, tree)
    write_file(tree, "a.iim", STORY)
    rows_called("--into", index, tree)
    assert rows_in(index, "SELECT run FROM files ORDER BY path") == [3, 2]


def test_reads_again_what_other_rules_read(folder: str) -> None:
    index, tree = f"{folder}/index", f"{folder}/tree"
    write_file(tree, "a.iim", STORY)
    rules = ["--limits", "10", "3"]

    def read(*words: str) -> List[int]:
        (sums,) = rows_called("--into", index, *words, tree)
        return [sums["unchanged"], sums["envelopes"], sums["refused"]]

    assert read(*rules) == [0, 0, 1]
    assert read() == [1, 0, 1]
    assert read("--again", *rules) == [1, 0, 1]
    assert read("--again") == [0, 1, 0]
    assert read("--again") == [1, 1, 0]
    assert read("--again", "--text", "all") == [0, 1, 0]
    assert read("--again", "--encoding", "cp1252") == [0, 1, 0]
    # (another release)
    with contextlib.closing(sqlite3.connect(index)) as database:
        database.execute("UPDATE runs SET release = '1'")
        database.commit()
    assert [read(), read("--again"), read("--again")] == [[1, 1, 0], [0, 1, 0], [1, 1, 0]]


def test_reads_again_what_a_checksum_contradicts(folder: str) -> None:
    index, tree = f"{folder}/index", f"{folder}/tree"
    paths = [write_file(tree, f"{name}.iim", STORY) for name in "abc"]
    rows_called("--into", index, tree)
    before = rows_in(index, "SELECT sha256 FROM files ORDER BY path")
    flip(paths[1])
    assert rows_called("--into", index, "--again", tree)[0]["unchanged"] == 3
    assert called("verify", index)[0] == 1
    assert rows_called("--into", index, tree)[0]["unchanged"] == 3
    assert rows_called("--into", index, "--again", tree)[0]["unchanged"] == 2
    after = rows_in(index, "SELECT sha256 FROM files ORDER BY path")
    assert [was == now for was, now in zip(before, after)] == [True, False, True]
    assert rows_in(index, "SELECT fixity, verified FROM files ORDER BY path") == [
        ("intact", 3),
        (None, None),
        ("intact", 3),
    ]
    events = rows_in(index, "SELECT run, type, outcome, detail FROM events")
    assert events == [
        (3, "fixity check", "fail", f"damaged: {after[1]}"),
        (5, "replacement", "success", f"SHA-256 was {before[1]}"),
    ]
    assert called("verify", index)[0] == 0


def test_moves_an_archive_with_its_root(folder: str) -> None:
    index, here, there = (f"{folder}/{name}" for name in ("index", "here", "there"))
    for name in "a.iim", "below/b.iim":
        write_file(here, name, STORY + b"\x1d")
    assert called("--into", index, "--root", here, here)[0] == 1
    assert rows_in(index, "SELECT path FROM files ORDER BY path") == [b"a.iim", b"below/b.iim"]
    assert [row["file"] for row in rows_called("query", "--only", "refused", index)] == [
        "a.iim",
        "below/b.iim",
    ]
    os.rename(here, there)
    assert rows_called("verify", index)[-1]["missing"] == 2
    assert rows_called("verify", "--root", there, index)[-1]["intact"] == 2
    (sums,) = rows_called("--into", index, "--root", there, f"{there}/below")
    assert [sums["files"], sums["unchanged"], sums["gone"]] == [1, 1, 0]
    (sums,) = rows_called("--into", index, there)
    assert [sums["files"], sums["unchanged"], sums["gone"]] == [2, 2, 0]
    assert rows_called("verify", index)[-1]["intact"] == 2
    os.remove(f"{there}/below/b.iim")
    assert rows_called("--into", index, f"{there}/below")[0]["gone"] == 1


def test_makes_absolute_names_relative(folder: str) -> None:
    index, tree = f"{folder}/index", f"{folder}/tree"
    write_file(tree, "a.iim", SMALLEST)
    rows_called("--into", index, tree)
    (sums,) = rows_called("--into", index, "--root", folder, tree)
    assert sums["unchanged"] == 1
    assert rows_in(index, "SELECT path FROM files") == [b"tree/a.iim"]
    write_file(folder, "other/a.iim", SMALLEST)
    other = f"{folder}/other.index"
    rows_called("--into", other, tree, f"{folder}/other")
    status, _, errors = called("--into", other, "--root", tree, tree)
    assert (status, errors) == (3, f"iim-archive: {other}: has names that are not below {tree}\n")
    assert len(rows_in(other, "SELECT path FROM files WHERE substr(path, 1, 1) = x'2F'")) == 2


def test_rejects_trees_outside_the_root(folder: str) -> None:
    tree = f"{folder}/tree-2"
    write_file(tree, "a.iim", SMALLEST)
    status, _, errors = called("--into", f"{folder}/index", "--root", f"{folder}/tree", tree)
    assert (status, errors) == (
        3,
        f"iim-archive: {tree}: is not below the root {folder}/tree\n",
    )
    for words in ["--root", folder], ["--again"], ["--text", "all"], ["--encoding", "utf-8"]:
        assert (words, called(*words, tree)[0]) == (words, 2)
    assert called("--into", f"{folder}/index", "--encoding", "rot13", tree)[0] == 2


def test_stores_no_end_of_a_stopped_run(folder: str) -> None:
    index = f"{folder}/index"
    write_file(folder, "tree/a.iim", SMALLEST)
    rows_called("--into", index, "--now", NOW, f"{folder}/tree")
    with contextlib.closing(sqlite3.connect(index)) as database:
        database.execute("UPDATE runs SET ended = NULL, sums = NULL")
        database.commit()
    text = called("report", index)[1].partition("\nRUNS\n")[2].partition("\n\n")[0]
    assert re.fullmatch(r"  1  index  2  \S+Z  \(stopped\)  1  ", text), text
