"""Files with several names, and trees with several: each is counted once."""
from __future__ import annotations

import os
from typing import List, Tuple

from envelopes import SMALLEST, STORY
from support.bindings.archive import called, rows_called
from support.bindings.indexes import rows_in
from support.bindings.running import write_file


def linked_tree(folder: str) -> str:
    """Write a tree of two files, with hard links, links to files and a link out of the tree."""
    tree = f"{folder}/tree"
    write_file(tree, "b.iim", SMALLEST)
    os.link(f"{tree}/b.iim", f"{tree}/d.iim")
    os.symlink("b.iim", f"{tree}/a.iim")
    os.symlink("below/e.iim", f"{tree}/c.iim")
    write_file(tree, "below/e.iim", STORY)
    write_file(folder, "outside.iim", STORY + SMALLEST)
    os.symlink("../outside.iim", f"{tree}/f.iim")
    os.symlink("../outside.iim", f"{tree}/g.iim")
    os.symlink("absent", f"{tree}/h.iim")
    return tree


LINKED = {"a.iim": "b.iim", "c.iim": "below/e.iim", "d.iim": "b.iim", "g.iim": "f.iim"}


def test_prints_a_file_with_several_names_once(folder: str) -> None:
    tree = linked_tree(folder)
    *rows, sums = rows_called(tree)
    want = {"files": 4, "envelopes": 4, "repeated": 2, "failed": 1, "linked": 4}
    assert {name: sums[name] for name in want} == want
    linked = {row["file"]: row["linked"] for row in rows if "linked" in row}
    assert linked == {f"{tree}/{name}": f"{tree}/{first}" for name, first in LINKED.items()}
    assert [row for row in rows if "failed" in row] == [
        {"file": f"{tree}/h.iim", "failed": "No such file or directory"}
    ]


def test_indexes_a_file_with_several_names_once(folder: str) -> None:
    tree, index = linked_tree(folder), f"{folder}/index"
    (sums,) = rows_called("--into", index, "--root", tree, tree)
    counts = {"files": 4, "envelopes": 4, "repeated": 2, "failed": 1, "linked": 4}
    assert {name: sums[name] for name in counts} == counts
    linked = rows_called("query", "--only", "linked", index)
    assert {row["file"]: row["linked"] for row in linked} == LINKED
    (again,) = rows_called("--into", index, tree)
    assert (again["unchanged"], again["linked"], again["envelopes"]) == (3, 4, 4)
    # (the report, too, counts files and octets once)
    line = called("report", index)[1].splitlines()[1]
    octets = 2 * len(SMALLEST) + 2 * len(STORY)
    assert line.startswith(f"3 files, {octets} octets, 4 envelopes, ") is False
    assert f", {octets:,} octets, 4 envelopes, 2 repeated, " in line
    assert line.endswith(", 1 failed, 4 linked, 0 gone")
    manifest = called("manifest", index)[1].splitlines()
    assert len(manifest) == 7 and len({line[:64] for line in manifest}) == 3
    assert rows_called("verify", index)[-1]["files"] == 3


def test_reads_the_next_name_if_the_first_is_gone(folder: str) -> None:
    tree, index = linked_tree(folder), f"{folder}/index"
    rows_called("--into", index, "--root", tree, tree)
    os.remove(f"{tree}/b.iim")
    (sums,) = rows_called("--into", index, tree)
    # (a.iim is now a link to nothing)
    assert (sums["gone"], sums["failed"], sums["envelopes"], sums["linked"]) == (1, 2, 4, 2)
    states = dict(rows_in(index, "SELECT path, state FROM files WHERE gone = 0"))
    assert states[b"d.iim"] == "accepted"
    os.link(f"{tree}/d.iim", f"{tree}/b.iim")
    (sums,) = rows_called("--into", index, tree)
    assert (sums["gone"], sums["failed"], sums["envelopes"], sums["linked"]) == (0, 1, 4, 4)
    assert rows_in(index, "SELECT count(*) FROM envelopes") == [4]


def test_counts_a_tree_with_two_names_once(folder: str) -> None:
    tree = f"{folder}/tree"
    for name in "a.iim", "below/b.iim":
        write_file(tree, name, SMALLEST)
    os.symlink("tree/below", f"{folder}/link")
    os.symlink("tree", f"{folder}/other")
    runs: List[Tuple[List[str], int]] = [
        ([tree, f"{folder}/link"], 2),
        ([f"{folder}/other", tree], 2),
        ([tree, tree], 2),
        ([f"{tree}/below", tree], 2),
        ([f"{folder}/link"], 1),
        ([f"{tree}/a.iim", f"{tree}/a.iim"], 1),
        ([f"{tree}/a.iim", tree], 2),
    ]
    for at, (trees, want) in enumerate(runs):
        assert (trees, rows_called(*trees)[-1]["files"]) == (trees, want)
        (sums,) = rows_called("--into", f"{folder}/{at}.index", *trees)
        assert (trees, sums["files"], sums["envelopes"]) == (trees, want, want)


def test_reads_a_link_whose_target_is_not_listed(folder: str) -> None:
    tree = f"{folder}/tree"
    write_file(tree, "data.bin", SMALLEST)
    os.symlink("data.bin", f"{tree}/a.iim")
    os.symlink(f"{tree}/data.bin", f"{folder}/tree.iim")
    assert rows_called("--name", "*.iim", tree)[-1]["files"] == 1
    # (a link that is named itself)
    assert rows_called(f"{folder}/tree.iim")[-1]["files"] == 1
