"""Checksums: while files are read, verified, as manifests, and as events."""
from __future__ import annotations

import hashlib
import os
from pathlib import Path
from typing import Any, Dict, List, Optional

import pytest
from envelopes import SMALLEST, STORY
from iim.archive import verifying
from support.bindings.archive import called, flip, rows_called
from support.bindings.indexes import rows_in
from support.bindings.paths import NOW
from support.bindings.running import NO_ARGUMENTS, octets_of, run, write_file

SUMS = "files", "intact", "changed", "damaged", "missing", "unreadable", "unknown"


def sums_of(**counts: int) -> Dict[str, int]:
    """Return the last line of a verification."""
    return {**dict.fromkeys(SUMS, 0), **counts}


def indexed(folder: str, count: int) -> str:
    """Write files of two envelopes and their index."""
    for at in range(count):
        write_file(f"{folder}/tree", f"{at:04}.iim", STORY + SMALLEST)
    assert called("--into", f"{folder}/index", "--now", NOW, f"{folder}/tree")[0] == 0
    return f"{folder}/index"


def test_stores_the_checksum_of_each_file(folder: str) -> None:
    index, tree = f"{folder}/index", f"{folder}/tree"
    contents = {
        "accepted": SMALLEST * 700,
        "empty": b"",
        "refused at once": b"\x1d" * 300_000,
        "refused late": SMALLEST * 600 + b"\x1d" + bytes(200_000),
        "truncated": STORY[:100],
    }
    for name, octets in contents.items():
        write_file(tree, name, octets)
    os.mkfifo(f"{tree}/fifo")
    for words in NO_ARGUMENTS, ["--workers", "2"], ["--text", "all"]:
        called("--into", f"{index}{len(words)}", *words, tree)
        found = rows_in(f"{index}{len(words)}", "SELECT path, sha256 FROM files ORDER BY path")
        want: Dict[str, Optional[str]] = {
            name: hashlib.sha256(octets).hexdigest() for name, octets in contents.items()
        }
        assert (words, {os.path.basename(path).decode(): sha256 for path, sha256 in found}) == (
            words,
            dict(want, fifo=None),
        )


def test_verifies_each_state(folder: str) -> None:
    index = indexed(folder, 6)
    paths = [f"{folder}/tree/{at:04}.iim" for at in range(6)]
    assert rows_called("verify", index) == [sums_of(files=6, intact=6)]
    flip(paths[1])
    write_file(folder, "tree/0002.iim", STORY)
    os.remove(paths[3])
    os.remove(paths[4])
    os.mkfifo(paths[4])
    # (a time alone is no change)
    os.utime(paths[5])
    status, _, errors = called("verify", index)
    assert (status, errors) == (3, "")
    *rows, sums = rows_called("verify", index)
    was = hashlib.sha256(STORY + SMALLEST).hexdigest()
    found = [hashlib.sha256(octets_of(path)).hexdigest() for path in paths[1:3]]
    assert rows == [
        {"file": paths[1], "fixity": "damaged", "sha256": was, "found": found[0]},
        {"file": paths[2], "fixity": "changed", "sha256": was, "found": found[1]},
        {"file": paths[3], "fixity": "missing", "sha256": was},
        {
            "file": paths[4],
            "fixity": "unreadable",
            "sha256": was,
            "failed": "not a regular file",
        },
    ]
    counts = {"changed": 1, "damaged": 1, "missing": 1, "unreadable": 1}
    assert sums == sums_of(files=6, intact=2, **counts)
    states = ["intact", "damaged", "changed", "missing", "unreadable", "intact"]
    assert rows_in(index, "SELECT fixity FROM files ORDER BY path") == states
    assert rows_in(index, "SELECT DISTINCT verified FROM files") == [4]
    os.remove(paths[4])
    assert called("verify", index)[0] == 1
    assert called("verify", f"{folder}/none")[::2] == (
        3,
        f"iim-archive: {folder}/none: there is no index\n",
    )
    assert os.path.exists(f"{folder}/none") is False


def test_verifies_a_sample_and_what_is_due(folder: str) -> None:
    index = indexed(folder, 40)
    assert rows_called("verify", "--sample", "7", index) == [sums_of(files=7, intact=7)]
    assert rows_in(index, "SELECT count(*) FROM files WHERE verified = 2") == [7]
    assert rows_called("verify", "--sample", "25%", index)[-1]["files"] == 10
    done = rows_in(index, "SELECT count(*) FROM files WHERE verified IS NOT NULL")[0]
    due = rows_called("verify", "--not-since", "2000-01-01", index)[-1]
    assert (due["files"], due["intact"]) == (40 - done, 40 - done)
    assert rows_called("verify", "--not-since", "2000-01-01", index)[-1]["files"] == 0
    assert rows_called("verify", "--not-since", "2999-01-01", index)[-1]["files"] == 40
    for words in ["--sample", "0"], ["--sample", "101%"], ["--not-since", "yesterday"]:
        assert (words, called("verify", *words, index)[0]) == (words, 2)


def test_verifies_the_same_with_workers(folder: str) -> None:
    index = indexed(folder, 30)
    flip(f"{folder}/tree/0017.iim")
    alone = rows_called("verify", index)
    assert (len(alone), alone[-1]["damaged"]) == (2, 1)
    for words in ["--workers", "2"], ["--workers", "2", "--batch", "1"]:
        assert (words, rows_called("verify", *words, index)) == (words, alone)


def test_finds_one_damaged_byte(folder: str) -> None:
    index = indexed(folder, 1_000)
    flip(f"{folder}/tree/0613.iim", 200)
    assert rows_called("--into", index, f"{folder}/tree")[0]["unchanged"] == 1_000
    *rows, sums = rows_called("verify", index)
    assert [(row["file"], row["fixity"]) for row in rows] == [
        (f"{folder}/tree/0613.iim", "damaged")
    ]
    assert sums == sums_of(files=1_000, intact=999, damaged=1)


def test_reports_a_file_that_takes_too_long(folder: str, monkeypatch: pytest.MonkeyPatch) -> None:
    index = indexed(folder, 2)

    def slow(*_: Any) -> Any:
        raise TimeoutError("not read within 1 seconds")

    monkeypatch.setattr(verifying, "checksum_of", slow)
    status, output, errors = called("verify", index)
    assert (status, errors, output.count('"failed": "not read within 1 seconds"')) == (3, "", 2)


NAMES = [
    b"plain.iim",
    b"a b.iim",
    b"new\nline.iim",
    b"back\\slash.iim",
    b"re\rturn.iim",
    b"\xff.iim",
]


def named_files(folder: str, names: List[bytes]) -> None:
    """Write a file for each name."""
    os.makedirs(folder, exist_ok=True)
    for at, name in enumerate(names):
        Path(os.path.join(folder, os.fsdecode(name))).write_bytes(SMALLEST * (at + 1))


def test_writes_a_manifest_for_sha256sum(folder: str) -> None:
    tree, index = f"{folder}/tree", f"{folder}/index"
    named_files(tree, NAMES)
    called("--into", index, "--root", tree, tree)
    status, output, errors = called("manifest", index)
    assert (status, errors, output.count("\n")) == (0, "", len(NAMES))
    Path(folder, "SUMS").write_bytes(output.encode("utf-8", "surrogateescape"))
    checked = run(["sha256sum", "--check", "--strict", "--quiet", f"{folder}/SUMS"], cwd=tree)
    assert checked == (0, b"", b"")
    # (what sha256sum writes is read, too)
    for words in NO_ARGUMENTS, ["--tag"], ["--binary"]:
        names = [os.fsdecode(name) for name in sorted(NAMES)]
        listed = run(["sha256sum", *words, "--", *names], cwd=tree)[1]
        Path(tree, "SUMS").write_bytes(listed)
        (sums,) = rows_called("manifest", "--check", f"{tree}/SUMS", index)
        equal = {"equal": len(NAMES), "differs": 0, "absent": 0, "unlisted": 0, "unknown": 0}
        assert (words, sums) == (words, equal)
    os.rename(f"{tree}/SUMS", f"{folder}/SUMS")
    words = ["manifest", "--base", tree, "--check", f"{folder}/SUMS", index]
    assert rows_called(*words)[0]["equal"] == len(NAMES)


def test_finds_what_a_manifest_contradicts(folder: str) -> None:
    tree, index, zeros = f"{folder}/tree", f"{folder}/index", "0" * 64
    named_files(tree, [b"a", b"b", b"c"])
    called("--into", index, tree)
    sums = [hashlib.sha256(SMALLEST * at).hexdigest() for at in (1, 2, 3)]
    write_file(tree, "SUMS", f"{sums[0]}  ./a\n{zeros} *b\n{zeros}  d\n".encode())
    status, output, errors = called("manifest", "--check", f"{tree}/SUMS", index)
    assert (status, errors) == (1, "")
    assert rows_called("manifest", "--check", f"{tree}/SUMS", index) == [
        {"file": f"{tree}/b", "manifest": "differs", "sha256": sums[1], "listed": zeros},
        {"file": f"{tree}/c", "manifest": "unlisted", "sha256": sums[2]},
        {"file": f"{tree}/d", "manifest": "absent", "listed": zeros},
        {"equal": 1, "differs": 1, "absent": 1, "unlisted": 1, "unknown": 0},
    ]
    write_file(tree, "SUMS", f"{sums[0]}  a\nno line\n".encode())
    assert called("manifest", "--check", f"{tree}/SUMS", index) == (
        3,
        "",
        f"iim-archive: {tree}/SUMS: line 2: is not a line of a manifest\n",
    )
    assert called("manifest", "--check", f"{tree}/absent", index)[::2] == (
        3,
        f"iim-archive: {tree}/absent: No such file or directory\n",
    )


def test_writes_a_manifest_of_a_bag(folder: str) -> None:
    bag, index = f"{folder}/bag", f"{folder}/index"
    names = [b"100%.iim", b"50%25.iim", b"new\nline.iim", b"re\rturn.iim", b"\xc3\xa9.iim"]
    named_files(f"{bag}/data", names)
    write_file(bag, "bagit.txt", b"BagIt-Version: 1.0\nTag-File-Character-Encoding: UTF-8\n")
    called("--into", index, "--root", f"{bag}/data", f"{bag}/data")
    status, output, errors = called("manifest", "--bagit", index)
    assert (status, errors) == (0, "")
    # (as section 2.1.3 of RFC 8493 encodes CR, LF and percent signs)
    written = ["100%25.iim", "50%2525.iim", "new%0Aline.iim", "re%0Dturn.iim", "é.iim"]
    sums = [hashlib.sha256(SMALLEST * at).hexdigest() for at in range(1, 6)]
    assert output == "".join(f"{sums[at]}  data/{name}\n" for at, name in enumerate(written))
    write_file(bag, "manifest-sha256.txt", output.replace("%0A", "%0a").encode())
    words = ["manifest", "--bagit", "--check", f"{bag}/manifest-sha256.txt"]
    assert rows_called(*words, index)[0]["equal"] == 5
    # (the bag is the root)
    whole = f"{folder}/whole"
    called("--into", whole, "--root", bag, bag)
    assert called("manifest", "--bagit", whole)[1] == output
    absolute = f"{folder}/absolute"
    called("--into", absolute, bag)
    assert called("manifest", "--bagit", absolute)[0] == 3
    named_files(f"{bag}/data", [b"\xff"])
    called("--into", index, f"{bag}/data")
    assert "\\xff is not UTF-8" in called("manifest", "--bagit", index)[2]


def test_names_files_without_a_checksum(folder: str) -> None:
    tree, index = f"{folder}/tree", f"{folder}/index"
    named_files(tree, [b"a"])
    os.mkfifo(f"{tree}/fifo")
    called("--into", index, tree)
    status, output, errors = called("manifest", index)
    assert (status, output.count("\n")) == (3, 1)
    assert errors == "iim-archive: 1 files have no checksum\n"
    assert (
        called("verify", index)[1]
        == str(sums_of(files=1, intact=1, unknown=1)).replace("'", '"') + "\n"
    )


def test_maps_events_to_premis(folder: str) -> None:
    tree, index = f"{folder}/tree", f"{folder}/index"
    path = write_file(tree, "a.iim", STORY)
    rows_called("--into", index, "--root", tree, tree)
    assert called("verify", index)[0] == 0
    flip(path)
    assert called("verify", index)[0] == 1
    os.rename(path, f"{folder}/away")
    called("--into", index, tree)
    os.rename(f"{folder}/away", path)
    called("--into", index, tree)
    was = hashlib.sha256(STORY).hexdigest()
    now = hashlib.sha256(octets_of(path)).hexdigest()
    columns = "run, eventType, eventOutcome, eventOutcomeDetailNote, linkingObjectIdentifierValue"
    found = rows_in(index, f"SELECT {columns} FROM premis_events ORDER BY run, eventType")
    assert found == [
        (1, "message digest calculation", "success", f"SHA-256 {was}", "a.iim"),
        (1, "validation", "success", "accepted", "a.iim"),
        (3, "fixity check", "fail", f"damaged: {now}", "a.iim"),
        (4, "deletion", "warning", "no longer there", "a.iim"),
        (5, "recovery", "success", "there again, and unchanged", "a.iim"),
    ]
    agent = f"iim-archive 2 on {os.uname().nodename}"
    assert rows_in(index, "SELECT DISTINCT linkingAgentIdentifierValue FROM premis_events") == [
        agent
    ]
    times = rows_in(index, "SELECT eventDateTime FROM premis_events")
    assert all(len(each) == len("2024-03-01T12:00:00Z") and each[10] == "T" for each in times)
