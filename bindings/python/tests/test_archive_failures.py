"""Failures of iim-archive, and its progress on a terminal."""
from __future__ import annotations
from support.bindings.running import NO_ARGUMENTS
from typing import Any, Callable, IO, List, Sequence, Tuple, Union
from support.bindings.running import python_with
from support.bindings.archive import LONG_ENVELOPES, MAIN, Row

import contextlib
import json
import os
import pty
import re
import sqlite3
import subprocess
import sys
import tempfile

from envelopes import SMALLEST
from iim.archive import schema
from support.bindings.archive import (
    archive,
    expect_failures,
    failing,
    locked_database,
    long_tree,
    query,
    random_tree,
    small_disk,
    stored,
)
from support.bindings.paths import environment, NOW, SECONDS
from support.bindings.running import files_in, octets_of, run, write_file


def at_terminal(text: str, words: Sequence[str]) -> Tuple[str, Row]:
    """Return the progress printed on a terminal, and the last line of standard output."""
    program = [sys.executable, "-c", MAIN.format(text), "--now", NOW, *words]
    with tempfile.TemporaryFile() as output:
        reported = told_at_terminal(program, output)
        output.seek(0)
        return reported.decode(), json.loads(output.read().splitlines()[-1])


def told_at_terminal(program: Sequence[str], output: Union[int, IO[bytes]]) -> bytes:
    """Return a program's standard error on a terminal. The program must end with status 1."""
    mine, its = pty.openpty()
    process = subprocess.Popen(program, stdout=output, stderr=its, env=environment())
    os.close(its)
    reported = []
    with contextlib.suppress(OSError):
        while piece := os.read(mine, 4096):
            reported.append(piece)
    os.close(mine)
    assert process.wait(SECONDS) == 1
    return b"".join(reported)


def test_prints_progress_on_a_terminal(folder: str) -> None:
    tree = random_tree(f"{folder}/tree")
    count = len(files_in(tree))
    for words in NO_ARGUMENTS, ["--into", f"{folder}/index"], ["--into", f"{folder}/index"]:
        reported, sums = at_terminal(
            "progress.Progress.EVERY = 0\nsys.modules['tqdm'] = None",
            [*words, "--batch", "5", tree],
        )
        last = reported.splitlines()[-1]
        assert re.match(rf"{count} files, \d+ envelopes, \d+ refused, [\d.]+ MB/s, 0:", last), (
            words,
            reported[-300:],
        )
        assert sums["files"] == count
    # (not at each batch)
    assert at_terminal("progress.Progress.EVERY = 60\nsys.modules['tqdm'] = None", [tree])[0] == ""


def test_prints_progress_with_tqdm(folder: str) -> None:
    python = python_with("tqdm")
    tree = random_tree(f"{folder}/tree")
    # (at each batch: by default tqdm reports nothing within a tenth of a second)
    text = MAIN.format("progress.Progress.EVERY = 0")
    program = [python, "-c", text, "--now", NOW, "--batch", "5", tree]
    reported = told_at_terminal(program, subprocess.DEVNULL)
    counts = [int(count) for count in re.findall(rb", (\d+) files, ", reported)]
    assert b"B/s" in reported and 1 < max(counts) <= len(files_in(tree)), repr(reported[-300:])


def indexes_at_fault(folder: str, tree: str) -> List[Tuple[str, str]]:
    """Return the paths of files that can't be an index, each with a part of the message."""
    index = f"{folder}/index"
    stored(index, [tree])
    octets = octets_of(index)
    # (its first page, which identifies it, is unchanged)
    damaged = write_file(
        folder, "damaged", octets[:4096] + bytes(255 - octet for octet in octets[4096:])
    )
    cut = write_file(folder, "cut", octets[:4096])
    text = write_file(folder, "text", b"no database " * 1000)
    for name, tables in ("foreign", "files (file, path)"), ("other", "envelopes (file)"):
        with contextlib.closing(sqlite3.connect(f"{folder}/{name}")) as database:
            database.execute(f"CREATE TABLE {tables}")
            database.execute(f"PRAGMA user_version = {schema.FORM}")
            database.commit()
    os.mkfifo(f"{folder}/fifo")
    os.mkdir(f"{folder}/folder")
    other = "not an index of iim-archive"
    return [
        (damaged, "damaged: "),
        (cut, "cut: "),
        (text, "text: file is not a database"),
        (f"{folder}/foreign", f"foreign: {other}"),
        (f"{folder}/other", f"other: {other}"),
        (f"{folder}/fifo", "fifo: is not a regular file"),
        (f"{folder}/folder", "folder: is a directory"),
    ]


# Lets a run fail when it adds the first rows.
FAILS = "def fails(*words):\n    raise {}\nprogram.Report.add = fails"


def failing_outputs(tree: str, index: str) -> List[Tuple[Any, ...]]:
    """Return the arguments of runs whose output fails, each with a part of the line."""
    runs = (
        [tree],
        ["query", index],
        ["query", "--csv", index],
        ["report", index],
        ["--into", index, tree],
    )
    provoked: List[Tuple[Any, ...]] = [
        (words, "standard output: closed", {"to": ">&-"}) for words in runs
    ]
    provoked += [
        (words, "standard output: No space left on device", {"to": ">/dev/full"}) for words in runs
    ]
    provoked += [
        ([*words, "--help"], "standard output: No space left on device", {"to": ">/dev/full"})
        for words in (NO_ARGUMENTS, ["query"], ["report"])
    ]
    return provoked


def provoked_failures(folder: str, tree: str, index: str) -> List[Tuple[Any, ...]]:
    """Return the arguments of runs that fail, each with a part of the line that it prints."""
    new = f"{folder}/new"
    return [
        (["query", f"{folder}/absent"], "absent: there is no index"),
        (["report", f"{folder}/absent"], "absent: there is no index"),
        (["--into", f"{folder}/absent/index", tree], "absent/index: No such file or directory"),
        (["--into", f"{tree}/empty.iim", f"{tree}/empty.iim"], "empty.iim: is an input"),
        (["--workers", "8", tree], "--workers 8: Too many open files", {"shell": "ulimit -n 20;"}),
        (
            ["--workers", "8", "--into", new, tree],
            "--workers 8: Too many open files",
            {"shell": "ulimit -n 20;"},
        ),
        ([tree], "no libiim.so: ", {"IIM_LIBRARY": f"{folder}/absent"}),
        (["--workers", "2", tree], "no libiim.so: ", {"IIM_LIBRARY": f"{folder}/absent"}),
        (
            [tree],
            "ZeroDivisionError: of ours",
            {"text": FAILS.format("ZeroDivisionError('of ours')")},
        ),
        (
            [tree],
            "out of memory",
            {"text": FAILS.format("MemoryError")},
        ),
        (
            ["--scheduler", "tcp://127.0.0.1:1", tree],
            "--scheduler: Dask distributed is not installed",
            {"text": "sys.modules['distributed'] = None"},
        ),
    ]


def test_fails_with_one_line_and_status_three(folder: str) -> None:
    tree, index = random_tree(f"{folder}/tree"), f"{folder}/index"
    at_fault = indexes_at_fault(folder, tree)
    provoked: List[Tuple[Any, ...]] = []
    for path, reported in at_fault:
        for words in ["query", path], ["report", path], ["--into", path, tree]:
            provoked.append((words, reported))
    provoked += failing_outputs(tree, index) + provoked_failures(folder, tree, index)
    expect_failures(provoked)
    write_file(tree, "new.iim", SMALLEST)
    with locked_database(index):
        expect_failures(
            [
                (
                    ["--into", index, tree],
                    "index: database is locked",
                    {"text": "index.LOCK_WAIT = 0.2"},
                )
            ]
        )
    makers: List[Tuple[str, Callable[[str], object]]] = [
        ("link", lambda path: os.symlink(index, path)),
        ("fifo", os.mkfifo),
        ("folder", os.mkdir),
    ]
    for name, make in makers:
        make(f"{folder}/{name}.index.lock")
        expect_failures([(["--into", f"{folder}/{name}.index", tree], f"{name}.index: ")])
    assert len(provoked) >= 40, f"{len(provoked)} failures"
    # (the existing file is unchanged)
    assert (query([index])[0], octets_of(f"{folder}/text")) == (0, b"no database " * 1000)


def test_prints_partial_sums_on_a_full_disk(folder: str) -> None:
    with small_disk(folder, 1 << 20) as disk:
        tree = long_tree(f"{folder}/tree")
        for words in NO_ARGUMENTS, ["--workers", "2"]:
            status, output, errors = failing([*words, "--into", f"{disk}/index", tree])
            assert (words, status, errors) == (
                words,
                3,
                f"iim-archive: {disk}/index: database or disk is full\n",
            )
            sums = json.loads(output)
            assert (
                0 < sums["files"] <= 600 and 0 < sums["envelopes"] < LONG_ENVELOPES
            ), f"{words}: {sums}"
        # (when the disk has space again, the next run continues)
        run(["mount", "-o", "remount,size=64m", disk])
        assert stored(f"{disk}/index", [tree])[0] == 0
        assert (query([f"{disk}/index"])[1] == archive([tree])[1]) is True
