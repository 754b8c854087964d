"""Kill runs of iim-archive that write an index, restart them, and check the index.

    PYTHONPATH=bindings/python/src:tests python3 -m support.bindings.kills [FILES [KILLS [SEED]]]
                                                  [default: 4,000 files, 10 kills, seed 1]

The files are generated in a temporary directory, with one to four hundred envelopes each, some
damaged, many with the id of another. A run has two workers. Each SIGKILL ends the process that
writes, a worker, or all of them. The totals of each run are printed. The exit status is 1 if the
index differs. The tests run it with fewer files.
"""
from __future__ import annotations

import contextlib
import os
import random
import signal
import sqlite3
import subprocess
import sys
import tempfile
import time
from pathlib import Path
from typing import Any, Callable, List, Tuple

import envelopes
import rules
from iim.archive.index import open_database
from support.bindings.paths import ARCHIVE, NOW, environment
from support.bindings.running import children

KNOWN = """SELECT path, f.size, changed, read, state, reason, gone, count(envelope)
    FROM files AS f LEFT JOIN envelopes USING (file) GROUP BY path"""


def make(folder: str, files: int, chance: random.Random) -> None:
    """Write this many files, a hundred in each directory."""
    lines = ([b"a word of copy"] * count for count in (1, 40, 200))
    bodies = [rules.object_of(envelopes.STORY_HEAD, each, b"") for each in lines]
    for at in range(files):
        path = Path(folder, f"{at // 100:04}", f"{at % 100:02}.iim")
        path.parent.mkdir(parents=True, exist_ok=True)
        ids = [(1, 30, b"TST"), (1, 40, b"%08d" % chance.randrange(files)), (1, 70, b"20240301")]
        fields = [*envelopes.SMALLEST_FIELDS[:3], *ids, (2, 0, b"\0\4")]
        octets = rules.packed(fields, chance.choice(bodies), 1024)
        octets *= chance.choice([1, 1, 1, 20, 400])
        end = chance.choice([b"", b"", b"", b"", b"\x1d", octets[:50]])
        path.write_bytes(octets + end if at % 50 else b"")


def is_alive(process: int) -> bool:
    """Check whether a process exists and is no zombie."""
    with contextlib.suppress(OSError):
        stat = Path(f"/proc/{process}/stat").read_text(encoding="utf-8", errors="replace")
        return stat.rpartition(")")[2].split()[0] != "Z"
    return False


def begin(index: str, tree: str) -> "subprocess.Popen[bytes]":
    """Start a run that writes an index."""
    words = ["--now", NOW, "--workers", "2", "--batch", "4", "--into", index, tree]
    pipes: Any = {"stdout": subprocess.PIPE, "stderr": subprocess.PIPE, "env": environment()}
    return subprocess.Popen([*ARCHIVE, *words], **pipes)


def files_in(index: str) -> int:
    """Return how many files an index lists, 0 if there is none yet."""
    with contextlib.suppress(sqlite3.Error):
        with contextlib.closing(sqlite3.connect(f"file:{index}?mode=ro", uri=True)) as database:
            count: int = database.execute("SELECT count(*) FROM files").fetchone()[0]
            return count
    return 0


def killed(
    process: "subprocess.Popen[bytes]", index: str, more: int, seconds: float, whom: str
) -> Tuple[bool, List[int]]:
    """Kill the process that writes, a worker or all, some seconds after the index has more files.

    Returns:
        Whether the process that writes was still running, and its children.
    """
    wanted, end = files_in(index) + more, time.monotonic() + 20
    while process.poll() is None and files_in(index) < wanted and time.monotonic() < end:
        time.sleep(0.002)
    time.sleep(seconds)
    own = children(process.pid)
    running = process.poll() is None
    chosen = {"writer": [process.pid], "worker": own[:1], "all": [*own, process.pid]}[whom]
    for each in chosen:
        with contextlib.suppress(ProcessLookupError):
            os.kill(each, signal.SIGKILL)
    process.communicate()
    return running, own


def rows_of(index: str) -> Tuple[List[bytes], List[Any], List[Any]]:
    """Return the rows of an index, its entries of files without numbers, and SQLite's check."""
    words = [*ARCHIVE, "query", "--now", NOW, index]
    rows = subprocess.run(words, stdout=subprocess.PIPE, check=True, env=environment()).stdout
    with contextlib.closing(open_database(index)) as database:
        check = database.execute("PRAGMA integrity_check").fetchall()
        return rows.splitlines(), database.execute(KNOWN).fetchall(), check


def expect_end(processes: List[int], whom: str) -> None:
    """Wait until processes have ended.

    Raises:
        AssertionError: A worker continued after the process that writes had ended.
    """
    end = time.monotonic() + 20
    while any(map(is_alive, processes)):
        assert time.monotonic() < end, f"{whom} was killed, and a worker continues"
        time.sleep(0.01)


def survive(
    files: int, kills: int, seed: int, tell: Callable[[str], object] = print
) -> Tuple[bool, int]:
    """Check that an index written by killed runs is that of one run.

    Returns:
        Whether they are equal, and how many of the runs were killed while running.
    """
    chance = random.Random(seed)
    with tempfile.TemporaryDirectory() as folder:
        tree, many = f"{folder}/tree", f"{folder}/many"
        make(tree, files, chance)
        tell(begin(f"{folder}/one", tree).communicate()[0].decode().strip())
        hit = 0
        for at in range(kills):
            # (by the files that are written, and not by the time alone, which depends on what else
            # runs)
            more, seconds = chance.randrange(files // (2 * kills)), chance.uniform(0, 0.02)
            # (a run that loses a worker continues to its end: these come last)
            whom = ("writer", "all")[at % 2] if at < kills - kills // 3 else "worker"
            running, own = killed(begin(many, tree), many, more, seconds, whom)
            hit += running
            expect_end(own, whom)
            tell(f"{whom} killed, {'running' if running else 'when it had ended'}")
        tell(begin(many, tree).communicate()[0].decode().strip())
        return rows_of(f"{folder}/one") == rows_of(many), hit


def main() -> int:
    """Run with the numbers of the command line, and return the exit status."""
    numbers = [*map(int, sys.argv[1:])]
    files, kills, seed = [*numbers, *(4_000, 10, 1)[len(numbers) :]][:3]
    is_same, hit = survive(files, kills, seed)
    equal = "that of one run" if is_same else "another one"
    print(f"{hit} of {kills} runs were killed, and the index is {equal}")
    return 0 if is_same else 1


if __name__ == "__main__":
    sys.exit(main())
