#!/usr/bin/env python3
"""Measure iim-archive on generated files, and compare it with `iimwire audit`.

  bindings/python/measure.py [TURNS [PROGRAM]]    [default: 3 turns, crates/iimwire/out/iimwire]

There are two trees: 4,000 files of one envelope, and 40 files of 200 envelopes, each of which is a
task. Each envelope has 22 datasets and a story of 4 KB. A turn is a complete run with its start and
its output. A line has the best elapsed time and the least processor time of all processes of a
turn, which does not depend on other work of the machine. `iimwire audit` is one process per file.
`again` is a second run over the same, unchanged tree.

  bindings/python/measure.py --rows N     pass N generated rows through the process that writes
  bindings/python/measure.py --files N    index N files of one envelope, of three sizes, twice

The gate does not run this.
"""
from __future__ import annotations

import contextlib
import os
import subprocess
import sys
import tempfile
import time
from typing import Callable, Iterator, List, Optional, Tuple

sys.dont_write_bytecode = True
HERE = os.path.dirname(os.path.realpath(__file__))
TOP = os.path.dirname(os.path.dirname(HERE))
COMMAND = f"{TOP}/crates/iimwire/out/iimwire"
PACKAGE = f"{HERE}/src"
ENVIRONMENT = {**os.environ, "PYTHONPATH": PACKAGE}
ARCHIVE = [sys.executable, "-m", "iim.archive"]
sys.path[:0] = [PACKAGE, f"{TOP}/tests"]

import rules  # noqa: E402

WORKERS = 1, 2, 4
NOW = "2024-03-01T12:00:00Z"
SMALL = [
    (1, 0, b"\0\4"),
    (1, 20, b"\0\2"),
    (1, 22, b"\0\1"),
    (1, 30, b"TST"),
    (1, 40, b"00000001"),
    (1, 70, b"20240301"),
    (2, 0, b"\0\4"),
]
HEAD = [b"TST", b"0007", b"4", b"ECO", b"910", b""]


def envelope(number: int) -> bytes:
    """Return an envelope of 22 datasets and a story of 4 KB."""
    first = [
        (1, 0, b"\0\4"),
        (1, 20, b"\0\2"),
        (1, 22, b"\0\1"),
        (1, 30, b"TST"),
        (1, 40, b"%08d" % number),
        (1, 70, b"20240301"),
    ]
    second = [
        (2, 0, b"\0\4"),
        (2, 105, b"Rates are held"),
        (2, 120, b"a" * 200),
        *((2, 25, b"keyword %d" % at) for at in range(13)),
    ]
    lines = [b"Word by word it goes on to the end of a line of wire copy." for _ in range(70)]
    return rules.packed(
        first + second,
        rules.object_of(HEAD, lines, b""),
        32_768,
    )


def make(folder: str, files: int, envelopes: int) -> None:
    """Write files of `envelopes` envelopes each, a hundred in each directory."""
    for at in range(files):
        os.makedirs(f"{folder}/{at // 100:04}", exist_ok=True)
        with open(f"{folder}/{at // 100:04}/{at % 100:02}.iim", "wb") as to:
            to.writelines(envelope(at * envelopes + each) for each in range(envelopes))


def seconds(
    words: List[str], turns: int, before: Optional[Callable[[], None]] = None
) -> Tuple[float, float]:
    """Return the least elapsed and processor time of a command, in seconds, over some turns.

    Args:
        words: The command and its arguments.
        turns: The number of turns.
        before: A function that is called before each turn.
    """
    taken, used = [], []
    for _ in range(turns):
        if before is not None:
            before()
        began = time.monotonic()
        process = subprocess.Popen(words, stdout=subprocess.DEVNULL, env=ENVIRONMENT)
        _, status, usage = os.wait4(process.pid, 0)
        taken.append(time.monotonic() - began)
        used.append(usage.ru_utime + usage.ru_stime)
        if status:
            sys.exit(f"{words} ended with {status}")
    return min(taken), min(used)


def remove(index: str) -> None:
    """Remove an index."""
    for end in "", "-wal", "-shm", ".lock":
        with contextlib.suppress(FileNotFoundError):
            os.remove(index + end)


def runs_over(
    tree: str, index: str, batch: int, command: str
) -> Iterator[Tuple[str, List[str], Optional[Callable[[], None]]]]:
    """Yield the runs over a tree: name, words, and what is called before each turn."""
    archive = [*ARCHIVE, "--now", NOW, "--batch", str(batch)]
    into = [*archive, "--into", index]
    audit = f"find {tree} -type f -print0 | xargs -0 -n 1 {command} audit --now {NOW}"
    yield "iimwire audit", ["sh", "-c", audit], None
    yield "rows printed", [*archive, tree], None
    yield "index", [*into, tree], lambda: remove(index)
    yield "again", [*into, tree], None
    for count in WORKERS:
        words = [*into, "--workers", str(count), tree]
        yield f"index, --workers {count}", words, lambda: remove(index)


def compare(turns: int, command: str) -> None:
    """Measure both trees in each way."""
    print(
        f"{'files':>6} {'envelopes':>9} {'way':<22} {'seconds':>8} {'processor':>9} "
        f"{'us a file':>9} {'us an envelope':>14} {'ratio':>6}"
    )
    for files, envelopes, batch in (4_000, 1, 128), (40, 200, 1):
        with tempfile.TemporaryDirectory() as folder:
            tree, index = f"{folder}/tree", f"{folder}/index"
            make(tree, files, envelopes)
            least = 0.0
            for way, words, before in runs_over(tree, index, batch, command):
                took, used = seconds(words, turns, before)
                least = least or used
                a_file, an_envelope = used / files * 1e6, used / files / envelopes * 1e6
                print(
                    f"{files:6} {files * envelopes:9} {way:<22} {took:8.2f} {used:9.3f} "
                    f"{a_file:9.1f} {an_envelope:14.1f} {used / least:6.2f}",
                    flush=True,
                )


# Passes generated rows through the process that writes. Each hundredth has the id of an earlier
# one.
WRITER = """
import argparse, marshal, random, re, sys, time
from iim.archive import index as indexes, progress, rows as archive_rows, updating
path, rows = sys.argv[1], int(sys.argv[2])
services, per_day = ["AFP", "DPA", "REU", "TST", "UPI"], max(1, rows // 3_650)
index = indexes.Index(path)
index.begin("index", indexes.Rules("2", 65_536, 512, "none", "latin-1"))
kept = updating.Update(index, argparse.Namespace(name="*", into=path), progress.Silence())
chance, wrote = random.Random(1), 0.0
for first in range(0, rows, 2_000):
    files = []
    for file in range(first // 200 + 1, first // 200 + 11):
        of_file = []
        for nth in range(200):
            at = (file - 1) * 200 + nth
            at = at if at % 100 else chance.randrange(at + 1)
            day = at // per_day
            date = f"{1990 + day // 336}{day // 28 % 12 + 1:02}{day % 28 + 1:02}"
            of_file += file, nth + 1, nth * 4700, 4700, services[at % 5], "%08d" % (at % 10**8)
            of_file += date, "5", 4200, 2, 910, 905, 1_709_290_800
        name = b"/archive/%06d/%02d.iim" % (file // 100, file % 100)
        row = file, name, 940_000, 1, 940_000, "accepted", "", "0" * 64, b""
        files.append((row, of_file, [], None, []))
    block = marshal.dumps(files, archive_rows.FORM)
    began = time.process_time()
    kept.add(marshal.loads(block))
    wrote += time.process_time() - began
print(f"{rows:,} rows: {rows / wrote:,.0f} a second of a processor", flush=True)
began = time.monotonic()
ending = time.process_time()
sums = index.end(0)
ended = time.process_time() - ending
print(f"indexes and sums: {time.monotonic() - began:.1f} seconds, {sums}")
index.close()
print(f"with all of it: {rows / (wrote + ended):,.0f} rows a second of a processor")
with open("/proc/self/status") as status:
    print("memory:", re.search(r"VmHWM:\\s+(\\d+ kB)", status.read())[1])
"""


def write_rows(rows: int) -> None:
    """Measure the process that writes on generated rows, and then the query of the repeats."""
    with tempfile.TemporaryDirectory() as folder:
        index = f"{folder}/index"
        subprocess.run(
            [sys.executable, "-c", WRITER, index, str(rows)],
            check=True,
            env=ENVIRONMENT,
        )
        print(f"size: {os.path.getsize(index) / 1e6:,.0f} MB")
        queries: List[List[str]] = [
            ["--date", "19950615"],
            ["--date", "19950615", "--service", "REU", "--csv"],
            ["--where", "number=00000042"],
            ["--repeats", "--csv"],
            ["--csv"],
            [],
        ]
        for words in queries:
            began = time.monotonic()
            program = [*ARCHIVE, "query", *words, index]
            with subprocess.Popen(program, stdout=subprocess.PIPE, env=ENVIRONMENT) as query:
                count = sum(piece.count(b"\n") for piece in query.stdout or ())
                _, _, usage = os.wait4(query.pid, 0)
            print(
                f"query {' '.join(words)}: {count:,} lines, {time.monotonic() - began:.2f} s, "
                f"{usage.ru_utime + usage.ru_stime:.2f} of a processor, "
                f"{usage.ru_maxrss / 1000:.0f} MB",
                flush=True,
            )


def index_files(files: int) -> None:
    """Measure the index of real files of three sizes, and a second run."""
    with tempfile.TemporaryDirectory() as folder:
        tree, index = f"{folder}/tree", f"{folder}/index"
        sizes = [
            envelope(1),
            rules.packed(SMALL, rules.object_of(HEAD, [b""], b""), 1024),
            rules.packed(SMALL, rules.object_of(HEAD, [b"a line of copy"] * 1400, b""), 32_768),
        ]
        for at in range(files):
            os.makedirs(f"{tree}/{at // 1000:04}", exist_ok=True)
            with open(f"{tree}/{at // 1000:04}/{at % 1000:03}.iim", "wb") as to:
                to.write(sizes[at % 3].replace(b"00000001", b"%08d" % (at - at % 50)))
        for way in "index", "again":
            words = [*ARCHIVE, "--now", NOW, "--into", index, tree]
            began = time.monotonic()
            process = subprocess.Popen(words, env=ENVIRONMENT)
            _, status, usage = os.wait4(process.pid, 0)
            used = usage.ru_utime + usage.ru_stime
            print(
                f"{way}: {time.monotonic() - began:.1f} seconds, "
                f"{used / files * 1e6:.1f} us of a processor a file, "
                f"{usage.ru_maxrss / 1000:.0f} MB",
                flush=True,
            )


def main() -> None:
    """Measure what the arguments ask for."""
    words = sys.argv[1:]
    if words[:1] == ["--rows"]:
        write_rows(int(words[1]))
    elif words[:1] == ["--files"]:
        index_files(int(words[1]))
    else:
        compare(int(words[0]) if words else 3, words[1] if len(words) > 1 else COMMAND)


if __name__ == "__main__":
    with contextlib.suppress(KeyboardInterrupt):
        main()
