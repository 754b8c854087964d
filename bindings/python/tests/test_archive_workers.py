"""Processes of iim-archive: lost, killed, slow and interrupted ones."""
from __future__ import annotations
from support.bindings.paths import unmeasured
from support.bindings.running import NO_ARGUMENTS
from typing import Callable, List, Sequence, Tuple
from support.bindings.archive import in_program, LONG_ENVELOPES, sums_of

import json
import os
import signal
import subprocess
import sys
import tempfile
import time

from envelopes import SMALLEST, STORY
from support.bindings import kills
from support.bindings.archive import (
    archive,
    busy_tree,
    expect_one_lost,
    KILLER,
    long_tree,
    poisoned_tree,
    slow_tree,
    Started,
    stored,
)
from support.bindings.paths import ARCHIVE, environment, NOW, SECONDS
from support.bindings.running import children, files_in, run, wait_for, write_file


def test_continues_after_a_worker_process_dies(folder: str) -> None:
    want = archive([slow_tree(folder)])
    started = Started(["--workers", "2", "--batch", "1", folder])
    worker = wait_for(lambda: children(started.process.pid), "a worker")[0]
    # (it has a file open when it is stopped, or it will never end)
    wait_for(lambda: started.output, "the first row")
    os.kill(worker, signal.SIGSTOP)
    time.sleep(0.5)
    assert started.process.poll() is None
    os.kill(worker, signal.SIGKILL)
    assert started.ended() == want


def test_loses_only_the_file_that_kills_processes(folder: str) -> None:
    words = ["--workers", "2", "--batch", "8", "--now", NOW, poisoned_tree(folder)]
    status, lines, errors = in_program(KILLER, words)
    expect_one_lost((status, lines[:-1], lines[-1], errors), folder)


def test_reads_the_same_rows_on_threads(folder: str) -> None:
    program = [sys.executable, "-c", ON_THREADS, NOW, *files_in(busy_tree(folder))]
    assert run(program, env=environment()) == (0, b"[]\n", b"")


# Reads the files once, and then ten times on four threads that switch as often as possible. Prints
# the files with other results.
ON_THREADS = """
import concurrent.futures, datetime, os, sys
import iim
from iim.archive import rows
sys.setswitchinterval(1e-6)
now = datetime.datetime.fromisoformat(sys.argv[1].replace("Z", "+00:00"))
paths = enumerate(map(os.fsencode, sys.argv[2:]))
files = [rows.FileRequest(nth, path, 0, 0) for nth, path in paths]
def rows_of(asked):
    return rows.read_file(asked, rows.Reading(iim.WIRE, now, has_sums=True, text="all"))
want = [*map(rows_of, files)]
wrong = set()
with concurrent.futures.ThreadPoolExecutor(4) as pool:
    for _ in range(10):
        pairs = zip(pool.map(rows_of, files), want)
        wrong |= {got.path for got, wanted in pairs if got != wanted}
print(sorted(wrong))
"""


def test_survives_killed_runs() -> None:
    reported: List[str] = []
    is_same, hit = kills.survive(400, 10, 3, reported.append)
    assert is_same, "\n".join(reported)
    assert hit >= 7, "\n".join(reported)


def test_ends_quietly_at_ctrl_c_and_at_sigterm(folder: str) -> None:
    tree = long_tree(f"{folder}/tree")
    runs: List[Tuple[List[str], int, Callable[[int, int], None]]] = [
        (["--workers", "2"], signal.SIGINT, os.killpg),
        ([], signal.SIGINT, os.killpg),
        ([], signal.SIGTERM, os.kill),
    ]
    for name, number, kill in ("a", signal.SIGINT, os.killpg), ("c", signal.SIGTERM, os.kill):
        runs.append((["--into", f"{folder}/{name}"], number, kill))
    for name, number, kill in (
        ("b", signal.SIGINT, os.killpg),
        ("d", signal.SIGTERM, os.kill),
        ("e", signal.SIGTERM, os.killpg),
    ):
        runs.append((["--into", f"{folder}/{name}", "--workers", "2"], number, kill))
    for words, sent, kill in runs:
        # (in a separate process group, as at a terminal, so that workers get the signal, too)
        program = [*ARCHIVE, "--now", NOW, *words, tree]
        process = subprocess.Popen(
            program,
            bufsize=0,
            stdout=subprocess.PIPE,
            stderr=subprocess.PIPE,
            start_new_session=True,
        )
        # (after a row is printed or written)
        first = b""
        if "--into" in words:
            log = f"{words[words.index('--into') + 1]}-wal"
            wait_for(lambda: os.path.exists(log) and os.path.getsize(log) > 100_000, "a row")
        else:
            assert process.stdout
            first = process.stdout.readline()
        kill(process.pid, sent)
        output, errors = process.communicate(timeout=SECONDS)
        *rows, sums = map(json.loads, (first + output).splitlines())
        assert (words, sent, process.returncode, errors) == (words, sent, 130, b"")
        assert sums["envelopes"] == (
            len(rows) or sums["envelopes"]
        ), f"{words}: {len(rows)} rows, {sums}"
        assert (
            0 < sums["files"] <= 600 and 0 < sums["envelopes"] < LONG_ENVELOPES
        ), f"{words}: {sums}"
    want = archive([tree])[2]
    for index in "a", "b", "c", "d", "e":
        assert sums_of(f"{folder}/{index}", [tree])["envelopes"] == want["envelopes"]


def test_ends_quietly_if_its_reader_stops(folder: str) -> None:
    tree = long_tree(f"{folder}/tree")
    stored(f"{folder}/index", [tree])
    for words in [tree], ["--workers", "2", tree], ["query", f"{folder}/index"]:
        process = subprocess.Popen(
            [*ARCHIVE, *words], stdout=subprocess.PIPE, stderr=subprocess.PIPE
        )
        assert process.stdout and process.stderr
        assert json.loads(process.stdout.readline())["envelope"] == 1, "no row"
        process.stdout.close()
        assert (words, process.stderr.read(), process.wait(SECONDS)) == (words, b"", 3)


# Reads some of the blocks of 64 batches, each of 3 MB, kills one or all workers after the first,
# and ends.
LONG_BLOCKS = """
import os, signal, sys
from iim.archive import rows, workers
from support.bindings.running import children
def long_block(batch):
    return bytes(3_000_000)
batches = [[rows.FileRequest(number, b"", 0, 0, None)] for number in range(64)]
blocks = workers.by_processes(batches, long_block, 2)
taken = [len(next(blocks))]
for worker in children(os.getpid())[: int(sys.argv[1])]:
    os.kill(worker, signal.SIGKILL)
for _ in range(int(sys.argv[2])):
    taken.append(len(next(blocks)))
blocks.close()
print(len(taken), set(taken), children(os.getpid()))
"""


def test_ends_while_long_blocks_are_returned() -> None:
    for killed, more in (0, 0), (0, 5), (1, 0), (1, 63), (2, 2), (2, 63):
        for turn in range(4):
            program = [sys.executable, "-c", LONG_BLOCKS, str(killed), str(more)]
            ran = subprocess.run(
                program,
                stdout=subprocess.PIPE,
                stderr=subprocess.PIPE,
                env=unmeasured(),
                timeout=60,
            )
            reported = f"{1 + more} {{3000000}} []\n".encode()
            assert (killed, more, turn, ran.returncode, ran.stdout, ran.stderr) == (
                killed,
                more,
                turn,
                0,
                reported,
                b"",
            )


# Starts workers, and is killed soon after.
KILLED_AT_ONCE = """
import os, signal
from iim.archive.workers import Worker
workers = [Worker(len) for _ in range(3)]
os.kill(os.getpid(), signal.SIGKILL)
"""


def test_ends_its_workers_if_killed_at_once() -> None:
    for turn in range(20):
        # (a worker that continued would keep the pipes open that are read here)
        ran = subprocess.run(
            [sys.executable, "-c", KILLED_AT_ONCE],
            stdout=subprocess.PIPE,
            stderr=subprocess.PIPE,
            env=unmeasured(),
            timeout=60,
        )
        assert (turn, ran.returncode, ran.stdout, ran.stderr) == (turn, -signal.SIGKILL, b"", b"")


# Replaces a file by a FIFO after it is listed.
BECOMES_FIFO = """
listed = files.Lister.files_of
def replaced(self, tree):
    for found in listed(self, tree):
        if found.path.endswith(b"b.iim"):
            os.remove(found.path)
            os.mkfifo(found.path)
        yield found
files.Lister.files_of = replaced
"""


def test_does_not_wait_for_a_new_fifo() -> None:
    for words in NO_ARGUMENTS, ["--workers", "2"]:
        with tempfile.TemporaryDirectory() as folder:
            for name in "a", "b", "c":
                write_file(folder, f"{name}.iim", SMALLEST)
            status, rows, errors = in_program(BECOMES_FIFO, [*words, folder])
            assert (words, status, errors) == (words, 3, "")
            assert rows[1] == {"file": f"{folder}/b.iim", "failed": "not a regular file"}
            assert [row.get("length") for row in rows[:3]] == [114, None, 114]


# Reads of a file named b.iim block until a signal ("waits"), block without end, as with a lost file
# server ("ignores"), or return one byte at a time ("drips").
WAITS = """
import os, signal, sys, time
from iim.archive import program, rows, workers
read = os.readv
def waits(file, rooms):
    if not os.readlink(f"/proc/self/fd/{file}").endswith("b.iim"):
        return read(file, rooms)
    if KIND == "drips":
        time.sleep(0.1)
        return read(file, [rooms[0][:1]])
    if KIND == "ignores":
        signal.pthread_sigmask(signal.SIG_BLOCK, {signal.SIGALRM})
    time.sleep(1000)
os.readv = waits
workers.GRACE = 1
"""


def waiting(kind: str, text: str, words: Sequence[str]) -> Tuple[int, bytes, bytes]:
    """Run a program in which reads block, and return its status, output and errors."""
    ran = subprocess.run(
        [sys.executable, "-c", f"KIND = {kind!r}{WAITS}{text}", *words],
        stdout=subprocess.PIPE,
        stderr=subprocess.PIPE,
        env=environment(),
        timeout=60,
    )
    return ran.returncode, ran.stdout, ran.stderr


def test_continues_after_a_slow_file(folder: str) -> None:
    for name in "a", "b", "c":
        write_file(folder, f"{name}.iim", STORY)
    for kind, words in (
        ("waits", NO_ARGUMENTS),
        ("drips", NO_ARGUMENTS),
        ("waits", ["--workers", "2"]),
        ("ignores", ["--workers", "2"]),
    ):
        status, output, errors = waiting(
            kind, "sys.exit(program.main())", ["--now", NOW, "--timeout", "1", *words, folder]
        )
        *rows, sums = [json.loads(line) for line in output.splitlines()]
        assert (kind, words, status, errors) == (kind, words, 3, b"")
        assert [row.get("length", row) for row in rows] == [
            246,
            {"file": f"{folder}/b.iim", "failed": "not read within 1 seconds"},
            246,
        ]
        assert (sums["files"], sums["envelopes"], sums["failed"]) == (3, 2, 1)


# Reads files with a thread that is not the main thread.
ON_A_THREAD = """
import concurrent.futures, datetime, iim
files = [rows.FileRequest(1, os.fsencode(name), 0, 0, None) for name in sys.argv[1:]]
def rows_of(asked):
    return rows.read_file(asked, rows.Reading(iim.WIRE, now, 0.5))
now = datetime.datetime(2024, 3, 1, tzinfo=datetime.timezone.utc)
with concurrent.futures.ThreadPoolExecutor(1) as pool:
    print([each.reason or each.state for each in pool.map(rows_of, files)])
"""


def test_times_out_a_slow_file_on_a_thread(folder: str) -> None:
    paths = [write_file(folder, f"{name}.iim", STORY) for name in ("a", "b", "c")]
    assert waiting("drips", ON_A_THREAD, paths) == (
        0,
        b"['accepted', 'not read within 0.5 seconds', 'accepted']\n",
        b"",
    )
