"""Runs of iim-archive, the trees that it reads, and the rows that it must print."""
from __future__ import annotations

import contextlib
import io
import itertools
import json
import os
import random
import signal
import sqlite3
import subprocess
import sys
import tempfile
import threading
from pathlib import Path
from typing import Any, Dict, Iterator, List, Optional, Sequence, Tuple

import envelopes
import pytest
import rules
from envelopes import SMALLEST, STORY, STORY_HEAD
from support.bindings.comparing import or_dash
from support.bindings.paths import ARCHIVE, NOW, SECONDS, environment, unmeasured
from support.bindings.running import Name, files_in, octets_of, run, samples, write_file
from support.bindings.streams import made, with_id

# A line of the program: a row, or the sums.
Row = Dict[str, Any]
# The status of a run, its rows, its sums or `None`, and its errors.
Audited = Tuple[int, List[Row], Any, str]

# Imports the modules of the program, for lines that change them before it runs.
MODULES = (
    "import os, sys\n"
    "from iim.archive import distributed, files, index, program, progress, rows, updating\n"
    "from iim.archive import workers\n"
)
# Runs the program after some lines.
MAIN = MODULES + "{}\nsys.exit(program.main())"
# Replaces the function that a worker calls for each file: the worker ends as in a crash of the
# library if the file has this name.
KILLER = """
from iim.archive import rows
# (a worker runs this twice)
if not hasattr(rows, "blocks_of_all"):
    rows.blocks_of_all = rows.blocks_of
def dies(path, *words):
    import os
    from iim.archive import rows
    if path.endswith(b"poison.iim"):
        os.kill(os.getpid(), 9)
    return rows.blocks_of_all(path, *words)
rows.blocks_of = dies
"""


def archive(words: Sequence[Name], python: str = sys.executable, **more: Any) -> Audited:
    """Run iim-archive, and return the status, its rows, the line of totals, and the errors."""
    more.setdefault("env", environment())
    status, output, errors = run([python, *ARCHIVE[1:], "--now", NOW, *words], **more)
    lines = [json.loads(line) for line in output.splitlines()]
    return status, lines[:-1], lines[-1] if lines else None, errors.decode()


def query(words: Sequence[Name], python: str = sys.executable) -> Tuple[int, List[Row], str]:
    """Run `iim-archive query`, and return the status, its rows, and the errors."""
    program = [python, *ARCHIVE[1:], "query", "--now", NOW, *words]
    status, output, errors = run(program, env=environment())
    return status, [json.loads(line) for line in output.splitlines()], errors.decode()


def stored(
    index: Name, words: Sequence[Name], python: str = sys.executable
) -> Tuple[int, Any, str]:
    """Run iim-archive with an index, and return the status, its totals, and the errors."""
    status, rows, sums, errors = archive(["--into", index, *words], python)
    assert rows == []
    return status, sums, errors


def sums_of(index: Name, words: Sequence[Name]) -> Row:
    """Run iim-archive with an index, and return its totals."""
    sums: Row = stored(index, words)[1]
    return sums


def in_program(text: str, words: Sequence[Name]) -> Tuple[int, List[Row], str]:
    """Run iim-archive after lines of Python, and return the status, its lines, and the errors."""
    program = [sys.executable, "-c", MAIN.format(text), "--now", NOW, *words]
    status, output, errors = run(program, env=unmeasured())
    return status, [json.loads(line) for line in output.splitlines()], errors.decode()


def called(*words: Name) -> Tuple[int, str, str]:
    """Run iim-archive in this process, and return the status, the output and the errors.

    It takes a third of a second less than a separate process.
    """
    from iim.archive import program

    handlers = {each: signal.getsignal(each) for each in (signal.SIGINT, signal.SIGTERM)}
    errors = io.StringIO()
    with tempfile.TemporaryFile() as output:
        try:
            with open(output.fileno(), "w", closefd=False) as out:
                with contextlib.redirect_stdout(out), contextlib.redirect_stderr(errors):
                    try:
                        status = program.main([str(word) for word in words])
                    except SystemExit as end:
                        status = int(end.code or 0)
        finally:
            for each, handler in handlers.items():
                signal.signal(each, handler)
        output.seek(0)
        return status, output.read().decode("utf-8", "surrogateescape"), errors.getvalue()


def rows_called(*words: Name) -> List[Row]:
    """Run iim-archive in this process, and return its lines. It must print no error."""
    _, output, errors = called(*words)
    assert errors == "", errors
    return [json.loads(line) for line in output.splitlines()]


def flip(path: str, at: int = 60) -> None:
    """Change a byte of a file, which keeps its size and time."""
    there, octets = os.stat(path), bytearray(octets_of(path))
    octets[at] ^= 1
    Path(path).write_bytes(octets)
    os.utime(path, ns=(there.st_atime_ns, there.st_mtime_ns))


def failing(
    words: Sequence[Name],
    text: str = "",
    shell: str = "",
    to: str = "",
    python: str = sys.executable,
    **env: str,
) -> Tuple[int, str, str]:
    """Run iim-archive after lines of Python and shell, and return status, output and errors."""
    line = f'{shell} exec "$0" "$@" {to}'
    program = ["sh", "-c", line, python, "-c", MAIN.format(text), *words]
    status, output, errors = run(program, env=environment(**env))
    return status, output.decode(), errors.decode()


def expect_failures(provoked: Sequence[Tuple[Any, ...]]) -> None:
    """Run iim-archive for each failure, and check its one line of errors and its status.

    Args:
        provoked: For each failure, the arguments, a part of the line, and more arguments of
            `failing`.
    """
    wrong = []
    for words, printed, *more in provoked:
        status, _, errors = failing(words, **(more[0] if more else {}))
        found = status, errors.count("\n"), errors.startswith("iim-archive: ")
        if found != (3, 1, True) or printed not in errors or "Traceback" in errors:
            wrong.append(f"{words} {more}: status {status}, {errors!r}, and not {printed!r}")
    assert wrong == []


@contextlib.contextmanager
def small_disk(folder: Name, octets: int) -> Iterator[str]:
    """Mount a disk of this size."""
    disk = Path(folder, "disk")
    disk.mkdir()
    if run(["mount", "-t", "tmpfs", "-o", f"size={octets}", "tmpfs", disk])[0] != 0:
        pytest.skip("a small disk can't be mounted")
    try:
        yield str(disk)
    finally:
        run(["umount", "-l", disk])


@contextlib.contextmanager
def locked_database(path: str) -> Iterator[None]:
    """Open a database that another program is writing."""
    with contextlib.closing(sqlite3.connect(path, isolation_level=None)) as database:
        database.execute("BEGIN EXCLUSIVE")
        yield


def random_tree(folder: Name, count: int = 60) -> str:
    """Write a tree of samples and random envelopes, some damaged, with repeats between files."""
    chance = random.Random(6)
    for name, octets in samples().items():
        write_file(folder, f"samples/{name}", octets)
    for at in range(count):
        octets = b"".join(made(chance.randrange(10**9), 3))
        write_file(folder, f"random/{at % 7}/{at:04}.iim", octets)
        # (the same service, number and date in other files; and each of the three with other ones)
        service = chance.choice([b"", b"AAA", b"B\x80"])
        parts = service, b"%08d" % chance.randrange(3), chance.choice([b"20240301", b"20240229"])
        story = rules.object_of(STORY_HEAD, [b"a\tb  c", b" d"], b"")
        write_file(folder, f"ids/{at:04}.iim", with_id(story, *parts) * chance.randint(1, 2))
    write_file(folder, "empty.iim", b"")
    return str(folder)


def slow_tree(folder: Name) -> str:
    """Write a tree that takes a while to read."""
    for at in range(120):
        octets = STORY * 100 if at % 10 else STORY * 3 + SMALLEST[:50]
        write_file(folder, f"{at:04}.iim", octets)
    return str(folder)


# The number of envelopes in a tree of `long_tree`: more than any of its runs reads before it ends.
LONG_ENVELOPES = 51_000


def long_tree(folder: Name) -> str:
    """Write a tree that takes some seconds to read."""
    for at in range(600):
        write_file(folder, f"{at:04}.iim", STORY * (100 if at % 7 else 3))
    return str(folder)


def busy_tree(folder: Name) -> str:
    """Write some hundred files of one to sixty envelopes, some damaged, all with different ids."""
    story = rules.object_of(STORY_HEAD, [b"a word"], b"")
    for at in range(300):
        ids = ((b"T%03d" % at, b"%08d" % nth, b"20240301") for nth in range(1 + at * 7 % 60))
        octets = b"".join(with_id(story, *each) for each in ids)
        write_file(folder, f"{at:04}.iim", octets + (b"\x1d" if at % 9 == 0 else b""))
    return str(folder)


def poisoned_tree(folder: Name) -> str:
    """Write a tree with one file that kills its reader."""
    for at in range(40):
        write_file(folder, f"{at:04}{'poison' if at == 17 else ''}.iim", STORY)
    return str(folder)


def expect_one_lost(got: Audited, folder: str) -> None:
    """Check that the one file was lost, and no other."""
    status, rows, sums, _ = got
    assert status == 3
    assert [row["file"] for row in rows] == files_in(folder)
    lost = [{"file": f"{folder}/0017poison.iim", "failed": "its worker was lost"}]
    assert [row for row in rows if "failed" in row] == lost
    counts = {"repeated": 38, "held": 0, "refused": 0, "empty": 0, "failed": 1, "linked": 0}
    assert sums == {"files": 40, "envelopes": 39, **counts}


def audit_line(at: int, row: Row, repeats: Optional[int]) -> str:
    """Return the line of `audit` for a row."""
    service = rules.shown(row["service"].encode("latin-1"))
    return (
        f"{at} {service} {row['number']} {row['date_sent']} priority {or_dash(row['priority'])}"
        f" size {row['size']} subfiles {row['subfiles']} words {row['announced']}/{row['counted']}"
        f" age {or_dash(row['age'])} repeats {or_dash(repeats)} copy {row['copy']}"
    )


def check_line(row: Row) -> Tuple[str, int]:
    """Return a row's line of `check`, and the offset of the rejected byte or the envelope's end."""
    printed = row.get("refused")
    if printed is None:
        accepted = f"{row['envelope']} accepted {row['length']} octets"
        return accepted, row["at"] + row["length"]
    place = f"octet {printed['octet']} by layer {printed['layer']} on {printed['dataset']}"
    cause = f"cause {printed['cause']} {printed['cause_name']}"
    return f"{row['envelope']} refused at {place}, {cause}", printed["octet_in_file"]


def expect_audit(command: Path, rows: List[Row], sums: Row, folder: str) -> None:
    """Compare the rows with `audit` of all envelopes as one stream, and `check` of each file."""
    stream, lines, at = b"", [], 0
    places: Dict[Tuple[str, int], int] = {}
    for path in files_in(folder):
        octets = octets_of(path)
        checked = run([command, "check", path])[1].decode().splitlines()
        own = list(itertools.takewhile(lambda row: row["file"] == path, rows[at:]))
        at += len(own)
        if not octets:
            assert (checked, own) == ([], [{"file": path, "empty": True}])
            own = []
        begin = 0
        for row, line in itertools.zip_longest(own, checked):
            want, end = check_line(row)
            assert (path, line, row["at"]) == (path, want, begin)
            if "refused" in row:
                assert end == begin + row["refused"]["octet"]
                continue
            begin = end
            places[path, row["envelope"]] = len(places) + 1
            first = row["repeats"]
            repeats = first and places[first["file"], first["envelope"]]
            lines.append(audit_line(len(places), row, repeats))
        stream += octets[:begin]
    assert at == len(rows)
    status, output, _ = run([command, "audit", "--now", NOW], stream)
    *wanted, last = output.decode("latin-1").splitlines()
    assert (status, lines) == (0, wanted)
    counts = f"{sums['envelopes']} envelopes, {sums['repeated']} repeated, {sums['held']} held"
    assert last == counts
    assert sums["files"] == len(files_in(folder))
    assert (sums["refused"], sums["failed"]) == (sum("refused" in row for row in rows), 0)
    assert sums["repeated"] > 20 and sums["refused"] > 20, f"few repeats or refusals: {sums}"


class Started:
    """A process that runs iim-archive, and its output."""

    def __init__(self, words: Sequence[Name], python: str = sys.executable) -> None:
        program = [python, *ARCHIVE[1:], "--now", NOW, *words]
        pipes: Dict[str, Any] = {"stdout": subprocess.PIPE, "stderr": subprocess.PIPE}
        self.process = subprocess.Popen(program, env=environment(), **pipes)
        self.output: List[bytes] = []
        self.reader = threading.Thread(target=self._read, daemon=True)
        self.reader.start()

    def _read(self) -> None:
        assert self.process.stdout is not None
        self.output.extend(self.process.stdout)

    def ended(self) -> Audited:
        """Wait for the end, and return what `archive` returns."""
        assert self.process.stderr is not None
        errors = self.process.stderr.read()
        status = self.process.wait(SECONDS)
        self.reader.join(SECONDS)
        lines = [json.loads(line) for line in self.output]
        return status, lines[:-1], lines[-1] if lines else None, errors.decode()


def envelope_with(fields: List[Tuple[int, int, bytes]], lines: Sequence[bytes] = (b"",)) -> bytes:
    """Return an envelope of these datasets and of a story of these lines."""
    story = rules.object_of(envelopes.SMALLEST_HEAD, list(lines), b"")
    packed: bytes = rules.packed(fields, story, 1024)
    return packed
