"""The examples of the manual page, run in a shell as they are printed."""
from __future__ import annotations

import re
import shutil
import socket
import subprocess
from pathlib import Path
from typing import Any, Callable

import pytest

from support.manual import example
from support.running import SECONDS, Command, Ran, in_shell, read_in_time, write, write_program
from support.streams import ACCEPTED, MARKER, SMALLEST, STORY, head, sized, with_fields


def test_example_finds_an_octet_in_the_file(run: Command, tmp_path: Path) -> None:
    script = example("iimwire check FILE | awk")
    write(tmp_path / "FILE", SMALLEST + STORY + SMALLEST[:100])
    assert in_shell(run, tmp_path, script) == (0, b"460\n", b"")
    write(tmp_path / "FILE", SMALLEST)
    assert in_shell(run, tmp_path, script) == (0, b"", b"")


def replace_program(folder: Path, name: str, script: str) -> None:
    """Put a script in place of a program that the examples run."""
    write_program(folder / "bin" / name, f"#!/bin/sh\n{script}\n")


def test_examples_find_octets_of_large_files(run: Command, tmp_path: Path) -> None:
    # (`print` of mawk rounds above 2,147,483,647)
    lines = "echo 1 accepted 3000000001 octets; echo 2 refused at octet 5 by layer dataset"
    replace_program(tmp_path, "iimwire", lines)
    replace_program(tmp_path, "head", 'echo "$2"')
    write(tmp_path / "FILE", b"")
    script = example("iimwire check FILE | awk")
    assert in_shell(run, tmp_path, script) == (0, b"3000000006\n", b"")
    for least in "100000000", "4000000000":
        script = example("iimwire check FILE |\nawk").replace("100000000", least)
        assert in_shell(run, tmp_path, script) == (0, b"", b""), least
        assert (tmp_path / "part1.iim").read_bytes() == b"3000000001\n", least


@pytest.fixture()
def folder(tmp_path: Path) -> Path:
    """Return a directory with files that have unusual names."""
    write(tmp_path / "-d.iim", SMALLEST + STORY)
    write(tmp_path / "a b.iim", SMALLEST)
    write(tmp_path / "c.iim", b"no envelope")
    write(tmp_path / "d\ne.iim", SMALLEST)
    return tmp_path


def lines_of_files(line: Callable[[str, str], str]) -> bytes:
    """Return the lines of these files, each with the file's name."""
    second, refused = "2 accepted 246 octets", MARKER.decode().strip()
    accepted = "1 accepted 114 octets"
    rows = [("-d.iim", accepted), ("-d.iim", second), ("a b.iim", accepted), ("c.iim", refused)]
    return "".join(line(*row) for row in [*rows, ("d\ne.iim", accepted)]).encode()


def test_example_checks_many_files(run: Command, folder: Path) -> None:
    script = example("for file in")
    want = lines_of_files(lambda name, line: f"{name}: {line}\n")
    assert in_shell(run, folder, script)[1:] == (want, b"")
    (folder / "e.iim").mkdir()
    assert in_shell(run, folder, script)[1:] == (want + b"e.iim: cannot read\n", b"")


def in_parallel(run: Command, folder: Path, words: str) -> Ran:
    """Run an example that uses GNU parallel."""
    if not shutil.which("parallel"):
        pytest.skip("GNU parallel is not there")
    return in_shell(run, folder, f"export PARALLEL=--will-cite; {example(words)}")


def test_example_checks_files_in_parallel(run: Command, folder: Path) -> None:
    words = "parallel --null --keep-order --tag"
    want = lines_of_files(lambda name, line: f"{name}\t{line}\n")
    assert in_parallel(run, folder, words)[:2] == (1, want)
    (folder / "e.iim").mkdir()
    assert in_parallel(run, folder, words) == (2, want, b"e.iim\tcannot read\n")


def test_example_checks_small_files_in_parallel(run: Command, folder: Path) -> None:
    words = "parallel --null --keep-order -n 100"
    want = lines_of_files(lambda name, line: f"{name}\t{line}\n")
    assert in_parallel(run, folder, words) == (0, want, b"")
    (folder / "e.iim").mkdir()
    # (250 more files, for three processes)
    for number in range(250):
        write(folder / f"f{number:03}.iim", SMALLEST)
    lines = b"".join(b"f%03d.iim\t%s" % (number, ACCEPTED) for number in range(250))
    want += b"e.iim\tcannot read\n" + lines
    assert in_parallel(run, folder, words) == (0, want, b"")


def test_example_prints_the_first_lines(run: Command, tmp_path: Path) -> None:
    script = example("iimwire check FILE | head")
    write(tmp_path / "FILE", SMALLEST)
    assert in_shell(run, tmp_path, script) == (0, ACCEPTED, b"")
    # (more than a pipe can buffer)
    write(tmp_path / "FILE", SMALLEST * 10_000)
    assert in_shell(run, tmp_path, script) == (0, ACCEPTED, b"cannot write\n")


def test_example_reports_a_file_size_limit(run: Command, tmp_path: Path) -> None:
    text, script = b"x" * 2000, example("(trap")
    story = sized(b"\x01X1 4 N 0\r\n\x02" + text + b"\x03\x04", 4000)
    write(tmp_path / "FILE", head(b"00000001") + story)
    failed = 3, b"", b"cannot write\n"
    # (a block of `ulimit` in bash has 1,024 octets)
    for blocks, want in (0, failed), (1, failed), (2, (0, b"", b"1 accepted 2114 octets\n")):
        assert in_shell(run, tmp_path, f"ulimit -f {blocks}; {script}") == want, blocks
        written = (tmp_path / "story.txt").read_bytes()
        assert written == (text + b"\n")[: 1024 * blocks], blocks
    # Without it, the signal ends the command.
    untrapped = script.replace("trap '' XFSZ; ", "")
    assert in_shell(run, tmp_path, f"ulimit -f 1; {untrapped}").status > 128


def test_example_rejects_an_empty_transfer(run: Command, tmp_path: Path) -> None:
    for octets, want in (b"", (1, b"", b"")), (SMALLEST, (0, ACCEPTED, b"")):
        write(tmp_path / "FILE", octets)
        assert in_shell(run, tmp_path, example("test -s")) == want


def test_example_splits_a_stream(run: Command, tmp_path: Path) -> None:
    write(tmp_path / "FILE", (SMALLEST + STORY) * 3 + b"no envelope")
    script = example("iimwire check FILE |\nawk").replace("100000000", "300")
    assert in_shell(run, tmp_path, script) == (0, b"", b"")
    parts = sorted(tmp_path.glob("part*"))
    assert [part.name for part in parts] == ["part1.iim", "part2.iim", "part3.iim"]
    for part in parts:
        assert part.read_bytes() == SMALLEST + STORY


def test_example_shows_text_on_a_terminal(run: Command, tmp_path: Path) -> None:
    story = sized(b"\x01X1 4 N 0\r\n\x02a\x1b[31mb\x03\x04")
    write(tmp_path / "FILE", head(b"00000001") + story)
    script = example("iimwire story FILE |")
    assert in_shell(run, tmp_path, script)[:2] == (0, b"a^[[31mb\n")


def services() -> list[list[str]]:
    """Return the arguments with which inetd and systemd start the command."""
    (systemd,) = re.findall("ExecStart=(.*)", example("[Service]"))
    return [example("7901 stream tcp nowait nobody ").split()[-2:], systemd.split()]


def test_examples_check_a_socket(run: Command) -> None:
    for program, *words in services():
        assert program.rpartition("/")[2] == "iimwire"
        ours, theirs = socket.socketpair()
        streams: dict[str, Any] = {"stdin": theirs, "stdout": theirs}
        with ours, theirs, subprocess.Popen(
            [run.path, *words], stderr=subprocess.DEVNULL, **streams
        ) as process:
            theirs.close()
            ours.sendall(SMALLEST)
            assert read_in_time(ours, len(ACCEPTED)) == ACCEPTED
            ours.sendall(b"no envelope")
            ours.shutdown(socket.SHUT_WR)
            line = MARKER.replace(b"1 refused", b"2 refused")
            assert (read_in_time(ours, len(line)), process.wait(SECONDS)) == (line, 1)


def test_example_audits_at_the_current_instant(run: Command, tmp_path: Path) -> None:
    stream = with_fields((30, b"20240301")) + with_fields((30, b"99991230"))
    write(tmp_path / "FILE", stream)
    status, output, errors = in_shell(run, tmp_path, example("iimwire audit --now"))
    copies = [line.rpartition(b" ")[2] for line in output.splitlines()[:-1]]
    assert (status, copies, errors) == (0, [b"free", b"held"], b"")
