"""Several files as arguments, and `--files-from`."""
from __future__ import annotations

import resource
import subprocess
from pathlib import Path
from typing import Any, Sequence

import pytest

from support.running import Argument, Command, Ran, as_streams, in_pipe, read_in_time
from support.running import SECONDS, usage_error, write
from support.streams import ACCEPTED, MARKER, SHOWN, SMALLEST, STORY, TEXT, escaped

# The text of the second envelope, refused before its end: after `Ra` there is a control character.
CUT = STORY.replace(b"Rates stay.", b"Ra\x01es stay.")
CUT_LINE = b"1 refused at octet 214 by layer story on 8:10, cause 41 ControlOctet\n"
LIST = ["--files-from", "-"]


@pytest.fixture()
def folder(tmp_path: Path) -> Path:
    """Return a directory with an accepted file, a refused one and an accepted one: a, b and c."""
    write(tmp_path / "a", SMALLEST)
    write(tmp_path / "b", b"no envelope")
    write(tmp_path / "c", SMALLEST)
    return tmp_path


def prefixed(name: bytes, text: bytes) -> bytes:
    """Return a text with a file's name before each line."""
    return b"".join(name + b": " + line for line in text.splitlines(keepends=True))


def test_checks_several_files(run: Command, folder: Path) -> None:
    write(folder / "c", SMALLEST + STORY)
    write(folder / "d", b"")
    first = prefixed(b"a", ACCEPTED)
    last = prefixed(b"c", ACCEPTED + b"2 accepted 246 octets\n")
    want = first + prefixed(b"b", MARKER) + last
    assert run(["check", "a", "b", "c", "d"], cwd=folder) == (1, want, b"")
    assert run(["check", "a", "c"], cwd=folder) == (0, first + last, b"")
    assert run(["check", "c", "a"], cwd=folder) == (0, last + first, b"")
    assert run(["check", "a", "a"], SMALLEST, cwd=folder) == (0, first + first, b"")
    assert run(["check", "--", "a", "a"], cwd=folder) == (0, first + first, b"")
    assert run(["check", "d", "d"], cwd=folder) == (0, b"", b"")


def test_continues_after_a_file_it_cannot_open(run: Command, folder: Path) -> None:
    output = prefixed(b"a", ACCEPTED) + prefixed(b"c", ACCEPTED)
    errors = b"absent: cannot open absent\n.: cannot read\n"
    assert run(["check", "a", "absent", ".", "c"], cwd=folder) == (3, output, errors)
    lines = prefixed(b"a", ACCEPTED) + errors + prefixed(b"b", MARKER) + prefixed(b"c", ACCEPTED)
    both = in_pipe(run, folder, "iimwire check a absent . b c 2>&1")
    assert both == (3, lines, b"")


def test_escapes_names_of_several_files(run: Command, tmp_path: Path) -> None:
    names = ["a", "x\ny", "back\\slash", "\x1b[0m", "\u00e9 \u0085"]
    for name in names:
        write(tmp_path / name, SMALLEST)
    printed = [escaped(name) for name in names]
    assert printed[1:4] == ["x\\x0Ay", "back\\x5Cslash", "\\x1B[0m"]
    want = b"".join(prefixed(name.encode(), ACCEPTED) for name in printed)
    assert run(["check", *names], cwd=tmp_path) == (0, want, b"")
    errors = b"x\\x0A: cannot open x\\x0A\n"
    want = prefixed(b"a", ACCEPTED)
    assert run(["check", "a", "x\n"], cwd=tmp_path) == (3, want, errors)


def test_shows_several_files(run: Command, folder: Path) -> None:
    want = prefixed(b"a", SHOWN) + prefixed(b"b", MARKER) + prefixed(b"c", SHOWN)
    assert run(["show", "a", "b", "c"], cwd=folder) == (1, want, b"")
    # A name that is longer than a block of output.
    long = "/".join(["."] * 1000) + "/a"
    want = prefixed(long.encode(), SHOWN) + prefixed(b"a", SHOWN)
    assert run(["show", long, "a"], cwd=folder) == (0, want, b"")


def test_prints_stories_of_several_files(run: Command, folder: Path) -> None:
    write(folder / "a", STORY)
    write(folder / "b", CUT)
    output = prefixed(b"a", TEXT) + b"b: Ra\nc: \n"
    errors = b"a: 1 accepted 246 octets\n" + prefixed(b"b", CUT_LINE) + prefixed(b"c", ACCEPTED)
    assert run(["story", "a", "b", "c"], cwd=folder) == (1, output, errors)
    assert run(["story", "b"], cwd=folder) == (1, b"Ra", CUT_LINE)


@pytest.mark.parametrize("end", [b"\n", b"\0"])
def test_reads_file_names_from_a_list(run: Command, folder: Path, end: bytes) -> None:
    write(folder / "c", STORY)
    write(folder / "x y", SMALLEST)
    output = b"c: 1 accepted 246 octets\n" + prefixed(b"a", ACCEPTED) + prefixed(b"x y", ACCEPTED)
    want = 0, output, b""
    ended = b"".join(name + end for name in (b"c", b"", b"a", b"x y", b""))
    for octets in end.join([b"c", b"a", b"x y"]), ended:
        assert run(["check", *LIST], octets, cwd=folder) == want, octets
        write(folder / "list", octets)
        for words in ["--files-from", "list"], ["--files-from=list"]:
            assert run(["check", *words], cwd=folder) == want, (octets, words)


def test_reads_lists_of_one_name_and_of_none(run: Command, folder: Path) -> None:
    one = prefixed(b"a", ACCEPTED)
    assert run(["check", *LIST], b"a\n", cwd=folder) == (0, one, b"")
    assert run(["check", *LIST], b"", cwd=folder) == (0, b"", b"")
    # The byte that ends the first name ends each: before a NUL, a name may contain an LF.
    write(folder / "p\nq", SMALLEST)
    want = 0, one + prefixed(b"p\\x0Aq", ACCEPTED), b""
    assert run(["check", *LIST], b"a\0p\nq\0", cwd=folder) == want


def test_continues_after_a_name_that_is_not_utf8(run: Command, folder: Path) -> None:
    errors = b"\\xFF.iim: cannot open \\xFF.iim\nabsent: cannot open absent\n"
    got = run(["check", *LIST], b"a\n\xff.iim\nabsent\na\n", cwd=folder)
    assert got == (3, prefixed(b"a", ACCEPTED) * 2, errors)


def test_reports_a_list_it_cannot_read(run: Command, tmp_path: Path) -> None:
    absent = run(["check", "--files-from", "absent"], cwd=tmp_path)
    assert absent == (3, b"", b"cannot open absent\n")
    assert run(["check", "--files-from", "."], cwd=tmp_path) == (3, b"", b"cannot read\n")


def test_rejects_a_file_beside_a_list(run: Command) -> None:
    for name in "check", "show", "story":
        usage_error(run, [name, *LIST, "a"], b"--files-from takes no FILE")
    for words in ["pack", "a", "a"], ["pack", *LIST], ["check", *LIST, *LIST]:
        usage_error(run, words)
    usage_error(run, ["check", "--files-from"], b"")


def test_stops_if_output_of_several_files_fails(run: Command, folder: Path) -> None:
    with open("/dev/full", "wb") as full:
        got = run(["check", "a", "c", "absent"], cwd=folder, stdout=full)
        assert got == (3, b"", b"a: cannot write\n")
        assert run(["check", "absent", "a"], cwd=folder, stderr=full) == (3, b"", b"")


def test_flushes_a_file_before_the_next_name(run: Command, folder: Path) -> None:
    options: dict[str, Any] = {"cwd": folder, "stdout": subprocess.PIPE, "bufsize": 0}
    with run.start("check", *LIST, **options) as process:
        assert process.stdin
        for _ in range(2):
            process.stdin.write(b"a\n")
            want = prefixed(b"a", ACCEPTED)
            assert read_in_time(process.stdout, len(want)) == want
        process.stdin.close()
        assert process.wait(SECONDS) == 0


def with_processor_time(
    arguments: Sequence[Argument], octets: bytes, folder: Path
) -> tuple[float, Ran]:
    """Run a program, and return the seconds of a processor that it used."""
    before = resource.getrusage(resource.RUSAGE_CHILDREN)
    ran = subprocess.run(arguments, cwd=folder, timeout=SECONDS, **as_streams({}, octets))
    after = resource.getrusage(resource.RUSAGE_CHILDREN)
    used = after.ru_utime + after.ru_stime - before.ru_utime - before.ru_stime
    return used, Ran(ran.returncode, ran.stdout, ran.stderr)


@pytest.mark.xdist_group("measured")
def test_checks_100000_files_of_a_list(run: Command, tmp_path: Path) -> None:
    names = [f"{number:06}.iim" for number in range(100_000)]
    absent, unreadable = names[500], names[70_000]
    there = [name for name in names if name not in (absent, unreadable)]
    for name in there:
        write(tmp_path / name, SMALLEST)
    (tmp_path / unreadable).mkdir()
    octets = "".join(f"{name}\0" for name in names).encode()
    used, (status, output, errors) = with_processor_time(
        [run.path, "check", *LIST], octets, tmp_path
    )
    want = b"".join(prefixed(name.encode(), ACCEPTED) for name in there)
    lines = f"{absent}: cannot open {absent}\n{unreadable}: cannot read\n".encode()
    assert (status, output == want, errors) == (3, True, lines)
    # (processor time, which a loaded machine stretches for both programs alike)
    summing, _ = with_processor_time(["xargs", "-0", "sha256sum"], octets, tmp_path)
    assert used <= max(2.0, 12 * summing)
