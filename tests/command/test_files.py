"""The argument FILE: any name, and files that cannot be opened or read."""
from __future__ import annotations

import os
import shutil
import subprocess
from pathlib import Path

import pytest

from support.running import SECONDS, Command, write
from support.streams import (
    ACCEPTED,
    COMMANDS,
    MARKER,
    NOON,
    SCRIPT,
    SHOWN,
    SMALLEST,
    STORY,
    STORY_ACCEPTED,
    TEXT,
    escaped,
)


def test_checks_a_file(run: Command, tmp_path: Path) -> None:
    assert run(["check", write(tmp_path / "a.iim", SMALLEST)]) == (0, ACCEPTED, b"")


def test_checks_standard_input(run: Command) -> None:
    assert run(["check"], SMALLEST) == (0, ACCEPTED, b"")


def test_prefers_a_file_to_standard_input(run: Command, tmp_path: Path) -> None:
    accepted = write(tmp_path / "a.iim", SMALLEST)
    refused = write(tmp_path / "b.iim", b"no envelope")
    assert run(["check", accepted], b"no envelope") == (0, ACCEPTED, b"")
    assert run(["check", refused], SMALLEST) == (1, MARKER, b"")


def test_accepts_a_file_name_like_an_option(run: Command, tmp_path: Path) -> None:
    write(tmp_path / "--help", SMALLEST)
    assert run(["check", "--", "--help"], cwd=tmp_path) == (0, ACCEPTED, b"")


@pytest.mark.parametrize("name", ["a.iim", "-", "check", "--help"])
def test_accepts_any_file_name(run: Command, tmp_path: Path, name: str) -> None:
    write(tmp_path / name, STORY)
    file = ["--", name] if name.startswith("--") else [name]
    reported = STORY_ACCEPTED
    assert run(["check", *file], SMALLEST, cwd=tmp_path) == (0, reported, b"")
    assert run(["story", *file], SMALLEST, cwd=tmp_path) == (0, TEXT, reported)
    shown = run(["show", *file], SMALLEST, cwd=tmp_path).output
    assert shown.splitlines()[5] == b"1:40 00000002"
    report = run(["audit", *NOON, *file], SMALLEST, cwd=tmp_path).output
    assert report.startswith(b"1 TST 00000002")
    write(tmp_path / name, SCRIPT)
    assert run(["pack", *file], b"text\n", cwd=tmp_path) == (0, SMALLEST, b"")


def test_accepts_no_file_name(run: Command) -> None:
    assert run(["story"], STORY) == (0, TEXT, STORY_ACCEPTED)
    assert run(["show"], SMALLEST) == (0, SHOWN, b"")


def test_accepts_an_empty_input(run: Command, tmp_path: Path) -> None:
    assert run(["check"]) == (0, b"", b"")
    assert run(["check", write(tmp_path / "a.iim", b"")], SMALLEST) == (0, b"", b"")


def test_reports_a_missing_file(run: Command, tmp_path: Path) -> None:
    want = 3, b"", b"cannot open absent.iim\n"
    assert run(["check", "absent.iim"], SMALLEST, cwd=tmp_path) == want


def test_escapes_control_characters_of_names(run: Command, tmp_path: Path) -> None:
    name = "a\n\x1b[31m\x7f\té\x85\\x41.iim"
    printed = "a\\x0A\\x1B[31m\\x7F\\x09é\\xC2\\x85\\x5Cx41.iim"
    assert escaped(name) == printed
    want = 3, b"", f"cannot open {printed}\n".encode()
    assert run(["check", name], SMALLEST, cwd=tmp_path) == want


# 00 ends a name, and 2F separates two.
NAMES = [
    range(0x01, 0x10),
    range(0x10, 0x20),
    [*range(0x20, 0x2F), *range(0x30, 0x80)],
    range(0x80, 0xA0),
    range(0xA0, 0x120),
    [0x9F, 0x20AC, 0x1F4F0, 0x80C2],
]


@pytest.mark.parametrize("letters", NAMES)
def test_prints_each_character_of_names(run: Command, tmp_path: Path, letters: list[int]) -> None:
    name = "".join(map(chr, letters))
    want = 3, b"", f"cannot open {escaped(name)}\n".encode()
    assert run(["check", name], SMALLEST, cwd=tmp_path) == want


def expect_unopened(run: Command, name: str, folder: Path) -> None:
    """Check that no command can open this name, and that none reads anything else."""
    for command in COMMANDS:
        now = NOON if command == "audit" else []
        octets = SCRIPT if command == "pack" else SMALLEST
        want = 3, b"", f"cannot open {name}\n".encode()
        assert run([command, *now, name], octets, cwd=folder) == want, command


def test_treats_an_empty_argument_as_a_name(run: Command, tmp_path: Path) -> None:
    # A quoted shell variable that is not set: the command must not read standard input instead.
    expect_unopened(run, "", tmp_path)


LONG = "b" * 256, "b" * 5000, "b/" * 2500


@pytest.mark.parametrize("name", ["absent.iim", "absent/a.iim", "a.iim/x", "a.iim/", "loop", *LONG])
def test_reports_each_file_it_cannot_open(run: Command, tmp_path: Path, name: str) -> None:
    write(tmp_path / "a.iim", SMALLEST)
    (tmp_path / "loop").symlink_to("loop")
    expect_unopened(run, name, tmp_path)


def test_keeps_spaces_around_names(run: Command, tmp_path: Path) -> None:
    write(tmp_path / "a.iim", SMALLEST)
    for name in " a.iim", "a.iim ", "  a.iim  ", "\ta.iim", "a.iim\n", " ", "\n":
        write(tmp_path / name, STORY)
        assert run(["check", name], SMALLEST, cwd=tmp_path) == (0, STORY_ACCEPTED, b""), name
    assert run(["check", "a.iim"], cwd=tmp_path) == (0, ACCEPTED, b"")
    for name in " b.iim", "b.iim ", "  ":
        expect_unopened(run, name, tmp_path)


def as_another_user(folder: Path) -> list[str]:
    """Return what runs a program as a user without root's rights, for whom the folder is open."""
    for path in folder, *folder.parents[:2]:
        path.chmod(path.stat().st_mode | 0o055)
    if os.geteuid() != 0:
        return []
    setpriv = shutil.which("setpriv") or "setpriv"
    change = [setpriv, "--reuid=65534", "--regid=65534", "--clear-groups"]
    try:
        subprocess.run([*change, "true"], check=True, capture_output=True)
    except (OSError, subprocess.CalledProcessError) as error:
        pytest.skip(f"no other user to read as: {error}")
    return change


def test_reports_a_file_without_read_permission(run: Command, tmp_path: Path) -> None:
    change = as_another_user(tmp_path)
    program = Path(shutil.copy(run.path, tmp_path / "iimwire"))
    program.chmod(0o755)
    closed = tmp_path / "closed"
    closed.mkdir()
    for name, mode in ("a.iim", 0o644), ("b.iim", 0), ("closed/a.iim", 0o644):
        write(tmp_path / name, SMALLEST).chmod(mode)
    closed.chmod(0)
    for name, want in (
        ("a.iim", (0, ACCEPTED, b"")),
        ("b.iim", (3, b"", b"cannot open b.iim\n")),
        ("closed/a.iim", (3, b"", b"cannot open closed/a.iim\n")),
    ):
        arguments = [*change, str(program), "check", name]
        ran = subprocess.run(
            arguments, cwd=tmp_path, input=STORY, capture_output=True, timeout=SECONDS
        )
        assert (ran.returncode, ran.stdout, ran.stderr) == want, name
    closed.chmod(0o700)


def test_reports_a_directory(run: Command, tmp_path: Path) -> None:
    assert run(["check", tmp_path]) == (3, b"", b"cannot read\n")


def test_rejects_arguments_that_are_not_utf8(run: Command) -> None:
    assert run([b"check", b"\xff.iim"]) == (2, b"", b"arguments are no text\n")


def test_rejects_a_name_that_is_not_utf8(run: Command, tmp_path: Path) -> None:
    file = write(tmp_path / os.fsdecode(b"\xff.iim"), SMALLEST)
    assert run([b"check", os.fsencode(file)]) == (2, b"", b"arguments are no text\n")
    with file.open("rb") as stdin:
        assert run(["check"], stdin=stdin) == (0, ACCEPTED, b"")
