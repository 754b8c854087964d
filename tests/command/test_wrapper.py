"""`./iimwire`: it builds the command if that is needed, and runs it."""
from __future__ import annotations

import os
import shutil
import subprocess
import time
from pathlib import Path
from typing import Optional

import pytest

from support.repositories import BUILDS, BUILT_BY_GATE, PROMPT, Repository, is_running, wait_until
from support.running import SECONDS, TOP, Command, Ran, usage_error, write_program
from support.streams import COMMANDS, NOON, SCRIPT, SMALLEST


@pytest.fixture()
def made(tmp_path: Path) -> Repository:
    """Return a repository in which nothing is built."""
    return Repository(tmp_path)


@pytest.fixture()
def wrapper(command: Path) -> Command:
    """Return the wrapper of this repository, which must not need to build the command."""
    sources = [TOP / "crates.txt", *TOP.glob("crates/*/src"), *TOP.glob("crates/*/src/**/*")]
    built = TOP / "crates/iimwire/out/iimwire"
    if command != built:
        pytest.skip("another command is tested")
    newest = max(sources, key=lambda it: it.stat().st_mtime)
    if newest.stat().st_mtime > built.stat().st_mtime:
        pytest.skip(f"{newest.relative_to(TOP)} is newer than the built command")
    return Command(TOP / "iimwire")


def test_wrapper_runs_the_built_command(run: Command, wrapper: Command, tmp_path: Path) -> None:
    for name in COMMANDS:
        words = [name, *NOON] if name == "audit" else [name]
        octets = SCRIPT if name == "pack" else SMALLEST
        for input_ in octets, octets[:50], b"":
            assert wrapper(words, input_, cwd=tmp_path) == run(words, input_, cwd=tmp_path)
    for line in "", "check --help", "chek", "check absent", "check \\x --":
        words = line.split()
        assert wrapper(words, cwd=tmp_path) == run(words, cwd=tmp_path)


def test_builds_after_a_source_changes(made: Repository) -> None:
    made.expect("one", 1)
    made.expect("one", 1)
    made.write("crates/low/src/lib.rt", "two")
    made.expect("two", 2)
    made.expect("two", 2)
    # A file that is no source changes nothing, nor does what the build leaves, nor do definitions
    # and proofs.
    for name in "README.md", "crates/low/out/stamp", "crates/low/specs/A.antt":
        made.write(name)
    made.write("crates/low/proofs/A.antt")
    (made.top / "crates/iimwire/out/more").mkdir()
    made.expect("two", 2)
    made.write("crates.txt", "low:\niimwire: low\n# changed\n")
    made.expect("two", 3)
    made.expect("two", 3)


def test_builds_after_a_source_is_added_or_removed(made: Repository) -> None:
    made.expect("one", 1)
    # (the times of all files remain)
    sources = made.top / "crates/low/src"
    made.write("crates/low/src/more.rt", " and more")
    made.expect("one and more", 2)
    (sources / "more.rt").rename(sources / "a.rt")
    made.expect(" and moreone", 3)
    (sources / "a.rt").unlink()
    made.expect("one", 4)


def test_builds_after_a_change_in_a_subdirectory(made: Repository) -> None:
    made.expect("one", 1)
    (made.top / "crates/low/src/words/more").mkdir(parents=True)
    made.expect("one", 2)
    made.write("crates/low/src/words/more/a.rt")
    made.expect("one", 3)
    made.write("crates/low/src/words/more/a.rt", "changed")
    made.expect("one", 4)
    made.expect("one", 4)


def test_builds_if_the_program_is_missing(made: Repository) -> None:
    made.expect("one", 1)
    made.write("crates/low/src/lib.rt", "two")
    made.remove("crates/iimwire/out/iimwire")
    made.expect("two", 2)


def test_runs_from_any_directory_and_link(tmp_path: Path) -> None:
    made = Repository(tmp_path / "a b")
    made.expect("one", 1)
    (tmp_path / "bin").mkdir()
    (tmp_path / "bin/iim").symlink_to("../a b/iimwire")
    (tmp_path / "bin/again").symlink_to("iim")
    path = f"{made.top}/bin:{tmp_path}/bin:{made.top}:{os.environ['PATH']}"
    for folder, words in (
        (made.top, ["./iimwire"]),
        (made.top, ["sh", "iimwire"]),
        (made.top / "crates", ["../iimwire"]),
        (Path("/"), [str(tmp_path / "bin/again")]),
        (tmp_path, ["iimwire"]),
        (Path("/"), ["iim"]),
    ):
        arguments, env = ["env", *words, "a", "*"], {**os.environ, "PATH": path}
        ran = subprocess.run(arguments, cwd=folder, env=env, capture_output=True, timeout=SECONDS)
        assert (ran.returncode, ran.stdout, ran.stderr) == (0, b"one: a *\n", b""), words
    assert made.builds() == 1


ABSENT = "rt, the command of Rattle's toolchain, is not on the path: "
ABSENT += "nothing is proved and built without it (README.md)\n"
WANTED = "rt version has to print a line that ends in 'logic dac8208d650f15bf' (README.md), "
WANTED += "and it printed: "
# Scripts in place of `rt`, with what is printed.
TOOLCHAINS = [
    (None, ABSENT),
    (
        "echo rattle-kit-14 logic 0123456789abcdef",
        f"{WANTED}rattle-kit-14 logic 0123456789abcdef\n",
    ),
    ("echo logic dac8208d650f15bf0", f"{WANTED}logic dac8208d650f15bf0\n"),
    ("echo no such command: $1 >&2; exit 2", f"{WANTED}no such command: version\n"),
    ("", f"{WANTED}\n"),
]


@pytest.mark.parametrize("program, status", [("iimwire check", 3), ("bindings/build --gate", 1)])
@pytest.mark.parametrize("toolchain, want", TOOLCHAINS)
def test_reports_a_missing_toolchain(
    made: Repository, program: str, status: int, toolchain: Optional[str], want: str
) -> None:
    made.remove("bin/rt")
    for name in "bash", "dirname", "readlink":
        (made.top / "bin" / name).symlink_to(shutil.which(name) or name)
    if toolchain is not None:
        write_program(made.top / "bin/rt", f"#!/bin/sh\n{toolchain}\n")
    env = {**os.environ, "PATH": f"{made.top}/bin"}
    name, argument = program.split()
    ran = Command(made.top / name)([argument], env=env, stdin=subprocess.DEVNULL)
    assert ran == (status, b"", want.encode())
    assert (made.builds(), made.leftovers()) == (0, [])
    assert not (made.top / "bindings/out").exists()


def test_runs_without_a_toolchain_once_built(made: Repository) -> None:
    made.expect("one", 1)
    made.remove("bin/rt")
    made.expect("one", 1)


def test_builds_again_after_a_change_while_building(made: Repository) -> None:
    made.write("edit", "two")
    made.expect("one", 1)
    made.expect("two", 2)
    made.expect("two", 2)


def test_names_each_proved_crate_on_a_pipe(made: Repository) -> None:
    for proved, named in (False, b""), (True, b"proved: low\nproved: iimwire\n"), (False, b""):
        if proved:
            made.write("proved")
        made.write("crates/low/src/lib.rt", "one")
        assert made.run("iimwire", "check") == (0, b"one: check\n", BUILDS + named)
        if proved:
            made.remove("proved")


def test_runs_the_command_that_the_gate_built(made: Repository) -> None:
    (made.top / "crates/iimwire/out").mkdir()
    # (files that are written in this order must have times in this order)
    time.sleep(0.05)
    write_program(made.top / "crates/iimwire/out/iimwire", BUILT_BY_GATE)
    # The gate builds other crates after it.
    time.sleep(0.05)
    made.write("crates/low/out/rlib/stamp")
    made.expect("gate", 0)


def test_reports_why_nothing_was_built(made: Repository) -> None:
    made.write("wrong")
    for _ in range(2):
        errors = BUILDS + b"low is not proved\nwhy\nnothing is built\n"
        assert made.run("iimwire", "check") == (3, b"", errors)
        assert made.leftovers() == []
    made.remove("wrong")
    made.expect("one", 3)


@pytest.mark.parametrize("signal, status", [("INT", 130), ("TERM", 143), ("HUP", 129)])
def test_signal_ends_the_build_of_the_wrapper(made: Repository, signal: str, status: int) -> None:
    made.write("slow")
    # (the signal is not ignored, even if these tests are run so)
    words = ["env", f"--default-signal={signal}", f"{made.top}/iimwire", "check"]
    with made.start(*words) as process:
        builder = made.builder()
        assert (len(made.leftovers()), is_running(builder)) == (1, True)
        subprocess.run(["kill", "-s", signal, str(process.pid)], check=True)
        assert process.communicate(timeout=PROMPT) == (b"", BUILDS)
        assert process.returncode == status
    assert made.leftovers() == []
    wait_until(lambda: not is_running(builder))
    made.remove("slow")
    made.expect("one", 2)


def at_once(made: Repository, *words: str) -> Ran:
    """Return what `./iimwire` prints for arguments that need no build."""
    got = made.run("iimwire", *words)
    assert made.builds() == 0, words
    return got


def test_prints_help_without_a_build(made: Repository) -> None:
    made.add_help()
    made.remove("bin/rt")
    for name in "iimwire", *COMMANDS:
        words = [] if name == "iimwire" else [name]
        text = (TOP / f"tests/help/{name}.txt").read_bytes()
        for option in "--help", "-h":
            assert at_once(made, *words, option) == (0, text, b"")
    assert at_once(made, "pack", "--unknown", "--max", "5", "-h").status == 0
    for option in "--version", "-V":
        assert at_once(made, option) == (0, b"iimwire 2\n", b"")


ERRORS = [
    *("", "chek", "help", "a.iim", "--x", "-x", "Usage:", "../help/check", "c.*k"),
    *("check --version", "check --subfile 5", "check -x", "check --f.*"),
    *("audit", "audit --now", "audit --now --x a", "audit --now -h"),
    *("pack --max --y", "pack --max --unknown", "pack --max --", "pack --max=5 --y"),
]


@pytest.mark.parametrize("line", ERRORS)
def test_reports_usage_errors_without_a_build(run: Command, made: Repository, line: str) -> None:
    made.add_help()
    status, output, errors = at_once(made, *line.split())
    assert (status, output) == (2, b"")
    # The command prints the same, except for the name that it suggests and for options in its
    # usage line.
    built = usage_error(run, line.split(), b"")
    assert errors == built or line in ("chek", "pack --max=5 --y")


VALID = [
    ["check", "--", "--x"],
    ["audit", "--now", "x", "a"],
    ["pack", "--max", "5", "--unknown"],
    ["check", "-"],
    ["pack", "--subfile=7"],
]


@pytest.mark.parametrize("words", VALID, ids=" ".join)
def test_builds_for_valid_arguments(made: Repository, words: list[str]) -> None:
    made.add_help()
    assert made.run("iimwire", *words) == (0, f"one: {' '.join(words)}\n".encode(), BUILDS)
    assert made.builds() == 1
