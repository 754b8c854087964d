"""The completions of bash and zsh, against the help of the command."""
from __future__ import annotations

import os
import re
import shutil
import subprocess
import sys
from pathlib import Path

import pytest

from support.manual import help_of, options_of
from support.running import SECONDS, TOP, Command, write
from support.streams import COMMANDS

# Completes the last argument, and prints the candidates.
COMPLETE = """. "$0"
COMP_WORDS=("$@")
COMP_CWORD=$(($# - 1))
_iimwire
printf "%s\\n" "${COMPREPLY[@]}"
"""


def completed(folder: Path, *words: str) -> list[str]:
    """Return what bash offers in a directory for the last of these words."""
    arguments = ["bash", "-c", COMPLETE, f"{TOP}/completions/iimwire.bash", "iimwire", *words]
    ran = subprocess.run(arguments, cwd=folder, capture_output=True, text=True, timeout=SECONDS)
    assert (ran.stderr, ran.returncode) == ("", 0), words
    return sorted(ran.stdout.split("\n")[:-1])


def test_bash_completes_what_help_lists(run: Command, tmp_path: Path) -> None:
    write(tmp_path / "a b.iim", b"")
    first = sorted([*COMMANDS, "-h", "--help", "-V", "--version"])
    assert completed(tmp_path, "") == first
    assert completed(tmp_path, "s") == ["show", "story"]
    (now,) = completed(tmp_path, "audit", "--now", "")
    assert run(["audit", "--now", now]).status == 0


@pytest.mark.parametrize("name", COMMANDS)
def test_bash_completes_options_and_files(run: Command, tmp_path: Path, name: str) -> None:
    write(tmp_path / "a b.iim", b"")
    options = options_of(run, name)
    assert completed(tmp_path, name, "-") == sorted([*options, "-h"])
    for option in (option for option, (value, _) in options.items() if value is None):
        assert completed(tmp_path, name, option, "") == ["a b.iim"], option
    # (nothing is wrong in what it prints for an option with a value)
    for option in (option for option, (value, _) in options.items() if value is not None):
        completed(tmp_path, name, option, "")
    assert completed(tmp_path, name, "a") == ["a b.iim"]
    assert completed(tmp_path, name, "--", "-") == [""]


def test_zsh_completes_what_help_lists(run: Command) -> None:
    text = (TOP / "completions/_iimwire").read_text()
    commands = help_of(run, "").partition("\nCommands:\n")[2].partition("\n\n")[0]
    described = re.findall(r"^  ([a-z]+) +(.*)$", commands, re.M)
    assert re.findall(r'^    "([a-z]+):(.*)"$', text, re.M) == described
    for name in COMMANDS:
        # (the options of a command are in its arm; a colon is written with a backslash)
        arm = text.partition(f"        {name})\n")[2].partition(";;")[0]
        rows = re.findall(r"'(--[a-z-]+)(=?)\[((?:\\.|[^\]])*)\]", arm)
        options = {option: (equals, printed.replace("\\", "")) for option, equals, printed in rows}
        listed = options_of(run, name).items()
        want = {option: ("=" if value else "", printed) for option, (value, printed) in listed}
        assert options == {option: it for option, it in want.items() if option != "--help"}, name


@pytest.mark.parametrize("name", ["_iimwire", "_iim-explain", "_iim-archive"])
def test_zsh_completions_have_no_syntax_error(name: str) -> None:
    if not shutil.which("zsh"):
        pytest.skip("zsh is not there")
    arguments = ["zsh", "-n", f"{TOP}/completions/{name}"]
    assert subprocess.run(arguments, capture_output=True, timeout=SECONDS).stderr == b""


def options_of_explain() -> list[str]:
    """Return the options that the help of iim-explain lists."""
    words = [sys.executable, "-m", "iim", "explain", "--help"]
    environment = {**os.environ, "PYTHONPATH": f"{TOP}/bindings/python/src", "COLUMNS": "200"}
    ran = subprocess.run(words, capture_output=True, text=True, timeout=SECONDS, env=environment)
    assert ran.returncode == 0, ran.stderr
    found = re.findall(r"^  (?:(-\w), )?(--[a-z]+)", ran.stdout, re.M)
    return sorted({option for pair in found for option in pair if option})


def test_completes_the_options_of_iim_explain(tmp_path: Path) -> None:
    listed = options_of_explain()
    assert {"-h", "-V", "--encoding", "--json"} <= set(listed)
    write(tmp_path / "a b.iim", b"")
    bash = COMPLETE.replace("_iimwire", "_iim_explain")

    def offered(*words: str) -> list[str]:
        """Return what bash offers for the last of these words."""
        arguments = ["bash", "-c", bash, f"{TOP}/completions/iim-explain.bash", "iim-explain"]
        ran = subprocess.run(
            [*arguments, *words], cwd=tmp_path, capture_output=True, text=True, timeout=SECONDS
        )
        assert (ran.stderr, ran.returncode) == ("", 0), words
        return sorted(ran.stdout.split("\n")[:-1])

    assert offered("-") == listed
    assert offered("a") == offered("--html", "a") == ["a b.iim"]
    assert "koi8-r" in offered("--encoding", "k")
    zsh = (TOP / "completions/_iim-explain").read_text()
    assert set(re.findall(r"(--[a-z]+)[=}\[]", zsh)) == {
        option for option in listed if option[:2] == "--"
    }
