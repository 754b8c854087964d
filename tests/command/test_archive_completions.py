"""The completions of iim-archive in bash and zsh, against the help of each of its commands."""
from __future__ import annotations

import os
import re
import subprocess
import sys
from pathlib import Path
from typing import NamedTuple

import pytest

from support.running import SECONDS, TOP, write

NAMES = "query", "report", "verify", "manifest", "migrate"
COMMANDS: list[tuple[str, ...]] = [(), *((name,) for name in NAMES)]

# Completes the last argument, and prints the candidates.
COMPLETE = """. "$0"
COMP_WORDS=("$@")
COMP_CWORD=$(($# - 1))
_iim_archive
printf "%s\\n" "${COMPREPLY[@]}"
"""


class Option(NamedTuple):
    """An option that the help prints: its value, or nothing, and what it does."""

    value: str
    text: str


def help_of(command: tuple[str, ...]) -> str:
    """Return the help of a command."""
    words = [sys.executable, "-m", "iim.archive", *command, "--help"]
    environment = {**os.environ, "PYTHONPATH": f"{TOP}/bindings/python/src", "COLUMNS": "1000"}
    ran = subprocess.run(words, capture_output=True, text=True, timeout=SECONDS, env=environment)
    assert ran.returncode == 0, ran.stderr
    return ran.stdout


def options_of(command: tuple[str, ...]) -> dict[str, Option]:
    """Return the options that the help of a command lists."""
    lines = re.findall(r"^  (?:-h, )?(--[a-z-]+)(.*?)(?:  +|\n +)(\S.*)$", help_of(command), re.M)
    found = {option: Option(value.strip(), text) for option, value, text in lines}
    assert "--help" in found
    return found


def offered(folder: Path, *words: str) -> list[str]:
    """Return what bash offers in a directory for the last of these words."""
    arguments = ["bash", "-c", COMPLETE, f"{TOP}/completions/iim-archive.bash", "iim-archive"]
    ran = subprocess.run(
        [*arguments, *words], cwd=folder, capture_output=True, text=True, timeout=SECONDS
    )
    assert (ran.stderr, ran.returncode) == ("", 0), words
    return sorted(ran.stdout.split("\n")[:-1])


def columns_in(text: str) -> list[str]:
    """Return the columns that the help of an option lists at its end."""
    return re.split(", ", re.split(r": |is one of ", text)[-1])


def choices_of(option: Option) -> list[str]:
    """Return the values that the help of an option lists, if these are all."""
    if option.value.startswith("{"):
        return sorted(option.value.strip("{}").split(","))
    if option.value == "KIND":
        return sorted(re.split(", | or ", option.text.partition(": ")[2]))
    return []


@pytest.mark.parametrize("command", COMMANDS, ids=["run", *NAMES])
def test_bash_completes_each_option(tmp_path: Path, command: tuple[str, ...]) -> None:
    write(tmp_path / "a b.iim", b"")
    options = options_of(command)
    assert offered(tmp_path, *command, "-") == sorted([*options, "-h"])
    assert offered(tmp_path, *command, "--", "-") == [""]
    assert offered(tmp_path, *command, "a") == ["a b.iim"]
    for name, option in options.items():
        found = offered(tmp_path, *command, name, "")
        if option.value in ("INDEX", "DIR", "OUT", "FILE"):
            assert found == ["a b.iim"], name
        elif choices_of(option):
            assert found == choices_of(option), name
        elif not option.value:
            assert "a b.iim" in found, name
        else:
            assert "a b.iim" not in found, name


def test_bash_completes_commands_and_columns(tmp_path: Path) -> None:
    write(tmp_path / "mine.iim", b"")
    assert offered(tmp_path, "") == sorted([*NAMES, "mine.iim"])
    assert offered(tmp_path, "m") == ["manifest", "migrate", "mine.iim"]
    assert offered(tmp_path, "query", "m") == ["mine.iim"]
    columns = sorted(columns_in(options_of(("query",))["--fields"].text))
    assert offered(tmp_path, "query", "--fields", "") == columns
    assert offered(tmp_path, "query", "--fields", "file,head") == ["file,headline"]
    assert "koi8-r" in offered(tmp_path, "--encoding", "k")


def arm_of(text: str, command: tuple[str, ...]) -> str:
    """Return the arm of the completions of zsh for a command."""
    return text.partition(f"    {command[0] if command else '*'})\n")[2].partition(";;")[0]


@pytest.mark.parametrize("command", COMMANDS, ids=["run", *NAMES])
def test_zsh_completes_each_option(command: tuple[str, ...]) -> None:
    text = (TOP / "completions/_iim-archive").read_text()
    rows = re.findall(r"(--[a-z-]+)(=?)\[[^\]]+\](.*)['\"]$", arm_of(text, command), re.M)
    options = {name: option for name, option in options_of(command).items() if name != "--help"}
    assert {name: equals for name, equals, _ in rows} == {
        name: "=" if option.value else "" for name, option in options.items()
    }
    for name, _, value in rows:
        choices = choices_of(options[name])
        assert not choices or sorted(re.findall(r"\w+", value.split("(")[1])) == choices, name
        assert ("_files" in value) == (options[name].value in ("INDEX", "DIR", "OUT", "FILE")), name


def test_zsh_completes_commands_and_columns() -> None:
    text = (TOP / "completions/_iim-archive").read_text()
    assert tuple(re.findall(r"^    '([a-z]+):.*'$", text, re.M)) == NAMES
    columns = text.partition("_values -s , column ")[2].partition("\n}")[0].replace("\\\n", " ")
    assert columns.split() == columns_in(options_of(("query",))["--fields"].text)
