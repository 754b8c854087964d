"""Read the manual page of the command, its examples, and the help of the command."""
from __future__ import annotations

import re
from typing import NamedTuple, Optional

from support.running import TOP, Command

ESCAPES = {
    "\\-": "-",
    "\\(aq": "'",
    "\\(ti": "~",
    "\\(ha": "^",
    "\\(ga": "`",
    "\\&": "",
    "\\e": "\\",
}


def manual() -> str:
    """Return the lines of the manual page as they are printed, with its requests."""
    text = (TOP / "docs/iimwire.1").read_text()
    for escape, letter in ESCAPES.items():
        text = text.replace(escape, letter)
    return text


def examples() -> list[str]:
    """Return the examples of the manual page."""
    section = manual().partition(".SH EXAMPLES\n")[2].partition("\n.SH")[0]
    return [block.partition("\n.EE")[0] for block in section.split("\n.EX\n")[1:]]


def example(words: str) -> str:
    """Return the one example that begins with these words."""
    found = [each for each in examples() if each.startswith(words)]
    assert len(found) == 1, words
    return found[0]


class Option(NamedTuple):
    """An option of a command: the name of its value, if it takes one, and its text in the help."""

    value: Optional[str]
    text: str


def help_of(run: Command, command: str) -> str:
    """Return the help of a command."""
    return run([command, "--help"] if command else ["--help"]).output.decode()


def options_of(run: Command, command: str) -> dict[str, Option]:
    """Return the options that the help of a command lists, by their long names."""
    listed = help_of(run, command).partition("\nOptions:\n")[2].partition("\n\n")[0]
    rows = re.findall(r"^ +(?:(-\w), )?(--[a-z-]+)(?: <(\w+)>)? +(.*)$", listed, re.M)
    return {name: Option(value or None, text) for _, name, value, text in rows}
