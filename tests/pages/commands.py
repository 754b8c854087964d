"""The page docs/reference/commands.md: the manual pages, converted from roff to Markdown."""
from __future__ import annotations

import re
import textwrap
from pathlib import Path
from typing import Dict, Iterator, List, Tuple

from pages.items import TOP

PAGE = "docs/reference/commands.md"
MANUALS = ("docs/iimwire.1", "packages/python/iim-explain.1", "packages/python/iim-archive.1")
HEAD = """\
# Commands

This page is generated from the manual pages by `tests/write_pages`. `man iimwire` shows the
first one in a terminal; in a clone, `man -l docs/iimwire.1` does.
"""
WIDTH = 100
# Sections whose list another page has: their first paragraph refers to it.
LISTS = {
    "DATASETS": "[The tables](format.md#the-tables) have all datasets.",
    "CAUSES": "[The causes](causes.md) are listed there.",
}
ESCAPES = {r"\-": "-", r"\(aq": "'", r"\(ti": "~", r"\(ha": "^", r"\(ga": "`", r"\e": "\\"}
# The letters that Markdown would interpret, if they were in prose.
SPECIAL = re.compile(r"([\\`*_\[\]<>])")
FONT = re.compile(r"\\f([BIRP])")
ALTERNATING = {"BI", "BR", "IB", "IR", "RB", "RI"}


def plain(text: str) -> str:
    """Return roff text with each escape replaced by what it prints."""
    return re.sub(r"\\(?:\(\w\w|.)", lambda escape: ESCAPES.get(str(escape[0]), ""), text)


def styled(text: str, font: str) -> str:
    """Return roff text in a font, as Markdown: bold text, which is literal, as code."""
    parts = FONT.split(text)
    if len(parts) > 1:
        fonts = [font, *(font if each == "P" else each for each in parts[1::2])]
        return "".join(styled(part, each) for part, each in zip(parts[::2], fonts))
    text = plain(text)
    inner = text.strip()
    if not inner:
        return text
    before, _, after = text.partition(inner)
    if font == "B":
        return f"{before}`{inner}`{after}"
    mark = "*" if font == "I" else ""
    return f"{before}{mark}{SPECIAL.sub(lambda found: chr(92) + found[1], inner)}{mark}{after}"


def words_of(arguments: str) -> List[str]:
    """Return the arguments of a macro: in quotation marks, or separated by spaces."""
    found: List[Tuple[str, str]] = re.findall(r'"([^"]*)"|(\S+)', arguments)
    return [quoted or bare for quoted, bare in found]


def inline(line: str) -> str:
    """Return a line of text, or of a macro that sets a font, as Markdown."""
    macro = re.match(r"\.([A-Z]{1,2}) (.*)", line)
    if not macro:
        return styled(line, "R")
    name, words = macro[1], words_of(macro[2])
    if name in ALTERNATING:
        fonts = (name[number % 2] for number in range(len(words)))
        return "".join(styled(word, font) for word, font in zip(words, fonts))
    return styled(" ".join(words), name)


def wrapped(lines: List[str], first: str, rest: str) -> List[str]:
    """Return a paragraph in lines of the page's width."""
    text = " ".join(lines)
    return textwrap.wrap(
        text,
        WIDTH,
        initial_indent=first,
        subsequent_indent=rest,
        break_long_words=False,
        break_on_hyphens=False,
    )


class Section:
    """Converts the lines of one section of a manual page."""

    def __init__(self) -> None:
        """Begin with no text."""
        self.blocks: List[str] = []
        self.paragraph: List[str] = []
        self.tags: List[str] = []
        # What precedes the next paragraph, and each further line of it.
        self.first = self.rest = ""
        self.depth = 0

    def flush(self) -> None:
        """End the paragraph."""
        if self.tags:
            self.paragraph = [f"{', '.join(self.tags)}:", *self.paragraph]
        if self.paragraph:
            self.blocks += ["\n".join(wrapped(self.paragraph, self.first, self.rest))]
        self.paragraph, self.tags, self.first = [], [], self.rest

    def outdent(self) -> None:
        """End an item of a list, unless indented text in it continues."""
        self.flush()
        if not self.depth:
            self.first = self.rest = ""

    def code(self, lines: Iterator[str]) -> None:
        """Convert an example, up to its end."""
        self.flush()
        shown = [plain(line) for line in iter(lambda: next(lines), ".EE")]
        fenced = ["```", *shown, "```"]
        self.blocks += ["\n".join(f"{self.rest}{line}".rstrip() for line in fenced)]

    def macro(self, name: str, line: str, lines: Iterator[str]) -> None:
        """Convert a macro that is not one of fonts."""
        if name == "TP":
            self.outdent()
            self.first, self.rest = "- ", "  "
            self.tags = [inline(next(lines))]
        elif name == "TQ":
            self.tags += [inline(next(lines))]
        elif name == "SS":
            self.outdent()
            self.blocks += [f"#### {plain(line[4:])}"]
        elif name == "EX":
            self.code(lines)
        elif name in ("PP", "br"):
            self.outdent()
        elif name == "IP":
            self.flush()
        elif name in ("RS", "RE"):
            self.flush()
            # (an indented example outside of a list stays where it is)
            self.depth += (1 if name == "RS" else -1) if self.rest else 0
        elif name != "PD":
            raise ValueError(f"unknown macro: {line}")

    def convert(self, text: str) -> List[str]:
        """Return the blocks of a section."""
        lines = iter(text.strip("\n").split("\n"))
        for line in lines:
            name = re.match(r"\.([A-Za-z]+)", line)
            if name and not re.fullmatch("[BIR]{1,2}", name[1]):
                self.macro(name[1], line, lines)
            else:
                self.paragraph += [inline(line)]
        self.flush()
        return self.blocks


def synopsis(text: str) -> List[str]:
    """Return the synopsis as code."""
    lines: List[List[str]] = [[]]
    for line in text.strip("\n").split("\n"):
        if line == ".br":
            lines += [[]]
        else:
            lines[-1] += [re.sub(r"\\(.)", r"\1", re.sub("[`*]", "", inline(line)))]
    return ["\n".join(["```", *(" ".join(each) for each in lines), "```"])]


def page_of(path: str) -> Iterator[str]:
    """Yield the blocks of a manual page."""
    text = re.sub(r'^\.\\".*\n', "", (Path(TOP) / path).read_text(encoding="utf-8"), flags=re.M)
    command = Path(path).stem
    yield f"## {command}"
    for part in re.split(r"^\.SH ", text, flags=re.M)[1:]:
        title, _, body = part.partition("\n")
        title = title.strip('"')
        if title == "NAME":
            said = plain(body.strip()).partition(" - ")[2]
            yield f"{said[0].upper()}{said[1:]}."
            continue
        yield f"### {command}: {title.lower()}"
        if title == "SYNOPSIS":
            yield from synopsis(body)
        elif title in LISTS:
            yield from [*Section().convert(body.partition(".PD 0\n")[0]), LISTS[title]]
        else:
            yield from Section().convert(body)


def wanted() -> Dict[str, str]:
    """Return the page, with its text."""
    blocks = [block for path in MANUALS for block in page_of(path)]
    return {PAGE: "\n\n".join([HEAD.strip(), *blocks]) + "\n"}
