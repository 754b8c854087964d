"""Write the lists of docs/iimwire.1, the manual page.

The datasets are those of docs/reference/format.md, and the causes those of
docs/reference/causes.md. All else on the page is written by hand.
"""
from __future__ import annotations

import re
import textwrap
from typing import Dict, Iterable, Iterator, List

from pages import causes
from pages.items import TOP, cells_of, text_of

PAGE = "docs/iimwire.1"
# The columns of a line.
WIDTH = 77
# What is written otherwise in a manual page than it is printed.
ESCAPES = {"\\": "\\e", "-": "\\-", "'": "\\(aq", "~": "\\(ti", "^": "\\(ha", "`": "\\(ga"}


def roff(words: str) -> List[str]:
    """Return a text as lines of roff."""
    lines = textwrap.wrap(words, WIDTH, break_on_hyphens=False)
    return ["".join(ESCAPES.get(letter, letter) for letter in line) for line in lines]


def datasets() -> Iterator[List[str]]:
    """Return the number and the name of each dataset."""
    for _, cells in cells_of(f"{TOP}/docs/reference/format.md"):
        if re.fullmatch(r"\d:\d+", cells[0]) and len(cells) == 6:
            yield [".TP 8", cells[0], *roff(cells[1])]


def listed_causes() -> Iterator[List[str]]:
    """Yield the lines of each cause, by number: its number, its name and its meaning."""
    for cause in sorted(causes.causes(), key=lambda each: each.number):
        yield [
            ".TP 4",
            str(cause.number),
            f".B {cause.name}",
            ".br",
            *roff(cause.entries["Meaning"].replace("`", "")),
        ]


def made(page: str, section: str, items: Iterable[List[str]]) -> str:
    """Return the page with the list of a section replaced by these items."""
    head = f".SH {section}\n"
    before, _, rest = page.partition(head)
    above, _, below = rest.partition(".PD 0\n")
    after = below.partition(".PD\n")[2]
    listing = "".join(f"{line}\n" for item in items for line in item)
    return f"{before}{head}{above}.PD 0\n{listing}.PD\n{after}"


def wanted() -> Dict[str, str]:
    """Return the page, with its text."""
    page = made(text_of(f"{TOP}/{PAGE}"), "DATASETS", datasets())
    return {PAGE: made(page, "CAUSES", listed_causes())}
