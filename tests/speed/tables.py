"""The tables of measurements, as they are printed and as they are in docs/SPEED.md.

The page has a place between two markers for each part that is measured. Only the script writes
there. `tests/documents` compares each place with its tables, except for the numbers.
"""
from __future__ import annotations

import re
import textwrap
from typing import Collection, Dict, Iterable, Iterator, List, Optional, Sequence, Tuple, Union

from speed.shapes import AUDITS, SCRIPTS, SHAPES, TOP

PAGE = f"{TOP}/docs/SPEED.md"
# How the line begins that says what was measured, and what stands where something wasn't there.
SAID, NOT_THERE = "Measured of ", "–"
# The columns of envelopes: a run, or two runs whose ratio it is. Runs are those of the command, of
# `best` (best.c), `plain` (reader.rs) and `feed` (feed.c), of `cat`, and of `wc` (`wc -l`).
Column = Tuple[str, str, str]
COUNTED: List[Column] = [
    ("check", "check", ""),
    ("÷ best.c", "check", "best check"),
    ("÷ plain Rust", "check", "plain check"),
    ("story", "story", ""),
    ("÷ best.c", "story", "best story"),
    ("÷ plain Rust", "story", "plain story"),
    ("show", "show", "check"),
    ("audit", "audit", "check"),
    ("iim_feed", "feed check", "check"),
]
TIMED: List[Column] = [
    *COUNTED[:2],
    ("÷ cat", "check", "cat"),
    COUNTED[2],
    *COUNTED[3:5],
    ("÷ cat", "story", "cat"),
    *COUNTED[5:],
    ("cat", "cat", ""),
    ("wc -l", "wc", ""),
]
PACKED = ["Script", "pack", "plain Rust", "ratio"]
# What memory is measured with: the shape or script, and how often it occurs in the input.
MEMORY = {
    "envelopes of 246 octets, 2 MB": ("envelopes of 246 octets", 2),
    "envelopes of 246 octets, 200 MB": ("envelopes of 246 octets", 200),
    "a script of prose, 16 MB": ("a script of prose", 16),
}
# What the Python package does with each envelope of a stream.
PACKAGE = {
    "count the envelopes": "sum(1 for _ in iim.read(path))",
    "read all fields": "sum(len(envelope.datasets) for envelope in iim.read(path))",
    "audit": "sum(1 for _ in iim.audit(path))",
}
# Of each part its tables: the names of their columns, and those of their rows.
PARTS: Dict[str, List[Tuple[List[str], Collection[str]]]] = {
    "counts": [
        (["Shape", *(each[0] for each in COUNTED), "writes of check", "of story"], SHAPES),
        ([*PACKED, "writes"], SCRIPTS),
    ],
    "times": [(["Shape", *(each[0] for each in TIMED)], SHAPES), (PACKED, SCRIPTS)],
    "audits": [(["Envelopes", "check", "audit", "ratio", "memory of the audit"], AUDITS)],
    "memory": [(["Input", "check", "show", "story", "pack"], MEMORY)],
    "package": [(["Python", "extension", "ratio", "ctypes", "ratio"], PACKAGE)],
}


def line(cells: Iterable[str]) -> str:
    """Return a row of a table."""
    return f"| {' | '.join(cells)} |"


def heading(columns: Sequence[str]) -> List[str]:
    """Return the lines above the rows of a table."""
    return [line(columns), "|" + "---|" * len(columns)]


def row(name: str, numbers: Iterable[Optional[Union[int, float]]]) -> str:
    """Return a row with a cell for each number, a fraction with two digits."""
    return line(
        [
            name,
            *(
                NOT_THERE
                if each is None
                else f"{each:,.2f}"
                if isinstance(each, float)
                else f"{each:,}"
                for each in numbers
            ),
        ]
    )


def marks(part: str) -> Tuple[str, str]:
    """Return the lines that enclose a part of the page."""
    return f"<!-- tests/speed/measure {part} -->\n", f"<!-- the end of {part} -->\n"


def put(part: str, lines: List[str]) -> None:
    """Write the lines of a part into the page. The first line is wrapped at 100 columns."""
    begin, end = marks(part)
    with open(PAGE, encoding="utf-8") as file:
        before, _, rest = file.read().partition(begin)
    _, _, after = rest.partition(end)
    with open(PAGE, "w", encoding="utf-8") as file:
        file.write(
            before
            + begin
            + "\n".join([textwrap.fill(lines[0], 100, break_on_hyphens=False), *lines[1:]])
            + "\n"
            + end
            + after
        )


def faults(page: str) -> Iterator[str]:
    """Yield what is wrong with the places of the parts in the text of a page.

    Each place needs a line on what was measured, and the tables with their numbers.
    """
    for part, tables in PARTS.items():
        begin, end = marks(part)
        if (page.count(begin), page.count(end)) != (1, 1):
            yield f"{part} has no place"
            continue
        said, *found = page.partition(begin)[2].partition(end)[0].rstrip("\n").split("\n\n")
        if not said.startswith(SAID):
            yield f"{part}: nothing says how it was measured"
        wanted = [[*heading(columns), *rows] for columns, rows in tables]
        there = [
            [
                *each.split("\n")[:2],
                *(row.strip("| ").split(" | ")[0] for row in each.split("\n")[2:]),
            ]
            for each in found
        ]
        if there != wanted:
            yield f"{part}: {there} replaces {wanted}"
        cells = [
            cell
            for each in found
            for row in each.split("\n")[2:]
            for cell in row.strip("| ").split(" | ")[1:]
        ]
        yield from (
            f"{part}: {cell} is no number"
            for cell in cells
            if not re.fullmatch(rf"[\d,]+(\.\d\d)?|{NOT_THERE}", cell)
        )
