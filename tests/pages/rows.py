"""Write the tables of datasets of docs/reference/format.md from the definition of the rows."""
from __future__ import annotations

import re
from typing import Dict, Iterator, NamedTuple

from pages.items import TOP, text_of

PAGE = "docs/reference/format.md"
DEFINED = "crates/iim_tables/specs/Format/Rows.antt"
SIZES = "crates/iim_dataset/specs/Format"
HEAD, FOOT = "<!-- tests/write_pages: the tables -->\n", "<!-- the end of the tables -->\n"
TITLES = {
    1: "Record 1, the Envelope Record",
    2: "Record 2, the Application Record",
    7: "Records 7, 8 and 9, around the object",
}
COLUMNS = "| Dataset | Name | Octets | Kind | Duty | Repeats |\n|---|---|---|---|---|---|\n"
# What the page calls a kind and a duty, if it is not the name in lower case.
WORDS = {
    "SpacedLines": "spaced with line ends",
    "PartDate": "part date",
    "SizeFromOne": "size of at least 1",
    "ByMode": "by the size mode",
    "true": "yes",
    "false": "no",
}
ENTRY = re.compile(
    r"entry (\d+) (\d+) (\d+) (\w+) (\w+) (\w+) (true|false)(?: ∷ \[\])?  -- (.+)$", re.M
)


class Row(NamedTuple):
    """A row of the definition: a dataset, its bounds, its kind, its duty and its name."""

    record: int
    number: int
    least: int
    greatest: int
    kind: str
    duty: str
    repeats: str
    name: str


def constants() -> Dict[str, int]:
    """Return the bounds that the definition names: the greatest size, and the octets of a size."""
    texts = text_of(f"{TOP}/{SIZES}/Octets.antt") + text_of(f"{TOP}/{SIZES}/Datasets.antt")
    found = {name: int(value) for name, value in re.findall(r"^(\w+) = ([\d_]+)$", texts, re.M)}
    return {"greatest_size": found["greatest_size"], "size_octets": found["count_octets"]}


def rows() -> Iterator[Row]:
    """Yield the rows of the definition, in its order."""
    known = constants()
    for record, number, least, greatest, *others in ENTRY.findall(text_of(f"{TOP}/{DEFINED}")):
        most = known[greatest] if greatest in known else int(greatest)
        yield Row(int(record), int(number), int(least), most, *others)


def octets(row: Row) -> str:
    """Return the number of octets that a row allows, in words."""
    if row.least == row.greatest:
        return str(row.least)
    return f"{f'{row.least} to' if row.least else 'up to'} {row.greatest:,}"


def table() -> str:
    """Return the tables, each under its heading."""
    text = ""
    for row in rows():
        if row.record in TITLES and TITLES[row.record] not in text:
            text += f"{chr(10) if text else ''}### {TITLES[row.record]}\n\n{COLUMNS}"
        words = [WORDS.get(word, word.lower()) for word in (row.kind, row.duty, row.repeats)]
        cells = [f"{row.record}:{row.number:02}", row.name, octets(row), *words]
        text += f"| {' | '.join(cells)} |\n"
    return text


def wanted() -> Dict[str, str]:
    """Return the page, with its text."""
    before, _, rest = text_of(f"{TOP}/{PAGE}").partition(HEAD)
    return {PAGE: f"{before}{HEAD}{table()}{FOOT}{rest.partition(FOOT)[2]}"}
