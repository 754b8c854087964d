"""The causes of docs/reference/causes.md, each a heading with a list of named entries below it.

The likely reason and the advice of each are written by hand. The other entries are generated: the
meaning from the library's own text, the layer from the definition of the causes, the dataset that
a refusal names from `NAMED`, and the samples from samples/README.md.
"""
from __future__ import annotations

import functools
import re
import textwrap
from typing import Dict, Iterator, List, NamedTuple

from pages.items import TOP, text_of

PAGE = "docs/reference/causes.md"
# The section whose causes refuse an envelope, and what each of these has.
OF_ENVELOPES = "Causes of an envelope"
ENTRIES = ["Layer", "Meaning", "Dataset named", "Sample", "Likely reason", "What to do"]
# What the other causes have at least.
LEAST = "Meaning", "Likely reason", "What to do"
# The dataset that a refusal names: for a head and for a value, its own.
HEAD, VALUE = "that of the rejected tag", "that of the rejected value"
OBJECT, END = "8:10", "9:10"
NAMED: Dict[int, str] = {
    1: "0:00",
    2: "that of the rejected tag; a number that was not read yet is 0",
    3: "the one in progress; a number that was not read yet is 0, and between datasets it is 0:00",
    **dict.fromkeys((10, 11, 12, 13, 50, 51), HEAD),
    14: "the missing dataset with the lowest number",
    15: VALUE,
    16: "1:20",
    20: "the later one of 7:10 and 7:90; 8:10 if 7:90 is missing",
    21: "the later one of 7:90 and 7:95",
    **dict.fromkeys((22, 23, 30, 40, 41, 52), OBJECT),
    **dict.fromkeys((24, 25, 32), END),
}
# Causes of calls, which no layer reports.
OUTSIDE = 60, 61, 70, 71, 72, 90
MARKER = re.compile(
    r"^### (?P<number>\d+) (?P<name>\w+)\n(?:<!-- tests/.*?^<!-- the end of the rule -->\n)?",
    re.M | re.S,
)


class Cause(NamedTuple):
    """A cause: the section it is in, its number and name, and its entries by their names."""

    section: str
    number: int
    name: str
    entries: Dict[str, str]


def texts() -> Dict[int, str]:
    """Return the library's text of each cause, by its number."""
    found = re.findall(
        r'^ +(\d+) "\w+" "(.*)"$', text_of(f"{TOP}/crates/iim_c/src/causes.rt"), re.M
    )
    return {int(number): text for number, text in found}


def layers() -> Dict[int, str]:
    """Return the name of the layer of each cause, by its number."""
    rules = text_of(f"{TOP}/crates/iim_places/specs/Format/Causes.antt")
    found = re.findall(r"^rule_of .*number = (\d+); layer = layers\.(\w+);", rules, re.M)
    return {
        **{int(number): layer.lower() for number, layer in found},
        **dict.fromkeys(OUTSIDE, "outside"),
    }


def samples(number: int) -> List[str]:
    """Return links to the samples with a cause, which the table of samples lists."""
    table = text_of(f"{TOP}/samples/README.md")
    rows = re.findall(r"^\| `(damaged/\w+\.iim)` .*, cause (\d+) ", table, re.M)
    return [f"[`{name}`](../../samples/{name})" for name, cause in rows if int(cause) == number]


def rule(number: int) -> Iterator[str]:
    """Yield the generated entries of a cause."""
    entries = {
        "Layer": layers().get(number),
        "Meaning": texts()[number],
        "Dataset named": NAMED.get(number),
    }
    yield from (f"- **{name}**: {text}" for name, text in entries.items() if text)
    if number in NAMED:
        yield f"- **Sample**: {', '.join(samples(number)) or 'none, since it would be too large'}"


def with_rule(heading: "re.Match[str]") -> str:
    """Return the heading of a cause, followed by its generated entries."""
    lines = [f"### {heading['number']} {heading['name']}", "<!-- tests/write_pages: the rule -->"]
    for entry in rule(int(heading["number"])):
        lines += textwrap.wrap(
            entry, 100, subsequent_indent="  ", break_long_words=False, break_on_hyphens=False
        )
    return "\n".join([*lines, "<!-- the end of the rule -->", ""])


@functools.lru_cache(None)
def wanted() -> Dict[str, str]:
    """Return the page, with its text."""
    return {PAGE: MARKER.sub(with_rule, text_of(f"{TOP}/{PAGE}"))}


def causes() -> Iterator[Cause]:
    """Yield the causes of the page, in its order, with the entries as they are generated."""
    for section in wanted()[PAGE].split("\n## ")[1:]:
        title = section.partition("\n")[0]
        for part in section.split("\n### ")[1:]:
            heading, _, body = part.partition("\n")
            number, name = heading.split()
            entries = re.findall(r"^- \*\*([\w ]+)\*\*: ((?:.|\n  )+)", body, re.M)
            yield Cause(
                title, int(number), name, {key: " ".join(text.split()) for key, text in entries}
            )


def meanings() -> Dict[int, str]:
    """Return what each cause means, by its number."""
    return {cause.number: cause.entries["Meaning"] for cause in causes()}


def faults() -> List[str]:
    """Return what is wrong with the page: a number that occurs twice, or entries that are missing
    or out of order.
    """
    found = list(causes())
    numbers = [cause.number for cause in found]
    wrong = [f"{cause.number} occurs twice" for cause in found if numbers.count(cause.number) > 1]
    for cause in found:
        wanted_of = [key for key in ENTRIES if key in LEAST or key in cause.entries]
        if list(cause.entries) != (ENTRIES if cause.section == OF_ENVELOPES else wanted_of):
            wrong.append(f"{cause.number} has the entries {list(cause.entries)}")
    return wrong
