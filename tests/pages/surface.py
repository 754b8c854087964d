"""The list of all public items, tests/public_items.txt.

A line is `CRATE | ORIGIN | PLACE | NAME | CODE`. The origin is `format` for an item whose name,
parameters and result the format's specification fixes, and `own` for an item that this project
added. The place is the module, or `-` at the root of the crate.
"""
from __future__ import annotations

from dataclasses import dataclass
from typing import Dict, Iterable, Iterator, List, Tuple

from pages import items
from pages.items import TOP

LIST = f"{TOP}/tests/public_items.txt"
# What fixes an item that the list did not have before.
NEW = "own"
KINDS = ("struct", "enum", "trait", "part", "const", "fn", "impl")


@dataclass(frozen=True)
class Row:
    """A public item, as a caller has to write it."""

    crate: str
    place: str
    name: str
    code: str

    def __str__(self) -> str:
        return f"{self.crate} | {self.place} | {self.name} | {self.code}"


def place_of(crate: str, item: items.Item) -> str:
    """Return the module of an item, `-` at the root."""
    if (item.owner or item.name) in items.internals(crate):
        return "internals"
    _, modules = items.handed_on(crate)
    return item.place if item.place in modules else "-"


def name_of(item: items.Item) -> str:
    """Return the name of an item, with its type or trait before it."""
    return (
        item.name
        if item.owner is None or item.kind in items.BLOCKS or item.kind == "impl"
        else f"{item.owner}::{item.name}"
    )


def key_of(row: Row) -> Tuple[str, str]:
    """Return the parts of an item that stay the same if its code changes."""
    return row.crate, row.code if row.code.startswith("impl") else row.name


def rows_of(crate: str) -> Iterator[Row]:
    """Yield the public items of a crate.

    A block that implements no trait is left out, since its functions are listed.
    """
    for item in items.items(crate):
        if item.kind in KINDS and (item.kind != "impl" or " for " in item.code):
            yield Row(crate, place_of(crate, item), name_of(item), item.code)


def rows(crates: Iterable[str]) -> List[Row]:
    """Return the public items of crates, in order."""
    return sorted({row for crate in crates for row in rows_of(crate)}, key=str)


def listed() -> Dict[Row, str]:
    """Return the rows of the list, each with its origin."""
    found = {}
    for line in items.text_of(LIST).splitlines():
        crate, origin, place, name, code = line.split(" | ", 4)
        found[Row(crate, place, name, code)] = origin
    return found


def text(crates: Iterable[str]) -> str:
    """Return the list as the sources require it.

    An item keeps the origin that its name has in the list. An implemented trait keeps the origin
    that its code has.
    """
    origins = {key_of(row): origin for row, origin in listed().items()}
    lines = (
        f"{row.crate} | {origins.get(key_of(row), NEW)} | {row.place} | {row.name} | {row.code}"
        for row in rows(crates)
    )
    return "".join(f"{line}\n" for line in lines)
