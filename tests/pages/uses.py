"""Find public items that no other crate uses, and names that several definitions share."""
from __future__ import annotations

import collections
import functools
import re
from pathlib import Path
from typing import Dict, Iterator, List, NamedTuple, Set

from pages import items
from pages.items import TOP, Item

CRATES = Path(TOP) / "crates"
KINDS = "struct", "enum", "trait", "const", "fn", "part"
# The items that nothing but their crate uses, each with the reason why it is public.
LIST = Path(TOP) / "tests" / "items_without_callers.txt"
# A public definition: what it begins with, up to its name.
NAMED = re.compile(r"^(?:abbrev |unfoldable )?pub (?:record |data )?([^\s({:]+)", re.M)


class Without(NamedTuple):
    """A public item that no other crate uses: its crate, and its name with that of its type."""

    crate: str
    name: str


@functools.lru_cache(maxsize=None)
def code_of(crate: str) -> str:
    """Return the code of a crate, its proofs and its definitions, without comments and exports."""
    paths = [*CRATES.glob(f"{crate}/src/**/*.rt"), *CRATES.glob(f"{crate}/proofs/**/*.antt")]
    paths += CRATES.glob(f"{crate}/specs/**/*.antt")
    text = "\n".join(path.read_text(encoding="utf-8") for path in sorted(paths))
    text = re.sub(r"^ *pub use [^;]*;", "", re.sub(r"//.*|--.*", "", text), flags=re.M)
    return text


@functools.lru_cache(maxsize=None)
def words_of(crate: str) -> Dict[str, Set[str]]:
    """Return the words of a crate, each with the character before it: a dot, a colon or none."""
    found: Dict[str, Set[str]] = collections.defaultdict(set)
    for mark, word in re.findall(r"([.:]|\bfn )?\b(\w+)", code_of(crate)):
        found[word].add(mark)
    return found


@functools.lru_cache(maxsize=None)
def words_of_header() -> Set[str]:
    """Return the words of the header for C."""
    return set(re.findall(r"\w+", items.text_of(f"{TOP}/bindings/c/iim.h")))


def is_in_header(item: Item) -> bool:
    """Return whether the header for C has a constant, a type or a field."""
    snake = re.sub(r"(?<=[a-z])(?=[A-Z])", "_", item.name).lower()
    return bool({item.name, f"IIM_{item.name}", snake} & words_of_header())


def is_used(item: Item, crate: str, traits: Set[str]) -> bool:
    """Return whether the code of another crate names an item, or implements it."""
    marks = words_of(crate).get(item.name, set())
    if item.kind == "part" and item.code[:1].islower():
        # (a pattern, or the value of a struct, names a field as it is)
        return bool(marks)
    if item.owner and item.owner != item.name:
        return bool(marks & {".", ":", *(["fn "] if item.owner in traits else [])})
    return bool(marks)


def without_callers() -> Iterator[Without]:
    """Yield the functions, types, parts and constants of libraries that no other crate names."""
    crates = sorted(path.name for path in CRATES.iterdir() if (path / "src").is_dir())
    for crate in items.libraries():
        found = [item for item in items.items(crate) if item.kind in KINDS]
        traits = {item.name for item in found if item.kind == "trait"}
        others = [other for other in crates if other != crate]
        for item in found:
            if any(is_used(item, other, traits) for other in others):
                continue
            if crate != "iim_c" or not is_in_header(item):
                is_inside = item.owner and item.owner != item.name
                yield Without(crate, f"{item.owner}::{item.name}" if is_inside else item.name)


def excused() -> Dict[Without, str]:
    """Return the items that are listed as unused by other crates, each with the reason."""
    found: Dict[Without, str] = {}
    for line in LIST.read_text(encoding="utf-8").splitlines():
        if line and not line.startswith("#"):
            crate, name, reason = line.split(" | ", 2)
            found[Without(crate, name)] = reason
    return found


def shared_names() -> Dict[str, List[str]]:
    """Return the names of public definitions that several crates share, with these crates."""
    found: Dict[str, Set[str]] = collections.defaultdict(set)
    for path in CRATES.glob("*/specs/**/*.antt"):
        text = re.sub("--.*", "", path.read_text(encoding="utf-8"))
        for name in NAMED.findall(text):
            if name not in ("use", "mod"):
                found[name].add(path.relative_to(CRATES).parts[0])
    return {name: sorted(crates) for name, crates in sorted(found.items()) if len(crates) > 1}
