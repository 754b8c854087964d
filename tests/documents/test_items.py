"""Check the public items of libraries: lists, pages, errors, mutants, and names in pages."""
from __future__ import annotations

import collections
import os
import re
from typing import Dict, Set, Tuple

from documents.reading import PAGES, edits, exports, public_functions
from pages import callers, clauses, items, surface
from pages.clauses import ROOMS
from pages.items import TOP, text_of
from wrong import sources as wrong_bodies


# The number of public items that the format's specification fixes: if the list has fewer, one was
# renamed or removed.
FIXED_ITEMS = 360
# A block of a type, a trait or an impl: whose it is, and its lines.
BLOCK = re.compile(
    r"^(?:impl(?:<.*?>)? (?:[\w:]+(?:<.*>)? for )?|(?:pub(?:\(crate\))? )?(?:struct|enum|trait) )"
    r"(\w+).*\{\n((?: .*\n|\n)*)",
    re.M,
)


def test_has_a_list_for_each_crate_with_promises() -> None:
    """Check that the page of each crate with promises has a list of its calls."""
    listed = {
        crate
        for crate, text in clauses.pages().items()
        if items.is_library(crate) and clauses.LIST.search(text)
    }
    # (that the lists are right is checked where pages are compared with the sources)
    assert [
        crate for crate in items.promising() if items.functions(crate) and crate not in listed
    ] == []
    assert [crate for crate in items.promising() if crate not in clauses.pages()] == []
    for crate in items.static_libraries():
        assert sorted(item.name for item in items.functions(crate)) == sorted(exports(crate))
        assert len(edits(crate)) >= len(exports(crate)) > 0


def test_has_a_page_for_the_callers_of_each_library() -> None:
    """Check that each library has a page with a proved caller, and doc comments for all items."""
    assert sorted(callers.by_hand()) == sorted(items.libraries())
    proved = wrong_bodies.order_of_crates()
    assert [
        path
        for path in map(callers.caller_of, items.libraries())
        if path.split("/")[1] not in proved
    ] == []
    assert [
        item.path
        for crate in items.libraries()
        for item in items.items(crate)
        if item.kind not in ("impl", "ghost", "given") and not item.doc
    ] == []


def test_lists_each_public_item() -> None:
    """Compare the list of public items with the sources."""
    wanted, listed = surface.rows(items.promising()), surface.listed()
    assert [f"- {row}" for row in listed if row not in wanted] + [
        f"+ {row}" for row in wanted if row not in listed
    ] == []
    assert text_of(surface.LIST) == surface.text(items.promising())
    assert list(listed.values()).count("format") == FIXED_ITEMS
    assert {*listed.values()} - {"format", surface.NEW} == set()


def is_error(crate: str, name: str) -> bool:
    """Return whether a type implements `Error` of std, `Debug` and `Display`."""
    code = "\n".join(map(text_of, items.sources_of(crate)))
    derived = re.search(
        rf"#\[derive\(([^)]*)\)\]\n(?:#\[.*\]\n)*pub (?:struct|enum) {name}\b", code
    )
    traits = set(re.findall(r"\w+", derived[1] if derived else ""))
    traits |= set(re.findall(rf"^impl(?:<.*?>)? (?:\w+::)*(\w+) for {name}\b", code, re.M))
    # (the derive of `thiserror` gives `Display`, too)
    return (
        "Debug" in traits
        and "Error" in traits
        and ("Display" in traits or (derived is not None and "Error" in derived[1]))
    )


def test_has_an_error_for_each_fault() -> None:
    """Check that each error type implements `Error`, `Debug` and `Display`."""
    faults = [
        (item.path.split("/")[1], item.name)
        for crate in items.libraries()
        for item in items.items(crate)
        if item.kind in ("struct", "enum")
    ]
    faults = [each for each in faults if re.fullmatch(r"\w+(?:Fault|Cause)|Stop", each[1])]
    assert len(faults) > 25
    assert [each for each in faults if not is_error(*each)] == []


def parts_by_type() -> Tuple[Dict[str, Set[str]], Set[str]]:
    """Return the parts of each type and trait, and the names of public functions and clauses."""
    parts: Dict[str, Set[str]] = collections.defaultdict(set)
    code = "\n".join(
        text_of(path) for crate in items.promising() for path in items.sources_of(crate)
    )
    for block in BLOCK.finditer(code):
        parts[block[1]] |= set(
            re.findall(
                r"^    (?:pub(?:\(crate\))? )?(?:ghost |const )?(?:fn )?(\w+)", block[2], re.M
            )
        )
    return parts, {*re.findall(r"\bpub fn (\w+)", code), *re.findall(r"\bensures\*? (\w+)", code)}


def test_names_calls_that_are_there() -> None:
    """Look up each `Type::name` of the pages in the sources."""
    parts, words = parts_by_type()
    lost = []
    for page in PAGES:
        # (the changelog lists in sections of their own what is no longer there)
        text = re.sub(r"^### Removed\n(?:(?!##).*\n)*", "", text_of(page), flags=re.M)
        for owner, name, more in re.findall(
            r"`(\w+)::(\w+)(?:\(\))?`((?:,?\s+(?:and\s+)?`\w+`)*)", text
        ):
            if owner in parts:
                others = [
                    each
                    for each in re.findall(r"`(\w+)`", more)
                    if each not in words and each not in parts[owner]
                ]
                lost += [
                    (os.path.relpath(page, TOP), owner, each)
                    for each in [name]
                    if each not in parts[owner]
                ]
                lost += [(os.path.relpath(page, TOP), owner, each) for each in others]
    assert lost == []


def test_cites_public_definitions_alone() -> None:
    """Check that contracts of libraries cite only public definitions."""
    outside = []
    for crate in items.libraries():
        for item in items.functions(crate):
            uses = re.findall(
                r"^ *ghost use Rattle\.(\w+)\.specs\.([\w.]+)\.\{([^}]*)\};",
                text_of(f"{TOP}/{item.path}"),
                re.M,
            )
            names = [
                each.split(" as ")[-1].strip()
                for other, place, group in uses
                if os.path.isdir(f"{TOP}/crates/{other}")
                and place.split(".")[0] not in (*ROOMS, "declared")
                for each in group.split(",")
            ]
            cited = {word for clause in item.clauses for word in re.findall(r"[\w'-]+", clause)}
            outside += [
                f"{item.path}: {item.owner or ''}::{item.name} cites {each}"
                for each in names
                if each in cited
            ]
    assert outside == []


def test_has_as_many_wrong_bodies_as_public_functions() -> None:
    """Check that each crate has as many mutants as public functions."""
    for crate in items.promising():
        few = len(edits(crate)) < public_functions(crate)
        assert (crate, "too few wrong bodies" if few else "enough") == (crate, "enough")
