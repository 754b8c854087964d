"""The public items of a crate, with their doc comments, read from its sources."""
from __future__ import annotations

import functools
import glob
import itertools
import os
import re
from dataclasses import dataclass
from typing import Iterator, List, Optional, Sequence, Tuple

TOP = os.path.dirname(os.path.dirname(os.path.dirname(os.path.realpath(__file__))))
# What a caller can name, by the word that begins it.
BLOCKS = "struct", "enum", "trait"


@dataclass
class Item:
    """A public item: a function, a type, a part of a type, an implemented trait, or a constant.

    It has its file and line, its code on one line, and its doc comment.
    """

    kind: str
    # the type or the trait that it is of, or None
    owner: Optional[str]
    name: str
    code: str
    doc: List[str]
    # its file below the repository, and its module below the root of the crate
    path: str
    place: str
    # of a function its clauses
    clauses: List[str]


def text_of(path: str) -> str:
    with open(path, encoding="utf-8") as text:
        return text.read()


def cells_of(page: str) -> List[Tuple[str, List[str]]]:
    """Return the cells of the tables of a page, row by row, each row with its line."""
    return [
        (row, [cell.strip() for cell in row.strip("| ").split(" | ")])
        for row in text_of(page).split("\n")
        if row.startswith("|")
    ]


def is_library(crate: str) -> bool:
    """Return whether a crate is a library of this repository."""
    return os.path.isfile(f"{TOP}/crates/{crate}/src/lib.rt")


def sources_of(crate: str) -> List[str]:
    """Return the paths of the sources of a crate."""
    return sorted(glob.glob(f"{TOP}/crates/{crate}/src/**/*.rt", recursive=True))


def record_of_laws(crate: str) -> Tuple[Optional[str], str]:
    """Return the name and the lines of the record that has the laws of a crate.

    It is the last record of specs/Laws.antt whose name says so. Without one, both results are None.
    """
    path = f"{TOP}/crates/{crate}/specs/Laws.antt"
    found: List[Tuple[str, str]] = (
        re.findall(r"^pub record (\w+Laws) : Type 0 where\n((?:  .*\n)+)", text_of(path), re.M)
        if os.path.isfile(path)
        else []
    )
    return found[-1] if found else (None, "")


def words_of(comment: str) -> str:
    """Return the words of a comment, without its marks."""
    return " ".join(line.strip()[3:] for line in comment.splitlines())


def laws_of(crate: str) -> Tuple[Optional[str], List[Tuple[str, str, str]]]:
    """Return the laws of a crate that are one record, which is the contract of one call.

    The result is the name of the record, and the name, the statement and the comment of each field.
    A comment is above its field, or above its statement. A comment that ends in a colon is about
    several fields.
    """
    name, fields = record_of_laws(crate)
    if not name:
        return None, []
    text = text_of(f"{TOP}/crates/{crate}/specs/Laws.antt")
    above = {
        statement: comment
        for comment, statement in re.findall(
            r"((?:^--.*\n)+)^(?:abbrev )?pub (?:record )?(\w+)\b", text, re.M
        )
    }
    found = re.findall(
        r"((?:^  -- .*\n)*)^  pub (\w+) : (\w+)$",
        re.sub("^  -- .*:\n", "", fields, flags=re.M),
        re.M,
    )
    return name, [
        (field, statement, words_of(comment or above.get(statement, "")))
        for comment, field, statement in found
    ]


def laws_at(item: Item) -> List[Tuple[str, str, str]]:
    """Return the laws of a call: those of the record, for the one call that has it as contract."""
    name, laws = laws_of(item.path.split("/")[1])
    return laws if item.clauses == [f"ensures {{ {name} }}"] else []


def used_publicly(code: str) -> set[str]:
    """Return the names in the `pub use` lines of some code."""
    uses = re.findall(r"^pub use ([\w:]+?)(?:::\{([^}]*)\})?;", code, re.M)
    names = {
        name.split(" as ")[-1].strip()
        for path, group in uses
        for name in (group or path.split("::")[-1]).split(",")
    }
    return names - {""}


def internals(crate: str) -> set[str]:
    """Return the names in the module `internals` of a library, which only upper layers use."""
    path = f"{TOP}/crates/{crate}/src/internals.rt"
    return used_publicly(re.sub("//.*", "", text_of(path))) if os.path.isfile(path) else set()


def handed_on(crate: str) -> Tuple[set[str], set[str]]:
    """Return the exports of a library.

    These are the names in the `pub use` lines of its root and of its module `internals`, and its
    public modules.
    """
    root = re.sub("//.*", "", text_of(f"{TOP}/crates/{crate}/src/lib.rt"))
    return used_publicly(root) | internals(crate), set(
        re.findall(r"^pub mod (\w+);", root, re.M)
    ) - {"internals"}


def of_others(crate: str) -> Iterator[Tuple[Optional[str], str, List[str]]]:
    """Return the exports of a library that come from other crates.

    Each has the public module that exports it (None for the root), the other crate, and the names.
    """
    _, modules = handed_on(crate)
    for path in sources_of(crate):
        place = os.path.relpath(path, f"{TOP}/crates/{crate}/src").removesuffix(".rt")
        for other, names in re.findall(
            r"^pub use (\w+)::(?:\w+::)?(\w+|\{[^}]*\});", re.sub("//.*", "", text_of(path)), re.M
        ):
            if os.path.isdir(f"{TOP}/crates/{other}") and (place == "lib" or place in modules):
                yield None if place == "lib" else place, other, re.findall(r"\w+", names)


def plain(words: str) -> str:
    """Return code on one line, as pages for callers show it: without `pub` and without `mut`."""
    words = re.sub(r",?\s+([)}\]])", r" \1", re.sub(r"\bpub |\bmut (?=\w+:)", "", words))
    return re.sub(r"\s+", " ", re.sub(r"([(\[])\s+|\s+([)\]])", r"\1\2", words)).strip(" ;")


def shortened(code: str) -> str:
    """Return the code of a constant, with a long value replaced by its type."""
    return plain(code) if len(plain(code)) < 160 else plain(code.partition(" =")[0])


def parts_of(body: str) -> Iterator[Tuple[List[str], str]]:
    """Return the parts in the body of a type, each with its doc comment and its code.

    Commas outside of brackets separate the parts. The comment of a variant's field follows the
    comment of the variant.
    """
    depth, code = 0, ""
    doc: List[str] = []
    field: List[str] = []
    for line in body.split("\n"):
        if said := re.match(r" *///(.*)", line):
            (field if depth else doc).append(said[1].strip())
            continue
        if field:
            code_of_field = re.sub(r"^ *(?:pub )?(.*?),?$", r"\1", line)
            doc += ["", f"`{code_of_field}`: {' '.join(field)}"]
            field = []
        for letter in re.sub("//.*", "", line) + "\n":
            depth += (letter in "([{<") - (letter in ")]}>")
            if letter == "," and depth == 0:
                yield doc, code.strip()
                doc, code = [], ""
            else:
                code += letter
    if code.strip():
        yield doc, code.strip()


def until(lines: Sequence[str], ends: str) -> str:
    """Return the lines up to the first that matches, without comments."""
    rest = itertools.takewhile(lambda each: not re.match(ends, each), lines)
    return "\n".join(each for each in rest if not each.lstrip().startswith("//"))


class File:
    """A parser of a source file, line by line, which recognises public items."""

    def __init__(self, crate: str, path: str) -> None:
        self.path, self.place = (
            os.path.relpath(path, TOP),
            os.path.relpath(path, f"{TOP}/crates/{crate}/src").removesuffix(".rt").split("/")[0],
        )
        self.lines = text_of(path).partition("#[cfg(test)]")[0].split("\n")
        # the type or trait that a block is of, the word that begins it, and the trait that it gives
        self.owner: Optional[str] = None
        self.block: Optional[str] = None
        self.trait: Optional[str] = None

    def item(
        self,
        kind: str,
        name: str,
        code: str,
        doc: List[str],
        owner: Optional[str] = None,
        clauses: Sequence[str] = (),
    ) -> Item:
        """Return an item of this file."""
        return Item(kind, owner, name, code, doc, self.path, self.place, list(clauses))

    def items(self) -> Iterator[Item]:
        """Yield the public items of the file."""
        doc: List[str] = []
        for at, line in enumerate(self.lines):
            if said := re.match(r" *///(.*)", line):
                doc.append(said[1].strip())
            elif not re.match(r" *(#\[|//)", line):
                yield from self.read(at, line, doc)
                doc = []

    def read(self, at: int, line: str, doc: List[str]) -> Iterator[Item]:
        """Parse the item that begins in a line."""
        if line.startswith("}"):
            self.owner = self.block = self.trait = None
        elif block := re.match(r"(pub )?(struct|enum|trait) (\w+)", line):
            yield from self.type(at, block, doc)
        elif block := re.match(r"impl(?:<.*?>)? (?:([\w:]+)(?:<.*>)? for )?(\w+)", line):
            self.trait, self.owner, self.block = (
                block[1],
                block[2],
                None if line.endswith("{}") else "impl",
            )
            yield self.item("impl", self.owner, re.sub(r" \{\}?$", "", line), doc, self.owner)
            if line.endswith("{}"):
                # (an empty block has ended: what follows is of no type)
                self.owner = self.block = self.trait = None
        elif constant := re.match(r" *pub const ([A-Z_0-9]+):", line):
            code = "\n".join(self.lines[at:]).partition(";\n")[0]
            yield self.item("const", constant[1], shortened(code), doc, self.owner)
        elif function := re.match(r' *(pub )?(?:const )?(?:extern "C" )?fn (\w+)', line):
            if function[1] or self.block == "trait":
                yield self.function("fn", at, function[2], doc)
            elif self.trait:
                # (what a type's own function of a trait says besides)
                yield self.function("given", at, f"{self.trait}::{function[2]}", doc)
        elif self.block == "trait" and (ghost := re.match(r"    ghost (\w+):", line)):
            yield self.item(
                "ghost",
                ghost[1],
                plain("\n".join(self.lines[at:]).partition(";\n")[0]),
                doc,
                self.owner,
            )

    def type(self, at: int, block: re.Match[str], doc: List[str]) -> Iterator[Item]:
        """Parse a type with its parts, or a trait."""
        public, kind, name = block.groups()
        head = plain(until(self.lines[at:], r"\}|$").partition(" {\n")[0].removesuffix(" {"))
        if kind == "trait":
            self.owner, self.block = name, kind
        if public:
            yield self.item(kind, name, head, doc, name)
        opens = self.lines[at].endswith("{")
        body = (
            "\n".join(itertools.takewhile(lambda each: each != "}", self.lines[at + 1 :]))
            if opens and kind != "trait"
            else ""
        )
        for said, code in parts_of(re.sub(r"^ *#\[.*\]\n", "", body, flags=re.M)):
            if public and (kind == "enum" or code.startswith("pub ")):
                part = re.sub(r"^(?:pub )?(\w+)(?s:.*)", r"\1", code)
                yield self.item("part", part, plain(code), said, name)

    def function(self, kind: str, at: int, name: str, doc: List[str]) -> Item:
        """Parse a function. Its clauses end at the body, or in a trait at a `;`."""
        text = until(self.lines[at:], r" *[{}]").partition("};\n")[0]
        signature, *clauses = re.split(r"^ *(?=requires|ensures|ghost)", text, flags=re.M)
        return self.item(
            kind, name, plain(signature.partition(" {\n")[0]), doc, self.owner, clauses
        )


@functools.cache
def items(crate: str) -> List[Item]:
    """Return all items of a library that a caller can name, in the order of its files."""
    names, modules = handed_on(crate)
    found = [item for path in sources_of(crate) for item in File(crate, path).items()]
    types = {
        item.name
        for item in found
        if item.kind in BLOCKS
        and (item.place in modules or item.name in names or item.place == "lib")
    }
    return [item for item in found if is_handed_on(item, names, modules, types)]


def is_handed_on(item: Item, names: set[str], modules: set[str], types: set[str]) -> bool:
    """Return whether a caller can name an item."""
    if item.kind == "impl":
        return (
            item.owner in types
            and " Model for " not in item.code
            and (" for " in item.code or ":" in item.code)
        )
    return (
        item.owner in types
        if item.owner
        else item.place in modules or item.name in names or item.place == "lib"
    )


def functions(crate: str) -> List[Item]:
    """Return the public functions of a library that the crates above can call."""
    return [item for item in items(crate) if item.kind == "fn"]


def static_libraries() -> List[str]:
    """Return the crates whose functions C can call."""
    return re.findall(r"^(\w+) staticlib:", text_of(f"{TOP}/crates.txt"), re.M)


def promising() -> List[str]:
    """Return the crates with contracts for callers: all but tests and parts of `vectors`."""
    crates = [crate for crate in sorted(os.listdir(f"{TOP}/crates")) if is_library(crate)]
    return [
        crate
        for crate in crates
        if not crate.endswith("_tests") and not crate.startswith("vectors_")
    ]


def libraries() -> List[str]:
    """Return the crates that other crates can call."""
    return [crate for crate in promising() if crate not in static_libraries()]
