"""What the tests of documents read from the repository."""
from __future__ import annotations

import glob
import os
import re
from typing import List, Set

from pages.clauses import ROOMS
from pages.items import TOP, text_of
from wrong import sources as wrong_bodies

FOLDERS = "", "docs/", "docs/guide/", "docs/reference/", "samples/", "tests/fuzz/", "crates/*/"
PAGES = sorted(path for folder in FOLDERS for path in glob.glob(f"{TOP}/{folder}*.md"))
VECTORS = f"{TOP}/crates/vectors"


def edits(crate: str) -> List[str]:
    """Return the mutants of a crate, as pages cite them."""
    return [body.word for body in wrong_bodies.bodies(crate)]


def sources(crate: str) -> str:
    """Return all code of a crate, and its definitions and proofs."""
    folders = [f"{TOP}/crates/{crate}/{part}" for part in ("src", "specs", "proofs")]
    paths = [
        os.path.join(at, name)
        for folder in folders
        for at, _, names in os.walk(folder)
        for name in names
    ]
    return "\n".join(map(text_of, sorted(paths)))


def public_functions(crate: str) -> int:
    """Return how many public functions of a crate have a body: those of lemmas are empty."""
    text = "\n".join(map(text_of, glob.glob(f"{TOP}/crates/{crate}/src/**/*.rt", recursive=True)))
    bodies = re.findall(
        r"^( *)pub (?:const )?fn \w+.*?\n\1\{(?:\}|\n(.*?)^\1\})", text, re.M | re.S
    )
    return sum(
        any(not re.fullmatch(r" *(//.*|(\w+::)*\w+\(\);)?", line) for line in body.splitlines())
        for _, body in bodies
    )


def exports(crate: str) -> List[str]:
    """Return the functions of a static library that C can call."""
    paths = sorted(glob.glob(f"{TOP}/crates/{crate}/src/**/*.rt", recursive=True))
    return [
        name
        for path in paths
        for name in re.findall(r'^pub extern "C" fn (\w+)\(', text_of(path), re.M)
    ]


def headings_of_vectors() -> str:
    """Return the headings of the vectors, one after another."""
    return " ".join(
        line.strip("# ")
        for line in text_of(f"{VECTORS}/stdout").split("\n")
        if line.startswith("#")
    )


def rooms_of(crate: str) -> List[str]:
    """Return the files of the public definitions of a crate."""
    specs = f"{TOP}/crates/{crate}/specs"
    return sorted(
        path
        for room in ROOMS
        for path in [*glob.glob(f"{specs}/{room}.antt"), *glob.glob(f"{specs}/{room}/*.antt")]
    )


def anchors(path: str) -> Set[str]:
    """Return what links can name in a page: the anchors of its headings."""
    headings = re.findall(r"^#+ (.*)", text_of(path), re.M)
    return {re.sub(r"[^\w -]", "", heading.lower()).replace(" ", "-") for heading in headings}


def decision_on(heading: str) -> str:
    """Return the text of one decision of DECISIONS.md."""
    return (
        text_of(f"{TOP}/docs/DECISIONS.md").partition(f"\n### {heading}\n")[2].partition("\n##")[0]
    )


def read_roff(words: str) -> str:
    """Return words of a manual page as they are printed."""
    for escape, letter in (
        ("\\-", "-"),
        ("\\(aq", "'"),
        ("\\(ti", "~"),
        ("\\(ha", "^"),
        ("\\(ga", "`"),
        ("\\&", ""),
        ("\\e", "\\"),
    ):
        words = words.replace(escape, letter)
    return words


def paths_of_tests() -> List[str]:
    """Return the paths of all tests in Python, and of what they share."""
    folders = "tests", "bindings"
    found = {
        path for folder in folders for path in glob.glob(f"{TOP}/{folder}/**/*.py", recursive=True)
    }
    return sorted(path for path in found if not re.search(r"/(out|pages|wrong|speed)/", path))


def names_of_tests() -> Set[str]:
    """Return the names of all tests in Python, with the prefix `test_` and without it."""
    text = "\n".join(map(text_of, paths_of_tests()))
    names = re.findall(r"^ *(?:async )?def test_(\w+)\(", text, re.M)
    return {*names, *(f"test_{name}" for name in names)}


def first_match(pattern: str, text: str, flags: int = 0) -> re.Match[str]:
    """Return the first match of a regular expression, which must be there."""
    found = re.search(pattern, text, flags)
    assert found, f"{pattern} is not there"
    return found


def one_of(*paths: str) -> str:
    """Return the path of the first of these files that is there."""
    return next(f"{TOP}/{path}" for path in paths if os.path.isfile(f"{TOP}/{path}"))
