"""Check the definitions: what detects a change of each, what they cite, how they are named."""
from __future__ import annotations

import glob
import itertools
import os
import re
from typing import Iterator, List, Set, Tuple

from documents.reading import headings_of_vectors, names_of_tests, rooms_of
from pages.items import TOP, text_of
from pages import evidence, items
from pages.cited import imported
from pages.clauses import ROOMS


# A definition, as a file of definitions has it.
DEFINITION = re.compile(r"(?:abbrev |unfoldable )?pub (?:record |data )?([^\s({:]+)")
# How an item begins to say that there is no such test.
UNTESTED = "not needed: ", "not detected: "


def definitions(path: str) -> Iterator[Tuple[str, str]]:
    """Yield the definitions of a file, each with its code."""
    text = re.sub("--.*", "", text_of(path))
    parts = re.split(f"^{DEFINITION.pattern}", text, flags=re.M)
    yield from zip(parts[1::2], parts[2::2])


def definition_tests(path: str) -> Iterator[Tuple[List[str], str]]:
    """Yield the lines of a file in the list of tests: definitions, and what detects a change."""
    crate, name = re.findall(rf"^{TOP}/crates/(\w+)/specs/(.+)\.antt$", path)[0]
    for file, names, finds in evidence.records(evidence.DEFINITIONS):
        if file == f"{crate}/{name}":
            yield names.split(", "), finds


def holds_a_value(words: str) -> bool:
    """Return whether a definition contains a text, or a number other than 0 and 1."""
    numbers = re.findall(r"(?<![\w.'])(0x[0-9a-fA-F]+|[0-9][0-9_]*)(?![\w'])", words)
    return 'codes "' in words or any(int(number.replace("_", ""), 0) > 1 for number in numbers)


def test_names_tests_of_definitions_with_a_value() -> None:
    """Check that the list of tests names each definition that contains a value."""
    for path in (path for crate in sorted(os.listdir(f"{TOP}/crates")) for path in rooms_of(crate)):
        known, named = list(definitions(path)), {
            name for names, _ in definition_tests(path) for name in names
        }
        assert (path, sorted(named - {name for name, _ in known})) == (path, [])
        assert (path, sorted({name for name, words in known if holds_a_value(words)} - named)) == (
            path,
            [],
        )


def laws_and_tests() -> Set[str]:
    """Return the names of lemmas, of the tests of crates, and of the tests in Python."""
    code = "\n".join(map(text_of, glob.glob(f"{TOP}/crates/*/src/**/*.rt", recursive=True)))
    printed = "\n".join(map(text_of, glob.glob(f"{TOP}/crates/*_tests/stdout")))
    found = re.findall(r"^pub fn (\w+)\(\)$", code, re.M) + re.findall(r"^(\w+): ", printed, re.M)
    for crate in os.listdir(f"{TOP}/crates"):
        found += [name for name, _, _ in items.laws_of(crate)[1]]
    return {*found, *names_of_tests()}


def test_has_each_record_of_laws_as_one_call() -> None:
    """Check that each record of lemmas is the contract of one call."""
    for crate in sorted(os.listdir(f"{TOP}/crates")):
        name, fields = items.record_of_laws(crate)
        if not name:
            continue
        laws = items.laws_of(crate)[1]
        # (each field is read, and something is said of it)
        assert (crate, len(laws)) == (crate, len(re.findall(r"^  pub ", fields, re.M)))
        assert (crate, [law for law, _, words in laws if not words.endswith(".")]) == (crate, [])
        assert (crate, [item.name for item in items.functions(crate) if items.laws_at(item)]) == (
            crate,
            [item_of_laws(name)],
        )


def item_of_laws(name: str) -> str:
    """Return the call that has a record of lemmas, by the record's name."""
    return re.sub(r"(?<=[a-z])(?=[A-Z])", "_", name).lower()


def test_names_tests_of_definitions_that_are_there() -> None:
    """Check that the list of tests names only definitions that exist."""
    known, headings = laws_and_tests(), headings_of_vectors()
    for path in (path for crate in sorted(os.listdir(f"{TOP}/crates")) for path in rooms_of(crate)):
        for names, finds in definition_tests(path):
            cited, quoted = re.findall(r"`([a-z]+(?:_[a-z0-9]+)+)`", finds), re.findall(
                r'"([^"]+)"', finds
            )
            assert (path, names, [name for name in cited if name not in known]) == (path, names, [])
            assert (path, names, [words for words in quoted if words not in headings]) == (
                path,
                names,
                [],
            )
            # (a lemma, a test or a heading; or the item says why there is none)
            assert (path, names, bool(cited or quoted or finds.startswith(UNTESTED))) == (
                path,
                names,
                True,
            )


def test_lists_each_file_of_definitions_once() -> None:
    """Check that the list of tests has each file of definitions once, in order."""
    there = [
        os.path.relpath(path, f"{TOP}/crates").replace("/specs", "")[:-5]
        for crate in sorted(os.listdir(f"{TOP}/crates"))
        for path in rooms_of(crate)
    ]
    lines = evidence.records(evidence.DEFINITIONS)
    sections = [file for file, _ in itertools.groupby(lines, lambda fields: fields[0])]
    assert sections == [name for name in there if name in set(sections)]


def test_has_a_name_for_each_file_of_definitions() -> None:
    """Check that no private file of definitions is named as a public one."""
    for crate in sorted(os.listdir(f"{TOP}/crates")):
        private = {
            os.path.basename(path) for path in glob.glob(f"{TOP}/crates/{crate}/specs/*.antt")
        }
        public = {
            os.path.basename(path)
            for room in ROOMS[:2]
            for path in glob.glob(f"{TOP}/crates/{crate}/specs/{room}/*.antt")
        }
        assert (crate, sorted(private & public)) == (crate, [])


def test_cites_no_private_definition_in_a_room() -> None:
    """Check that public definitions cite only public definitions."""
    crates, public = os.listdir(f"{TOP}/crates"), (*ROOMS, "declared")
    for path in (path for crate in crates for path in rooms_of(crate)):
        cited = [(crate, above[0]) for crate, above, *_ in imported(text_of(path))]
        assert (path, [each for each in cited if each[0] in crates and each[1] not in public]) == (
            path,
            [],
        )
