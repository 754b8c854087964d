"""Check the proofs: columns, lemmas that are cited, and what tries lemmas last."""
from __future__ import annotations

import collections
import glob
import os
import re
from typing import Counter, Iterator

from documents.reading import decision_on
from pages.items import TOP, text_of
from pages.cited import imported


# The beginning of a lemma, which is indented in a section; and what cannot follow a cited name.
LEMMA = re.compile(r"^((?:  )?)(?:abbrev |unfoldable )?(?:pub )?([\w'-]+)(?: [({].*?)? : ", re.M)
WORD = r"[^\s(){}\[\],;.@:]"


def test_keeps_clauses_within_120_columns() -> None:
    """Check the columns of clauses."""
    clause = re.compile(r"^ *(?:ensures|requires)\*?(?: \w+)? \{(?:[^{}]|\{[^{}]*\})*\}", re.M)
    for path in glob.glob(f"{TOP}/crates/*/src/**/*.rt", recursive=True):
        clauses = clause.findall(text_of(path))
        assert (
            path,
            [line for each in clauses for line in each.split("\n") if len(line) > 120],
        ) == (path, [])


def test_keeps_proofs_within_160_columns() -> None:
    """Check the columns of proofs."""
    for path in glob.glob(f"{TOP}/crates/*/proofs/**/*.antt", recursive=True):
        wide = [
            line
            for line in text_of(path).split("\n")
            if len(line) > 160 and not re.match(" *(?:pub )?use ", line)
        ]
        assert (path, wide) == (path, [])


def test_cites_only_lemmas_that_are_named_as_cited() -> None:
    """Compare the lemmas that other crates cite with those that are listed as cited."""
    crates, marked = os.listdir(f"{TOP}/crates"), "-- What proofs of other crates cite.\n"
    libraries = {
        crate: text_of(path)
        for crate in crates
        if os.path.exists(path := f"{TOP}/crates/{crate}/proofs/Lib.antt")
    }
    named = {
        (crate, file)
        for crate, text in libraries.items()
        for file in re.findall(r"^pub mod (\w+)$", text.partition(marked)[2], re.M)
    }
    cited = set()
    for path in glob.glob(f"{TOP}/crates/*/**/*.antt", recursive=True):
        own = path[len(f"{TOP}/crates/") :].split("/")[0]
        files = {
            (crate, file)
            for crate, (file, *_), *_ in imported(text_of(path), "proofs")
            if file[0].isupper()
        }
        cited |= {
            each for each in files if each[0] in crates and each[0] not in (own, "iim_places")
        }
    assert cited == named


def uncited(text: str, words: Counter[str]) -> Iterator[str]:
    """Yield the lemmas of a file that nothing cites, by how often each word is in all files."""
    for lemma in LEMMA.finditer(text):
        indent, name = lemma.groups()
        above = re.findall(r"^\S.*", text[: lemma.start()], re.M)
        if indent and not (above and above[-1].startswith("module")):
            # (the field of a record)
            continue
        # (its statement begins with it, and so does each of its clauses)
        own = re.findall(
            rf"^{indent}(?:abbrev |unfoldable )?(?:pub )?{re.escape(name)}(?!{WORD})", text, re.M
        )
        if words[name] == len(own):
            yield name


def test_has_no_lemma_that_nothing_cites() -> None:
    """Look for lemmas that nothing cites."""
    paths = [
        path
        for end in (".antt", ".rt")
        for path in glob.glob(f"{TOP}/crates/*/*/**/*{end}", recursive=True)
        if "/out/" not in path
    ]
    texts = {path: re.sub("--.*", "", text_of(path)) for path in paths}
    words = collections.Counter(
        word for text in texts.values() for word in re.findall(f"{WORD}+", text)
    )
    for path in glob.glob(f"{TOP}/crates/*/proofs/*.antt"):
        # (what is worked out there is cited by nothing)
        if os.path.basename(path) != "WorkedRows.antt":
            assert (path, list(uncited(texts[path], words))) == (path, [])


def test_lists_functions_that_try_lemmas_last() -> None:
    """Compare the functions that try lemmas last with the decision that lists them."""
    said = decision_on("Answers name their lemmas")
    function = re.compile(
        r"^ *#\[tactic\(auto, using\(.*\)\)\]\n(?: *#\[.*\n)* *"
        r"(?:pub(?:\(\w+\))? )?(?:const )?fn (\w+)",
        re.M,
    )
    for path in glob.glob(f"{TOP}/crates/*/src/**/*.rt", recursive=True):
        if os.path.basename(path) != "laws.rt":
            named = function.findall(text_of(path))
            assert (
                path,
                text_of(path).count("using("),
                [name for name in named if f"`{name}`" not in said],
            ) == (path, len(named), [])
