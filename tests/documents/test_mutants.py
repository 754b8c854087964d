"""Check the lists of mutants, and the names of tests, mutants and vectors that pages cite."""
from __future__ import annotations

import dataclasses
import itertools
import os
import re

from documents.reading import (
    VECTORS,
    edits,
    headings_of_vectors,
    names_of_tests,
    paths_of_tests,
    sources,
)
from pages.items import TOP, text_of
from pages import clauses
from wrong import code as wrong_code
from wrong import contracts as wrong_contracts
from wrong import page, right, rounds, verdicts
from wrong import sources as wrong_bodies


def test_names_each_wrong_body() -> None:
    """Check that each mutant names what its crate has, and that its edits apply."""
    for crate in wrong_bodies.crates():
        text, bodies = sources(crate), wrong_bodies.bodies(crate)
        assert (crate, len({body.word for body in bodies})) == (crate, len(bodies))
        for body in bodies:
            # (a function by its path, a lemma by its file, a clause by its name)
            names = [
                body.function.split("::")[-1],
                *re.sub(r" of std's \w+", "", body.clause).split()[1:],
            ]
            lost = [
                name
                for name in names
                if not re.search(rf"\b{name}\b", text)
                and not os.path.isfile(f"{TOP}/crates/{crate}/proofs/{name}")
            ]
            assert (body.name, [name for name in lost if name not in ("of", "in")]) == (
                body.name,
                [],
            )
            # (each text that it replaces occurs once, after the pairs before it, and it changes
            # something; a function that is written anew is there once)
            there = wrong_bodies.original(body)
            fits = (
                wrong_code.places(there, body)
                if body.whole
                else wrong_bodies.applied({}, body) not in (None, there)
            )
            assert (body.name, bool(fits)) == (body.name, True)


def test_rejects_a_clause_that_no_contract_has() -> None:
    """Plant a mutant whose clause its function does not have."""
    everyone = [body for crate in wrong_bodies.crates() for body in wrong_bodies.bodies(crate)]
    wrong_contracts.check(everyone)
    # (a name that the crate has, and the function has not)
    held = next(
        body for body in everyone if body.word == "last_chunk_of_seven_octets_is_not_counted"
    )
    assert (
        wrong_contracts.lacks(
            dataclasses.replace(held, said={**held.said, "clause": "ensures fed"})
        )
        is False
    )
    planted = dataclasses.replace(held, said={**held.said, "clause": "ensures gives"})
    try:
        wrong_contracts.check([planted])
    except wrong_bodies.Unread as why:
        assert (
            str(why) == f"{held.file}: {held.name}: {held.function} has no clause `ensures gives`"
        )
        return
    raise AssertionError("a clause that no contract has was taken")


def test_judges_a_right_body_in_its_copy_alone() -> None:
    """Check that a correct body is judged only in the copy of its function."""
    body = next(
        body
        for body in wrong_bodies.bodies("iim_dataset")
        if body.function == "place::has_data_remaining"
    )
    (right_one,) = right.copies([body, body])
    # (in the function itself it would be proved whatever becomes of a copy)
    assert [rounds.alone(each).asked() for each in (body, right_one)] == [
        ["place::has_data_remaining"],
        ["place::has_data_remaining_right_1"],
    ]
    assert [verdicts.passing(each)[0] for each in (body, right_one)] == [
        verdicts.REFUSED,
        verdicts.ACCEPTED,
    ]
    assert right_one.name != body.name


def test_has_what_is_written_from_the_wrong_bodies() -> None:
    """Compare the generated must-fail edits and pages with the mutants."""
    found, wanted = page.there(), page.wanted()
    assert [path for path in sorted({*found, *wanted}) if found.get(path) != wanted.get(path)] == []


def test_names_wrong_bodies_and_tests_that_are_there() -> None:
    """Look up each mutant, test and lemma that the pages cite."""
    crates = os.listdir(f"{TOP}/crates")
    texts = [*map(sources, crates), *map(text_of, paths_of_tests()), text_of(f"{VECTORS}/stdout")]
    there = {*re.findall(r"\w+", "\n".join(texts)), *names_of_tests()}
    words = clauses.by_hand()
    bodies = re.findall(r"`(\w+)/(\w+)`", words)
    assert [body for body in bodies if body[0] in crates and body[1] not in edits(body[0])] == []
    names = set(re.findall(r"`([a-z]+(?:_[a-z0-9]+)+)`", words))
    assert sorted(names - there - set(crates)) == []


def test_names_vectors_that_are_there() -> None:
    """Look up each heading of the vectors that the pages cite."""
    headings = headings_of_vectors()
    named = [" ".join(words.split()) for words in re.findall(r'"([^"]+)"', clauses.by_hand())]
    assert [words for words in named if words not in headings] == []


def test_has_each_vector_with_and_without_its_answers() -> None:
    """Compare the questions of the vectors with those among their replies."""
    answered = text_of(f"{VECTORS}/stdout").split("\n")
    pairs = itertools.zip_longest(
        text_of(f"{VECTORS}/stdin").split("\n"),
        [line for line in answered if not line.startswith("  ")],
    )
    assert [pair for pair in pairs if pair[0] != pair[1]][:1] == []
