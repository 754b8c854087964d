"""Check the pages on the headline: its definitions, their links, its contract, its refusals."""
from __future__ import annotations

import re
from typing import Collection, Iterator, List, Tuple

from documents.reading import first_match
from pages.items import TOP, text_of
from pages import cited, refusals, theorem
from pages import definitions as definition_pages


# The most lines of definitions that the headline cites, and the headline with those below it.
MOST_TO_BELIEVE, MOST_OF_ALL = 900, 1300


def defined_in(path: str) -> Iterator[Tuple[cited.Definition, List[Tuple[str, str]]]]:
    """Yield the definitions of a page in order: file and name, and the anchors that it links."""
    file = ""
    for heading in re.split(
        r"^#{3,4} (?=From `|`)",
        text_of(f"{TOP}/{path}").partition("\n## Types of the sources\n")[0],
        flags=re.M,
    )[1:]:
        named = first_match(r"^(?:From `([\w/]+)`|`(.+?)`)", heading)
        file = named[1] or file
        if named[2]:
            yield (file, named[2]), re.findall(
                r"\]\(([\w.-]*)#([\w-]+)\)", re.sub(r"^```.*?^```", "", heading, flags=re.M | re.S)
            )


def lines_told(definitions_there: Collection[cited.Definition]) -> str:
    """Return what the page of the headline's definitions says of their number."""
    files = {file for file, _ in definitions_there}
    lines = cited.lines_of(definitions_there)
    return f"{len(definitions_there)} definitions of {lines:,} lines, from {len(files)} files."


def test_defines_all_that_the_headline_cites_in_order() -> None:
    """Check the pages of the definitions that the headline cites: complete, ordered, counted."""
    headline, all_of_them = cited.believed(cited.HEADLINE), cited.believed(
        cited.HEADLINE + cited.BELOW
    )
    assert sorted({file for file, _ in headline if file.split("/")[1] != "Format"}) == []
    pages = definition_pages.PAGE, definition_pages.PAGE_BELOW
    counts = lines_told(headline), f"the headline they are {cited.lines_of(all_of_them):,} lines."
    for path, printed in zip(pages, counts):
        assert (path, printed, printed in " ".join(text_of(f"{TOP}/{path}").split())) == (
            path,
            printed,
            True,
        )
    assert (
        cited.lines_of(headline) <= MOST_TO_BELIEVE,
        cited.lines_of(all_of_them) <= MOST_OF_ALL,
    ) == (True, True)
    first, then = [[each for each, _ in defined_in(path)] for path in pages]
    for path, named, wanted in zip(
        pages, (first, then), ({*headline}, {*all_of_them} - {*headline})
    ):
        assert (path, "not cited", sorted({*named} - wanted), len(named)) == (
            path,
            "not cited",
            [],
            len({*named}),
        )
        assert (path, "missing", sorted(wanted - {*named})) == (path, "missing", [])
    # (a file has one part of a page, and each definition is below those that it cites)
    for path, named in zip(pages, (first, then)):
        files = [file for file, _ in named]
        assert (
            path,
            [file for at, file in enumerate(files) if file in files[:at] and file != files[at - 1]],
        ) == (path, [])
    places = {each: at for at, each in enumerate(first + then)}
    assert [
        f"{each} cites {other}"
        for each, others in all_of_them.items()
        for other in others
        if places[other] > places[each]
    ] == []


def test_links_each_name_that_a_definition_cites() -> None:
    """Check that each definition links what it cites."""
    all_of_them = cited.believed(cited.HEADLINE + cited.BELOW)
    for path in (definition_pages.PAGE, definition_pages.PAGE_BELOW):
        wrong = [
            each for each, links in defined_in(path) if len({*links}) != len(all_of_them[each])
        ]
        assert (path, wrong) == (path, [])


def test_shows_the_contract_of_the_headline() -> None:
    """Compare the contract in THEOREM.md with the source."""
    code, links = theorem.shown()
    assert (code, links) == (theorem.contract(), theorem.links())
    assert (code.count("    ensures "), links.count("](reference/definitions.md#") >= 9) == (
        7,
        True,
    )
    assert (theorem.by_hand() <= theorem.MOST_LINES, theorem.by_hand()) == (True, theorem.by_hand())


def test_has_the_contracts_of_each_cause() -> None:
    """Check the page of refusals."""
    assert refusals.faults() == []
