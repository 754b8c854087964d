"""Check how the pages that are written by hand are worded, and that each check can fail."""
from __future__ import annotations

import pytest
from pages import prose

GOOD = "# Title\n\nThe command prints a line.\n\n| A | B |\n|---|---|\n| one | two |\n"


def test_words_the_pages_in_the_terms_of_the_field() -> None:
    """No page has a retired word, a wide line, a long paragraph or cell, or a changed duration."""
    assert len(prose.pages()) > 25
    assert prose.faults() == []


@pytest.mark.parametrize(
    "fault",
    [
        "The line tells the number.",
        "A layer is dead\nhere.",
        "The text stands in the file.",
        "x" * 101,
        "| " + "x" * 160 + " |",
        "\n".join(["a line"] * 9),
        "| " + "word " * 16 + "|",
        "The first build takes 13 minutes.",
        "The gate takes up to half an hour.",
        "The first build took 16 minutes.",
    ],
)
def test_rejects_each_fault_of_a_page(fault: str) -> None:
    """Each planted fault is found. The same page without it has no fault."""
    assert list(prose.faults_of(prose.Page("docs/page.md", GOOD))) == []
    assert len(list(prose.faults_of(prose.Page("docs/page.md", f"{GOOD}\n{fault}\n")))) == 1


@pytest.mark.parametrize(
    "allowed",
    [
        "`tell` and `told`",
        "```\nthe line tells\n```",
        "- **Meaning**: what it was told",
        '"Another version is told"',
        "is rejected at the first\ndead token",
        "See [the page](trials.md).",
        "It took 16 seconds.",
    ],
)
def test_accepts_fixed_uses(allowed: str) -> None:
    """Code, headings of the vectors, meanings of causes and fixed terms may have retired words."""
    assert list(prose.faults_of(prose.Page("docs/page.md", f"{GOOD}\n{allowed}\n"))) == []


def test_states_each_duration_on_its_page() -> None:
    """A missing or changed duration is found."""
    texts = {path: prose.text_of(path) for path in prose.pages()}
    assert list(prose.lost_durations(texts)) == []
    changed = {**texts, "README.md": texts["README.md"].replace("16 minutes", "17 minutes")}
    assert list(prose.lost_durations(changed)) == [
        ("README.md", "does not state the duration 16 minutes")
    ]
    found = list(prose.durations(prose.Page("README.md", changed["README.md"])))
    assert found == ["the duration 17 minutes is not in DURATIONS"]
