"""Check the list of the questions of `vectors`."""
from __future__ import annotations

import re
from typing import Iterable, Set

from documents.reading import VECTORS
from pages import evidence
from pages.items import text_of


def asked(lines: Iterable[str]) -> Set[str]:
    """Return the first words of questions, without `let`, which names octets."""
    return {line.split()[0] for line in lines if line and not line.startswith("#")} - {"let"}


def test_lists_each_question_of_the_vectors() -> None:
    """Compare the questions that are listed with those that are asked."""
    listed = {
        word
        for _, questions, _ in evidence.records(evidence.QUESTIONS)
        for word in re.findall(r"`(\w+)[^`]*`", questions)
    }
    assert listed == asked(text_of(f"{VECTORS}/stdin").splitlines())
