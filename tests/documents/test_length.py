"""Check how long the pages are that are written by hand, and that the count sees each line."""
from __future__ import annotations

from typing import Dict

from pages import prose, theorem

GENERATED = "<!-- tests/x -->\na row\n\n<!-- the end of x -->\n"


def texts() -> Dict[str, str]:
    """Return the text of each page."""
    return {path: prose.text_of(path) for path in prose.pages()}


def test_has_few_lines_by_hand() -> None:
    """All pages together have no more lines than the limit."""
    assert list(prose.too_long(texts())) == []


def test_finds_a_page_that_grows() -> None:
    """Lines of any kind count: of prose, blank ones, and those of a program."""
    for path in "README.md", "CHANGELOG.md", "docs/reference/format.md":
        for line in "one more line\n", "\n", "```\n":
            grown = {**texts(), path: texts()[path] + line * prose.MOST_LINES}
            assert [page for page, _ in prose.too_long(grown)] == ["all pages"]


def test_counts_no_generated_lines() -> None:
    """Generated pages and parts have no lines of their own; what is around them does."""
    pages = texts()
    path = "docs/reference/promises.md"
    grown = {**pages, path: pages[path] + "one more line\n" * prose.MOST_LINES}
    assert list(prose.too_long(grown)) == []
    assert prose.length("# Title\n\n```\ncode\n```\n") == 5
    assert prose.length(f"# Title\n\n{GENERATED}\nThe end.\n") == 4
    assert prose.length(pages[theorem.PAGE]) == theorem.by_hand()
