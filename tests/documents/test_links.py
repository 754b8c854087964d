"""Check links, paths, generated pages and the columns of pages on what is proved."""
from __future__ import annotations

import glob
import os
import re

from documents.reading import PAGES, anchors
from pages.items import TOP, text_of
from pages import clauses
from pages import definitions as definition_pages
from pages.written import written


# The most columns of a line of a page on what is proved, and of a row of a table or a heading.
MOST_COLUMNS, MOST_COLUMNS_OF_A_ROW = 100, 160


def test_has_short_lines() -> None:
    """Check the columns of the pages on what is proved."""
    wide = []
    for path in [clauses.page_of(crate) for crate in clauses.pages()] + clauses.BY_HAND:
        lines = re.sub(r"^```.*?^```$", "", text_of(f"{TOP}/{path}"), flags=re.M | re.S).split("\n")
        most = {
            line: MOST_COLUMNS_OF_A_ROW if line.startswith(("|", "#")) else MOST_COLUMNS
            for line in lines
        }
        wide += [(path, line[:80]) for line, columns in most.items() if len(line) > columns]
    assert wide == []


def test_has_what_is_written_from_the_sources() -> None:
    """Compare each generated page with the sources."""
    wanted = written()
    assert [
        path
        for path, text in wanted.items()
        if not os.path.isfile(f"{TOP}/{path}") or text_of(f"{TOP}/{path}") != text
    ] == []
    there = [os.path.relpath(path, TOP) for path in glob.glob(f"{TOP}/crates/*/CALLING.md")]
    assert [path for path in there if path not in wanted] == []


def test_names_paths_that_are_there() -> None:
    """Look up each path that a comment of the sources names."""
    lost = []
    for path in sorted(glob.glob(f"{TOP}/crates/*/*/**/*", recursive=True)):
        crate = "/".join(os.path.relpath(path, TOP).split("/")[:2])
        if not path.endswith((".rt", ".antt")) or f"{TOP}/{crate}/out/" in path:
            continue
        comments = " ".join(re.findall(r"(?://[/!]?|--) (.*)", text_of(path)))
        for named in re.findall(
            r"(?<![\w/])(?:crates|docs|tests|samples|src|specs|proofs)/[\w./-]*\w", comments
        ):
            if not any(
                os.path.exists(f"{TOP}/{at}{named}{end}")
                for at in ("", f"{crate}/")
                for end in ("", ".antt", ".rt")
            ):
                lost.append(f"{os.path.relpath(path, TOP)}: {named}")
    assert lost == []


def test_names_the_logic_of_the_toolchain() -> None:
    """Compare the logic that the README names with the toolchain's."""
    (logic,) = re.findall(r"^logic=(\w+)$", text_of(f"{TOP}/.ci/toolchain"), re.M)
    named = re.findall(r"logic(?: is)? `?([0-9a-f]{16})`", text_of(f"{TOP}/README.md"))
    assert named == [logic, logic]


def test_has_links_that_lead_somewhere() -> None:
    """Look up the file of each link."""
    for page in PAGES:
        links = re.findall(r"\]\(([^)#:]+)(?:#[^)]*)?\)", text_of(page))
        lost = [
            link for link in links if not os.path.exists(os.path.join(os.path.dirname(page), link))
        ]
        assert (os.path.relpath(page, TOP), lost) == (os.path.relpath(page, TOP), [])


def test_has_one_heading_for_each_anchor() -> None:
    """Check that no two headings of a page of the reference share an anchor."""
    for path in sorted(glob.glob(f"{TOP}/docs/reference/*.md")):
        text = re.sub(r"^```.*?^```$", "", text_of(path), flags=re.M | re.S)
        found = [
            definition_pages.anchor(heading) for heading in re.findall(r"^#+ (.*)", text, re.M)
        ]
        assert (os.path.relpath(path, TOP), len(found)) == (
            os.path.relpath(path, TOP),
            len({*found}),
        )


def test_has_links_that_lead_to_headings() -> None:
    """Look up the heading of each link."""
    for page in PAGES:
        links = re.findall(r"\]\(([^)#:]*)#([^)]*)\)", text_of(page))
        lost = [
            f"{to}#{name}"
            for to, name in links
            if name not in anchors(os.path.join(os.path.dirname(page), to) if to else page)
        ]
        assert (os.path.relpath(page, TOP), lost) == (os.path.relpath(page, TOP), [])
