"""Check the guides, the README, the header and the other pages that are written by hand."""
from __future__ import annotations

import glob
import os
import re

from documents.reading import anchors, first_match
from pages.items import TOP, text_of
from pages import prose
from speed import tables


# The sections of a release in the changelog, in their order.
SECTIONS = ["Added", "Changed", "Deprecated", "Removed", "Fixed", "Security"]


def test_has_the_tables_that_are_measured() -> None:
    """Check that the tables of SPEED.md have the form that the script writes."""
    assert list(tables.faults(text_of(tables.PAGE))) == []


def test_shows_the_relay_that_is_proved() -> None:
    """Compare the guide to the relay with the crate that is proved."""
    page, relay = text_of(f"{TOP}/docs/guide/relay.md"), f"{TOP}/crates/relay_copy"
    line = first_match(r"^relay_copy: .*$", text_of(f"{TOP}/crates.txt"), re.M)[0]
    assert re.findall(r"^echo '(.*)' >> crates.txt$", page, re.M) == [
        line.replace("relay_copy", "my_relay")
    ]
    named = {
        crate
        for row in re.findall(r"^\| (`\w+`.*?) \|", page, re.M)
        for crate in re.findall(r"`(\w+)`", row)
    }
    assert named == set(line.split()[1:])
    source = text_of(f"{relay}/src/main.rt")
    shown = re.findall(r"^( *)```rust\n(.*?)^ *```", page, re.M | re.S)
    assert len(shown) == 3
    assert [
        code for indent, code in shown if re.sub(f"^{indent}", "", code, flags=re.M) not in source
    ] == []
    invariants = first_match(r"^  ```\n(  use .*?)^  ```", page, re.M | re.S)[1]
    kept = re.sub(r"^(?=.)", "  ", text_of(f"{relay}/proofs/relay/Invariants.antt"), flags=re.M)
    assert invariants == kept.replace("relay_copy", "my_relay")
    # The change that the prover rejects is a mutant of the example.
    wrong = first_match(r"put `(.*?)` in place", page)[1]
    assert f"new:             {wrong}" in text_of(f"{relay}/wrong-bodies.edits")


def test_shows_lines_of_the_gateway_in_the_readme() -> None:
    """Compare the code of the README with the gateway."""
    (shown,) = re.findall(r"^```rust\n(.*?)^```$", text_of(f"{TOP}/README.md"), re.M | re.S)
    assert (shown.count("\n"), shown in text_of(f"{TOP}/crates/receive_copy/src/main.rt")) == (
        5,
        True,
    )


def test_is_written_in_the_terms_of_the_field() -> None:
    """Check the words, columns and cells of all pages."""
    assert prose.faults() == []
    assert len(prose.pages()) > 20


def test_has_short_guides_and_a_short_readme() -> None:
    """Check the lines and columns of the README and the guides."""
    guides = [f"{TOP}/samples/README.md", *glob.glob(f"{TOP}/docs/guide/*.md")]
    most = {f"{TOP}/README.md": 150, **dict.fromkeys(guides, 200)}
    for page, lines in most.items():
        name, text = os.path.relpath(page, TOP), text_of(page)
        # (programs and outputs are as wide as they are)
        prose = re.sub(r"^ *```.*?^ *```$", "", text, flags=re.M | re.S)
        wide = [
            line for line in prose.split("\n") if len(line) > (160 if line.startswith("|") else 100)
        ]
        assert (name, text.count("\n") <= lines, wide) == (name, True, [])


def test_lists_each_function_of_the_header_as_a_symbol() -> None:
    """Compare the symbols of the package with the functions of iim.h."""
    functions = re.findall(r"^\w+ (iim_\w+)\(", text_of(f"{TOP}/bindings/c/iim.h"), re.M)
    listed = re.findall(
        r"^ (\w+)@Base \d+$", text_of(f"{TOP}/packages/debian/libiim1.symbols"), re.M
    )
    assert listed == sorted(functions)


def test_documents_each_parameter_of_the_header() -> None:
    """Check the comments of iim.h: each parameter, and the result."""
    text = text_of(f"{TOP}/bindings/c/iim.h")
    found = re.findall(r"/\*\*((?:(?!\*/).)*)\*/\n(\w+) (iim_\w+)\(([^)]*)\);", text, re.S)
    assert len(found) == len(re.findall(r"^\w+ iim_\w+\(", text, re.M))
    for comment, result, name, parameters in found:
        names = re.findall(r"(\w+)(?:,|$)", "" if parameters == "void" else parameters)
        assert (name, re.findall(r"^ \* @param +(\w+)  ", comment, re.M)) == (name, names)
        outcome = "\n * Status:" if result == "void" else "\n * @return  "
        assert (name, outcome in comment) == (name, True)


def test_has_a_security_policy_of_this_release() -> None:
    """Check the security policy."""
    path = f"{TOP}/SECURITY.md"
    assert "[`SECURITY.md`](SECURITY.md)" in text_of(f"{TOP}/README.md")
    text = text_of(path)
    wanted = {
        "supported-releases",
        "reporting-a-vulnerability",
        "scope",
        "what-must-be-trusted",
        "what-is-proved-and-what-is-not",
    }
    assert sorted(wanted - anchors(path)) == []
    release = first_match(
        r'^const RELEASE: .* = "(\d+)";$',
        text_of(f"{TOP}/crates/iim_request/src/commands.rt"),
        re.M,
    )[1]
    assert re.findall(r"^Release (\d+) is supported", text, re.M) == [release]
    # (no public address is known, so none may be given)
    assert re.findall(r"[\w.+-]+@[\w-]+\.\w+|https?://\S+", text) == []


def test_keeps_a_changelog_by_release() -> None:
    """Check the releases and sections of the changelog."""
    unreleased, *releases = re.split(r"^## ", text_of(f"{TOP}/CHANGELOG.md"), flags=re.M)[1:]
    assert unreleased.split("\n")[0] == "Unreleased"
    numbers = [re.match(r"(\d+) - \d{4}-\d\d-\d\d\n", each) for each in releases]
    assert [each and int(each[1]) for each in numbers] == list(range(len(releases), 0, -1))
    for each in unreleased, *releases:
        found = re.findall(r"^### (.*)", each, re.M)
        assert (each.split("\n")[0], found) == (
            each.split("\n")[0],
            [section for section in SECTIONS if section in found],
        )


def test_gives_each_decision_its_three_parts() -> None:
    """Check the parts of each decision."""
    decisions = re.split(r"^### ", text_of(f"{TOP}/docs/DECISIONS.md"), flags=re.M)[1:]
    parts = {each.split("\n")[0]: re.findall(r"^- \*(\w+)\*: \S", each, re.M) for each in decisions}
    assert (
        len(parts) == len(decisions) > 20,
        {name for name in parts if parts[name] != ["Context", "Decision", "Consequence"]},
    ) == (True, set())


def test_lists_each_crate_in_the_architecture() -> None:
    """Compare the crates of the architecture with the repository."""
    text = text_of(f"{TOP}/docs/ARCHITECTURE.md")
    rows = re.findall(
        r"^\| (`.*?) \|", text.partition("\n## Crates\n")[2].partition("\n## ")[0], re.M
    )
    crates = [path.split("/")[-2] for path in glob.glob(f"{TOP}/crates/*/src")]
    assert sorted(name for row in rows for name in re.findall(r"`(\w+)`", row)) == sorted(crates)
    assert len(text.splitlines()) <= 150
