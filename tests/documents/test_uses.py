"""Check that public items have callers, and that few definitions share a name."""
from __future__ import annotations

from pages import uses

# The number of names that public definitions of more than one crate have: it may only fall.
# `python3 -c 'from pages import uses; print(uses.shared_names())'` in tests/ prints them.
MOST_SHARED_NAMES = 31


def test_has_a_caller_for_each_public_item() -> None:
    """Compare the public items that no other crate names with those that are listed as such."""
    found, excused = {*uses.without_callers()}, uses.excused()
    assert sorted(found - {*excused}) == []
    assert sorted({*excused} - found) == []
    assert [each for each, reason in excused.items() if not reason.strip()] == []


def test_finds_items_that_nothing_names() -> None:
    """Find an item without a caller and a used one among items that are known."""
    names = {each.name for each in uses.without_callers()}
    assert "TAG_OCTETS" in names and "number_bytes" not in names


def test_has_few_names_of_several_definitions() -> None:
    """Count the names that public definitions of several crates share."""
    shared = uses.shared_names()
    assert len(shared) <= MOST_SHARED_NAMES, f"{len(shared)}: {' '.join(shared)}"
    assert len(shared["Rule"]) > 1
