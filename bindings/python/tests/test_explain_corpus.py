"""Explanations of the damages that newsrooms really have."""
from __future__ import annotations

import functools
import re
from typing import Dict

import damages
import pytest
import rules
from damages.damage import Damage
from newsroom import COPIES
from support.bindings.explaining import case_of, printed_text, unwrapped


@functools.lru_cache(maxsize=None)
def corpus() -> Dict[str, Damage]:
    """Return the damages by their names."""
    return damages.damages()


def test_damages_realistic_envelopes() -> None:
    assert len(corpus()) >= 60
    for name, copy in COPIES.items():
        read = rules.read(copy.octets)
        assert (name, read.is_done, read.at) == (name, True, len(copy.octets))
        assert 2_500 < len(copy.octets) < 4_000 and read.subfiles >= 3, name
        caption = rules.first(copy.fields, 2, 120)
        assert caption is not None and caption.count(b"\r\n") >= 2, name
        assert any(octet >= 0x80 for octet in copy.message), name
        assert [line.decode(copy.encoding) for line in copy.lines], name


def test_damages_are_refused() -> None:
    for damage in corpus().values():
        read = rules.read(damage.octets)
        is_accepted = read.is_done and read.at == len(damage.octets)
        assert (damage.name, is_accepted) == (damage.name, False)


def test_prints_at_most_five_changes() -> None:
    numbered = r"^  (\d+)\. "
    most = 0
    for damage in corpus().values():
        case = case_of(damage.octets)
        shown = re.findall(numbered, printed_text(case), re.M)
        found = case.findings.all if case.findings else []
        assert shown == [str(nth + 1) for nth in range(min(5, len(found)))], damage.name
        most = max(most, len(found))
    assert most > 5, "no damage has more than five changes"


@pytest.mark.parametrize("name", sorted(corpus()))
def test_explains_what_people_bring(name: str) -> None:
    damage = corpus()[name]
    text = printed_text(case_of(damage.octets))
    missing = [each for each in damage.sentences if each not in unwrapped(text)]
    assert missing == [], text
    assert text.splitlines()[-1].startswith(("Ask ", "Nothing has to be sent again.")), text
