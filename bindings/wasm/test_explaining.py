"""Explanations by the package and the page, compared with those of iim-explain.

iim-explain also undoes transfers and conversions, and recognises other formats. So its explanation
is made here without these: with the single-byte fixes alone.
"""
from __future__ import annotations

import functools
import json
import random
from pathlib import Path
from typing import Any, Callable, Dict, List

import envelopes
import pytest
from iim.explain import findings, recognition
from iim.explain.as_json import explanation
from iim.explain.findings import Finding, Findings
from support.bindings.explaining import case_of, of_lines
from support.bindings.javascript import WASM, node
from support.bindings.running import samples

# The damaged files of each seed: together 500.
DAMAGED, SEEDS = 125, range(4)
# The greatest number that is exact as a number of JavaScript: a greater one is a bigint.
MOST_EXACT = 2**53 - 1
# What only iim-explain has: the file's name and checksum, the release, and the format of the file.
OF_FILE = "file", "release", "sha256"


@pytest.fixture()
def single_bytes(monkeypatch: pytest.MonkeyPatch) -> None:
    """Let iim-explain find single-byte fixes alone."""

    def found(self: Findings) -> List[Finding]:
        return sorted(findings.distinct(list(self._single_bytes())), key=Finding.order)

    cached = functools.cached_property(found)
    cached.__set_name__(Findings, "all")
    monkeypatch.setattr(Findings, "all", cached)
    monkeypatch.setattr(Findings, "kind", None)
    monkeypatch.setattr(Findings, "is_message", False)
    monkeypatch.setattr(recognition, "kind_of", lambda octets: None)


def expected(octets: bytes) -> Dict[str, Any]:
    """Return the explanation of iim-explain, without what only it has."""
    made: Dict[str, Any] = json.loads(json.dumps(explanation(case_of(octets, shows_all=True))))
    for name in OF_FILE:
        del made[name]
    if made["refused"]:
        made["refused"].pop("is", None)
        for fix in made["refused"].get("fixes", []):
            fix.pop("edit", None)
    for item in (item for each in made["shown"] for item in each["items"]):
        if item.get("count") and item["count"] > MOST_EXACT:
            item["count"] = str(item["count"])
    return made


def damaged(dice: random.Random, octets: bytes, others: List[bytes]) -> bytes:
    """Return an envelope with one or two edits."""
    made = bytearray(octets)
    for _ in range(dice.choice((1, 1, 2))):
        at, kind = dice.randrange(len(made)), dice.randrange(6)
        if kind < 3:
            made[at] = dice.choice((made[at] ^ 1 << dice.randrange(8), dice.randrange(256)))
        elif kind == 3:
            del made[at : at + dice.choice((1, 1, 2, 5))]
        elif kind == 4:
            made[at:at] = dice.choice(others)[: dice.randrange(1, 30)]
        else:
            del made[max(1, at) :]
    return bytes(made)


def explained(installed: Path, inputs: List[bytes]) -> List[Dict[str, Any]]:
    """Return the explanations of the package."""
    paths = []
    for nth, octets in enumerate(inputs):
        paths.append(installed / f"{nth}.iim")
        paths[-1].write_bytes(octets)
    listed = installed / "list"
    listed.write_text("".join(f"{path}\n" for path in paths), encoding="utf-8")
    script = installed / "explain.mjs"
    script.write_text((WASM / "tests" / "explain.mjs").read_text(encoding="utf-8"))
    ran = node(installed, str(script), str(listed))
    assert ran.returncode == 0, ran.stderr
    return [json.loads(line) for line in ran.stdout.splitlines()]


def differences(installed: Path, inputs: List[bytes]) -> List[str]:
    """Return where the explanations differ."""
    found = explained(installed, inputs)
    assert len(found) == len(inputs)
    differing = []
    for nth, (octets, made) in enumerate(zip(inputs, found)):
        wanted = expected(octets)
        for key in sorted(wanted.keys() | made.keys()):
            if wanted.get(key) != made.get(key):
                differing.append(f"{nth} {key}:\n{wanted.get(key)}\n{made.get(key)}")
    return differing


@pytest.mark.usefixtures("single_bytes")
def test_explains_the_samples_as_iim_explain(
    installed: Path, count_cases: Callable[[int], None]
) -> None:
    inputs = [octets for name, octets in sorted(samples().items()) if name.endswith(".iim")]
    more = [b"", b"\x1c", envelopes.STORY * 90, of_lines(1_600)]
    more += [of_lines(1_600)[:-30], (envelopes.STORY * 45)[:-9]]
    assert len(inputs) >= 38
    assert differences(installed, [*inputs, *more]) == []
    count_cases(len(inputs) + len(more))


@pytest.mark.parametrize("seed", SEEDS)
@pytest.mark.usefixtures("single_bytes")
def test_explains_damaged_files_as_iim_explain(
    installed: Path, seed: int, count_cases: Callable[[int], None]
) -> None:
    dice = random.Random(seed)
    small = [octets for octets in samples().values() if 60 < len(octets) < 1_000]
    inputs = [damaged(dice, dice.choice(small), small) for _ in range(DAMAGED)]
    assert differences(installed, inputs) == []
    count_cases(len(inputs))


def test_would_find_a_difference(installed: Path) -> None:
    # (iim-explain names what only it tries, so these explanations differ)
    octets = envelopes.STORY.replace(b"\n", b"\r\n")
    assert differences(installed, [octets]) != []
