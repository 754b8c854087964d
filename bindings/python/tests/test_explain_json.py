"""`iim-explain --json`: the object that it prints, of samples whose refusals the samples list."""
from __future__ import annotations

import json
import re
import sys
import types
from typing import Any, Iterator

import damages
import pytest
import rules
from envelopes import SMALLEST, STORY
from newsroom import COPIES, NORWEGIAN, placed

from iim import program
from iim.explain import __main__ as command
from iim.explain import as_json, progress
from support.bindings.explaining import BAD_DATE, case_of
from support.bindings.sentences import accepted, file_of, number, valid
from support.running import TOP

# Status, envelopes accepted, and of the refusal: the octet, the layer, the dataset and the cause.
SAMPLES = [
    ("damaged/bad_value.iim", 1, 0, (54, "record", "1:70", 15, "BadValue")),
    ("damaged/control_octet.iim", 1, 0, (104, "story", "8:10", 41, "ControlOctet")),
    ("story.iim", 0, 1, None),
]


def explained(name: str, status: int, capsys: pytest.CaptureFixture[str]) -> dict[str, Any]:
    """Return what is printed of a sample."""
    assert program.main(["explain", str(TOP / "samples" / name), "--json"]) == status
    printed = capsys.readouterr()
    assert printed.err == ""
    got: dict[str, Any] = json.loads(printed.out)
    return got


@pytest.mark.parametrize("name, status, accepted, refusal", SAMPLES)
def test_prints_one_object(
    name: str,
    status: int,
    accepted: int,
    refusal: tuple[object, ...] | None,
    capsys: pytest.CaptureFixture[str],
) -> None:
    got = explained(name, status, capsys)
    assert (got["form"], got["accepted"]) == (1, accepted)
    assert got["size"] == (TOP / "samples" / name).stat().st_size
    refused = got["refused"]
    names = "octet", "layer", "dataset", "cause", "cause_name"
    assert (refused and tuple(refused[name] for name in names)) == refusal


def test_prints_what_would_be_accepted(capsys: pytest.CaptureFixture[str]) -> None:
    # (2023 has a 20th to a 28th of February)
    got = explained("damaged/bad_value.iim", 1, capsys)
    assert got["refused"]["name"] == "Date Sent"
    assert got["refused"]["accepted_next"] == list(b"012345678")
    assert any(fix.get("accepts_envelope") for fix in got["refused"]["fixes"])
    (shown,) = got["shown"]
    assert [item["dataset"] for item in shown["items"] if item.get("is_refused")] == [[1, 70]]


def test_runs_as_a_module(
    capsys: pytest.CaptureFixture[str], monkeypatch: pytest.MonkeyPatch
) -> None:
    words = ["iim-explain", str(TOP / "samples/smallest.iim"), "--json"]
    monkeypatch.setattr(sys, "argv", words)
    assert command.main() == 0
    assert json.loads(capsys.readouterr().out)["size"] == 114


def test_reports_progress_on_a_terminal(
    capsys: pytest.CaptureFixture[str], monkeypatch: pytest.MonkeyPatch
) -> None:
    monkeypatch.setattr(sys.stderr, "isatty", lambda: True, raising=False)
    # (None makes the import fail)
    modules: dict[str, Any] = sys.modules
    monkeypatch.setitem(modules, "tqdm", None)
    with progress.Progress(progress.LEAST) as report:
        report(progress.LEAST // 2)
    bar = "\r[" + "#" * 15 + "." * 15 + "]  50 %"
    assert capsys.readouterr().err == bar + "\r" + " " * 40 + "\r"


def test_updates_a_bar_by_what_was_read(monkeypatch: pytest.MonkeyPatch) -> None:
    bars: list[list[Any]] = []

    class Bar:
        """What is used of a bar of tqdm."""

        def __init__(self, **options: Any) -> None:
            bars.append([options["total"]])

        def update(self, count: int) -> None:
            bars[-1].append(count)

        def close(self) -> None:
            bars[-1].append("closed")

    monkeypatch.setattr(sys.stderr, "isatty", lambda: True, raising=False)
    module: Any = types.ModuleType("tqdm")
    module.tqdm = Bar
    monkeypatch.setitem(sys.modules, "tqdm", module)
    with progress.Progress(progress.LEAST) as report:
        report(100)
        report(250)
        report(progress.LEAST)
    with progress.Progress(progress.LEAST - 1) as report:
        report(100)
    assert bars == [[progress.LEAST, 100, 150, progress.LEAST - 250, "closed"]]


def test_counts_from_the_envelope_and_in_the_file() -> None:
    got = as_json.explanation(case_of(SMALLEST + BAD_DATE))
    octet = BAD_DATE.index(b"20230229") + 7
    refused = got["refused"]
    names = "envelope", "at", "octet", "octet_in_file", "ends_early"
    assert [refused[name] for name in names] == [
        2,
        len(SMALLEST),
        octet,
        len(SMALLEST) + octet,
        False,
    ]
    listed = [
        {"envelope": 1, "at": 0, "octets": 114, "id": ["TST", "00000001", "20240301"]},
        {"envelope": 2, "at": 114, "octets": octet, "id": ["TST", "00000002", None]},
    ]
    listed[0]["is_refused"], listed[1]["is_refused"] = False, True
    assert (got["envelopes"], got["ask"]) == (listed, "Ask TST for 00000002 again.")
    ended = as_json.explanation(case_of(BAD_DATE[:100]))["refused"]
    assert (ended["octet"], ended["ends_early"]) == (len(BAD_DATE[: octet + 1]) - 1, False)
    ended = as_json.explanation(case_of(STORY[:100]))["refused"]
    assert (ended["octet"], ended["ends_early"]) == (100, True)


def test_says_how_many_envelopes_are_left_out() -> None:
    for count, left in (1, 0), (80, 0), (81, 1), (200, 120):
        got = as_json.explanation(case_of(STORY * count))
        numbers = [each["envelope"] for each in got["envelopes"]]
        assert (got["accepted"], got["envelopes_left_out"]) == (count, left)
        own = list(range(1, count + 1))
        assert numbers == (own if count <= 80 else own[:40] + own[-40:])
        assert [each["at"] for each in got["envelopes"]] == [
            (number - 1) * len(STORY) for number in numbers
        ]


def results(own: bytes, fix: dict[str, Any]) -> Iterator[bytes]:
    """Yield the bytes of an envelope after a change that is suggested."""
    if "single" in fix:
        single = fix["single"]
        for at in single["first"], single["last"]:
            for value in single["values"]:
                yield own[:at] + bytes([value]) + own[at + 1 :]
    elif "edit" in fix and len(fix["edit"]["put"]) < 2_048:
        edit = fix["edit"]
        at, put = edit["octet"], bytes.fromhex(edit["put"])
        yield own[:at] + put + own[at + edit["removed"] :]


def test_suggests_changes_that_help() -> None:
    tried = reached = 0
    files = {name: damage.octets for name, damage in damages.damages().items()}
    files["after another"] = SMALLEST + files["norwegian: 1 octet of a subfile lost"]
    files["bad date"] = BAD_DATE
    for name, octets in files.items():
        file = file_of(octets)
        for fix in as_json.explanation(case_of(octets))["refused"]["fixes"]:
            for made in results(file.own, fix):
                tried += 1
                got = accepted(made)
                assert (name, fix, got) == (name, fix, fix["accepts_envelope"])
                reach = re.search(r": it is valid up to octet ([\d,]+)\.", fix["text"])
                if reach and "edit" in fix and "single" not in fix:
                    shift = len(file.own) - len(made)
                    reached += 1
                    assert (name, fix, valid(made) + shift) == (name, fix, number(reach[1]))
    assert tried > 300 and reached, f"{tried} changes, and {reached} that make more valid"


def test_lists_the_datasets_with_their_text() -> None:
    for name, copy in COPIES.items():
        (shown,) = as_json.explanation(case_of(copy.octets, shows_all=True))["shown"]
        items = [item for item in shown["items"] if item["kind"] == "dataset"]
        assert (name, shown["encoding"]["name"]) == (name, DECLARED[name])
        places = placed(copy.octets)
        assert len(items) == len(places)
        for item, (key, (at, data, end)) in zip(items, places):
            got = tuple(item["dataset"]), item["at"], item["octets"], item["count"]
            assert got == (key, at, end - at, end - data)
            if "text" in item:
                value = copy.octets[data:end]
                assert item["text"] == value.decode(copy.encoding)
                assert item["text_octets"] == len(value)


# The encodings of the copies: one is guessed, and two are declared.
DECLARED = {"norwegian": "iso8859-1", "french": "utf-8", "russian": "iso8859-5"}


def test_says_how_long_a_line_is() -> None:
    line = b"word " * 1_000
    octets = rules.packed(
        NORWEGIAN.fields, rules.object_of(NORWEGIAN.head, [line, b"a"], b""), 8_192
    )
    (shown,) = as_json.explanation(case_of(octets, shows_all=True))["shown"]
    lines = [item for item in shown["items"] if item["kind"] == "line"]
    assert [item["text_octets"] for item in lines] == [5_000, 1]
    assert (lines[0]["text"], lines[1]["text"]) == (line[:2_048].decode(), "a")
    assert [item["octets"] for item in lines] == [5_002, 1]
