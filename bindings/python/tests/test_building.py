"""Build envelopes from values."""
from __future__ import annotations

import datetime
from typing import Any, Dict

import iim
import pytest
from envelopes import SMALLEST

DAY = datetime.date(2024, 3, 1)
BASE: Dict[str, Any] = {"service": "TST", "number": 1, "date_sent": DAY}
HEADER = {"source": "X", "number": "1", "priority": "4", "category": "N", "words": "0"}


def read_one(octets: bytes) -> iim.Envelope:
    """Return the one envelope of some bytes."""
    (envelope,) = iim.read(octets)
    return envelope


def test_builds_the_smallest_envelope() -> None:
    assert iim.build(**BASE, header=HEADER, encoding="latin-1") == SMALLEST


def test_builds_the_values_it_was_given() -> None:
    built = iim.build(
        service="NTB",
        number=7,
        date_sent=datetime.date(2024, 2, 29),
        time_sent=datetime.time(12, 0, 5, tzinfo=datetime.timezone(datetime.timedelta(hours=-1))),
        envelope_priority="3",
        category="ECO",
        headline="Rentene \N{LATIN SMALL LETTER O WITH STROKE}ker",
        keywords=["rates", b"bank"],
        bylines=iter(["A. Moor"]),
        story="Rates stay.\nNo  change.",
    )
    envelope = read_one(built)
    assert envelope.id == (b"NTB", b"00000007", b"20240229")
    assert (envelope.time_sent, envelope.envelope_priority) == (b"120005-0100", b"3")
    assert envelope.headline == b"Rentene \xc3\xb8ker"
    assert (envelope.keywords, envelope.bylines) == ([b"rates", b"bank"], [b"A. Moor"])
    assert envelope.coded_character_set == b"\x1b%G"
    assert envelope.story_lines() == [b"Rates stay.", b"No  change."]
    assert envelope.header == (b"NTB", b"00000007", b"3", b"ECO", b"4", b"")


def test_uses_the_defaults_that_it_states() -> None:
    today = datetime.datetime.now(datetime.timezone.utc).date()
    envelope = read_one(iim.build(service=b"A1", number="00000012", encoding="latin-1"))
    assert envelope.date_sent in (
        f"{today + datetime.timedelta(days=n):%Y%m%d}".encode() for n in (0, 1)
    )
    assert (envelope.model_version, envelope.file_format) == (b"\0\4", b"\0\2")
    assert (envelope.file_format_version, envelope.record_version) == (b"\0\1", b"\0\4")
    assert envelope.coded_character_set is None
    assert envelope.header == (b"A", b"00000012", b"5", b"NONE", b"0", b"")
    assert (envelope.sizes.subfile, envelope.story_lines()) == (1_024, [b""])


@pytest.mark.parametrize("story", ["a\nb\n", b"a\nb\n", [b"a", b"b", b""]], ids=type)
def test_takes_a_story_as_text_or_lines(story: Any) -> None:
    assert read_one(iim.build(**BASE, story=story)).story_lines() == [b"a", b"b", b""]


def test_splits_the_object_into_subfiles() -> None:
    sizes = read_one(iim.build(**BASE, header=HEADER, story="x" * 10, subfile=8)).sizes
    assert (sizes.subfile, sizes.subfiles, sizes.total) == (8, 3, 24)


# (the causes are those of docs/reference/causes.md)
@pytest.mark.parametrize(
    "given, field, cause",
    [
        ({"headline": "x" * 257}, "headline", 13),
        ({"service": "x" * 11}, "service", 13),
        ({"service": "A B"}, "service", 15),
        ({"number": "1"}, "number", 13),
        ({"number": "0000000x"}, "number", 15),
        ({"date_sent": "20230229"}, "date_sent", 15),
        ({"date_sent": None}, "date_sent", 14),
        ({"record_version": None}, "record_version", 14),
        ({"file_format": b"\0\1"}, "file_format", 16),
        ({"category": "12"}, "category", 15),
        ({"keywords": ["good", "b\tad"]}, "keywords", 15),
        ({"release_time": datetime.time(12)}, "release_time", None),
        ({"headline": "\N{EURO SIGN}", "encoding": "latin-1"}, "headline", None),
        ({"story": "\N{EURO SIGN}", "encoding": "latin-1"}, "story", None),
        ({"story": "a\rb"}, "story", None),
        ({"story": "a\1b"}, "story", 82),
        ({"header": {"priority": "10"}}, "header", None),
        ({"header": {"category": "a b"}}, "header", None),
        ({"trailer": b"\1"}, "trailer", 83),
    ],
    ids=str,
)
def test_names_the_argument_that_is_invalid(given: Dict[str, Any], field: str, cause: Any) -> None:
    error = pytest.raises(iim.BuildError, iim.build, **{**BASE, **given}).value
    assert (error.field, error.cause) == (field, cause)
    assert str(error).startswith(f"{field}: ")
    assert isinstance(error, iim.Error) and isinstance(error, ValueError)


@pytest.mark.parametrize(
    "given",
    [
        {"headlin": "x"},
        {"service_identifier": "TST"},
        {"keywords": "rates"},
        {"headline": 1.5},
        {"date_sent": datetime.datetime(2024, 3, 1)},
        {"header": {"sourc": "X"}},
    ],
    ids=str,
)
def test_rejects_other_names_and_types(given: Dict[str, Any]) -> None:
    pytest.raises(TypeError, iim.build, **{**BASE, **given})
