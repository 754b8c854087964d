"""Values of envelopes, names, and the rows of the tables."""
from __future__ import annotations
from typing import Callable, Dict, List, Optional, Set, Tuple
from support.bindings.pages import name_in_tables, tables

import datetime
import inspect
import io
import itertools
import pickle
import random
import re

import envelopes
import iim
import pytest
import rules
from envelopes import SMALLEST, STORY_FIELDS, STORY_HEAD, STORY_LINES, VARIED
from iim.datasets import ATTRIBUTES
from pages import causes
from support.bindings.paths import SAMPLES


UTC = datetime.timezone.utc


def with_dates(*more: Tuple[int, int, bytes]) -> iim.Envelope:
    """Return the smallest envelope with more datasets, or with others of the same numbers."""
    fields = {(record, number): octets for record, number, octets in envelopes.SMALLEST_FIELDS}
    fields.update({(record, number): octets for record, number, octets in more})
    datasets = [(record, number, octets) for (record, number), octets in sorted(fields.items())]
    octets = rules.packed(datasets, rules.object_of(envelopes.SMALLEST_HEAD, [b""], b""), 1024)
    (envelope,) = iim.read(octets)
    return envelope


# The escape sequences of ISO 2022 with the final bytes of the register ISO-IR: 196 UTF-8, 6 ASCII,
# 100 Latin-1, 101 Latin-2, 144 Cyrillic, 203 Latin-9, 58 GB 2312, 87 JIS X 0208, 149 KS C 5601. 69
# is a French set of 94 characters, and the last two values are no complete sequence.
@pytest.mark.parametrize(
    "sequences, want",
    [
        (None, None),
        (b"\x1b%G", "utf-8"),
        (b"\x1b(B", "ascii"),
        (b"\x1b-A", "iso8859-1"),
        (b"\x1b.A", "iso8859-1"),
        (b"\x1b(B\x1b-B", "iso8859-2"),
        (b"\x1b/L", "iso8859-5"),
        (b"\x1b-b", "iso8859-15"),
        (b"\x1b$)A", "gb2312"),
        (b"\x1b$)B", "euc_jp"),
        (b"\x1b$)C", "euc_kr"),
        (b"\x1b(f", None),
        (b"\x1b-", None),
        (b"utf-8", None),
    ],
)
def test_has_the_declared_encoding(sequences: Optional[bytes], want: Optional[str]) -> None:
    more = [] if sequences is None else [(1, 90, sequences)]
    envelope = with_dates(*more)
    assert (envelope.coded_character_set, envelope.encoding) == (sequences, want)
    if want is not None:
        assert b"Rates".decode(want) == "Rates"


# (the instants of the worked report: sent an hour before noon, held until 13:00)
@pytest.mark.parametrize(
    "name, more, want",
    [
        ("sent", [], None),
        ("sent", [(1, 80, b"120000+0100")], datetime.datetime(2024, 3, 1, 11, tzinfo=UTC)),
        ("sent", [(1, 70, b"99991230"), (1, 80, b"220001+0000")], None),
        (
            "sent",
            [(1, 70, b"99991231"), (1, 80, b"000000+0200")],
            datetime.datetime(9999, 12, 30, 22, tzinfo=UTC),
        ),
        ("release", [], None),
        ("release", [(2, 30, b"20240301")], datetime.datetime(2024, 3, 1, tzinfo=UTC)),
        (
            "release",
            [(2, 30, b"20240301"), (2, 35, b"120000-0100")],
            datetime.datetime(2024, 3, 1, 13, tzinfo=UTC),
        ),
        ("expires", [(2, 38, b"115959+0000")], None),
        ("expires", [(2, 37, b"20240301")], datetime.datetime(2024, 3, 1, 23, 59, 59, tzinfo=UTC)),
        ("expires", [(2, 37, b"99991231")], None),
    ],
    ids=str,
)
def test_returns_the_instants_of_an_envelope(
    name: str, more: List[Tuple[int, int, bytes]], want: Optional[datetime.datetime]
) -> None:
    found = getattr(with_dates(*more), name)
    assert found == want
    assert found is None or found.tzinfo is not None


def test_keeps_the_offset_of_an_instant() -> None:
    sent = with_dates((1, 70, b"00010101"), (1, 80, b"000000+2359")).sent
    assert sent is not None
    assert (sent.year, sent.utcoffset()) == (1, datetime.timedelta(hours=23, minutes=59))


def test_returns_the_values_of_the_worked_story() -> None:
    (envelope,) = iim.read(f"{SAMPLES}/story.iim")
    assert [tuple(field) for field in envelope.datasets] == STORY_FIELDS
    assert envelope.headline == b"Rates held"
    assert envelope.bylines == [b"A. Moor", b"B. Lund"]
    assert envelope.byline_titles == [b"Editor", b"Writer"]
    assert envelope.keywords == [b"rates", b"bank", b"euro"]
    assert envelope.id == (b"TST", b"00000002", b"20240301")
    assert envelope.id._asdict() == {
        "service": b"TST",
        "number": b"00000002",
        "date_sent": b"20240301",
    }
    assert (
        envelope.date_sent,
        envelope.service_identifier,
        envelope.urgency,
        envelope.destinations,
    ) == (b"20240301", b"TST", None, [])
    assert (envelope.first(2, 80), envelope.all(2, 80)) == (b"A. Moor", [b"A. Moor", b"B. Lund"])
    assert (
        envelope.first(2, 250),
        envelope.all(2, 250),
        envelope.first(2, 251),
        envelope.all(2, 251),
    ) == (b"\0\xff", [b"\0\xff"], None, [])
    assert envelope.header._asdict() == dict(
        zip(["source", "number", "priority", "category", "words", "info"], STORY_HEAD)
    )
    assert (envelope.trailer, envelope.story, envelope.story_lines()) == (
        b"",
        b"Rates stay.\nNo change.",
        STORY_LINES,
    )
    assert envelope.sizes._asdict() == {
        "mode": 1,
        "subfile": 1024,
        "announced": 50,
        "maximum": None,
        "subfiles": 1,
        "total": 50,
    }
    assert (envelope.nth, envelope.at, envelope.length) == (1, 0, 246)
    assert (
        envelope.datasets[7].dataset,
        envelope.datasets[7].name,
        envelope.datasets[0].dataset,
    ) == (
        "2:105",
        "Headline",
        "1:00",
    )
    assert (envelope.datasets[15].dataset, envelope.datasets[15].name) == ("2:250", None)
    assert repr(envelope) == "<envelope 1 TST 00000002 20240301, 246 octets>"
    copy = pickle.loads(pickle.dumps(envelope))
    assert (copy.datasets, copy.story_lines(), copy.header, copy.sizes) == (
        envelope.datasets,
        envelope.story_lines(),
        envelope.header,
        envelope.sizes,
    )


# The names that are no class and no function: limits, and the types and sizes that are not listed.
WITHOUT_SUMMARY = ["WIRE"]
UNLISTED = "AnyFile AnyOctets BLOCK GREATEST GREATEST_LIMIT LAST_SECOND RawRow".split()


def documented(kind: type) -> str:
    """Return the documentation of a class, with that of the refusal that an error carries."""
    text = inspect.getdoc(kind) or ""
    return (
        text + (inspect.getdoc(iim.Refusal) or "") if issubclass(kind, iim.RefusedError) else text
    )


def test_documents_each_name_and_attribute() -> None:
    things = {name: getattr(iim, name) for name in iim.__all__}
    summarized = {
        name: thing
        for name, thing in things.items()
        if inspect.isclass(thing) or inspect.isroutine(thing)
    }
    assert sorted(things.keys() - summarized.keys()) == WITHOUT_SUMMARY
    assert [name for name in UNLISTED if not hasattr(iim, name)] == []
    for name, thing in summarized.items():
        text = inspect.getdoc(thing) or ""
        named = getattr(thing, "_fields", ())
        assert (name, [each for each in named if f"\n    {each}: " not in text]) == (name, [])
        assert re.match("[A-Z][^\n]*[.](\n\n|$)", text), f"{name} has no summary: {text[:100]!r}"
    refusals = [
        pytest.raises(iim.RefusedError, iim.check, b"x").value,
        pytest.raises(iim.ScriptError, iim.pack, b"").value,
        pytest.raises(iim.TicketError, iim.Receiver.resume, b"x", 1).value,
    ]
    values: List[object] = [iim.Receiver(), next(iim.read(io.BytesIO(SMALLEST))), *refusals]
    for value in values:
        text = documented(type(value))
        public = [each for each in vars(value) if each[0] != "_"]
        found = [each for each in public if f"\n    {each}: " not in text]
        # (errors have the dataset and the offset in the file as attributes, too)
        derived: List[str] = (
            ["dataset", "octet_in_file"] if isinstance(value, iim.RefusedError) else []
        )
        assert (type(value), [each for each in found if each not in derived]) == (type(value), [])


def test_decodes_bytes_as_text() -> None:
    octets = SMALLEST[:62] + rules.dataset_of(2, 105, "Zürich €".encode()) + SMALLEST[62:]
    (envelope,) = iim.read(io.BytesIO(octets))
    headline = envelope.headline
    assert isinstance(headline, iim.Octets) and isinstance(headline, bytes)
    assert headline.text("utf-8") == "Zürich €"
    assert headline.text("latin-1") == "ZÃ¼rich â\x82¬"
    pytest.raises(UnicodeDecodeError, headline.text, "ascii")
    assert headline.text("ascii", "ignore") == "Zrich "
    (envelope,) = iim.read(io.BytesIO(VARIED))
    assert envelope.text("latin-1") == " one\ttwo\nthree\n\nfour\xff"
    given = (
        *envelope.story_lines(),
        *envelope.header,
        envelope.trailer,
        envelope.story,
        envelope.datasets[0].octets,
    )
    assert {type(octets) for octets in given} == {iim.Octets}


def test_names_datasets_as_the_format() -> None:
    names = tables()
    assert len(names) == 46
    for record, number in itertools.product(range(256), repeat=2):
        assert (record, number, iim.dataset_name(record, number)) == (
            record,
            number,
            name_in_tables(record, number),
        )
    for numbers in (-1, 0), (256, 0), (0, 256):
        calls: List[Callable[[int, int], object]] = [iim.dataset_name, iim.row]
        for call in *calls, lambda record, number: iim.admits(record, number, b""):
            pytest.raises(ValueError, call, *numbers)


def test_names_causes_and_layers_as_the_rules() -> None:
    known = {**rules.CAUSES, **rules.OTHER_CAUSES}
    named = [(cause.number, cause.name) for cause in causes.causes()]
    assert len(named) > 35, f"{len(named)} causes"
    around = {
        71: "Read",
        72: "Interrupted",
        90: "TooManyEnvelopes",
        100: "TicketForm",
        101: "TicketVersion",
        102: "Impossible",
    }
    listed = {**known, **around}
    assert dict(named) == listed
    assert {
        number: iim.cause_name(number) for number in range(256) if iim.cause_name(number)
    } == listed
    assert [iim.layer_name(number) for number in range(9)] == [None, *rules.LAYERS, None]
    assert iim.layer_name(255) is None


def test_returns_the_meaning_of_each_cause() -> None:
    want = causes.meanings()
    assert (len(want) >= 40) is True
    assert {
        number: iim.cause_text(number) for number in range(256) if iim.cause_text(number)
    } == want
    pytest.raises(ValueError, iim.cause_text, 256)


def test_returns_the_rows_of_the_tables() -> None:
    kinds: Dict[str, Set[int]] = {}
    for record, number in itertools.product(range(256), repeat=2):
        got, want = iim.row(record, number), rules.row_of(record, number)
        if want is None:
            assert (record, number, got) == (record, number, None)
            continue
        assert got
        assert (record, number, *got[:2], got.repeats) == (
            record,
            number,
            want.least,
            want.most,
            want.repeats,
        )
        duty = 3 if (record, number) == (7, 90) else 1 if want.is_mandatory else 2
        assert (record, number, got.duty) == (record, number, duty)
        kinds.setdefault(want.kind, set()).add(got.kind)
    assert sorted(map(len, kinds.values())) == [1] * 13
    order = (
        "Graphic Spaced SpacedLines Letters Digits Date PartDate Time Binary Octets Mode Size"
        " SizeFromOne"
    ).split()
    assert [kinds[kind].pop() for kind in order] == list(range(1, 14))


def test_admits_values_by_the_rules() -> None:
    chance = random.Random(4)
    for record, number in [*rules.ROWS, (2, 250), (1, 1), (3, 0), (7, 11)]:
        row = rules.row_of(record, number)
        values = [
            b"",
            b"0",
            b"\0",
            b"20240229",
            b"20230229",
            b"120000+0100",
            b"\x01" * 9,
            b"\xff" * 8,
            b"a" * 8192,
            b"a" * 8193,
        ]
        if row and record in (1, 2):
            values += [envelopes.value(chance, row) for _ in range(40)] + [
                envelopes.wrong_value(chance, record, number) for _ in range(40)
            ]
        for octets in values:
            want = bool(row and rules.admits(row, octets))
            assert (record, number, octets, iim.admits(record, number, octets)) == (
                record,
                number,
                octets,
                want,
            )


def test_has_an_attribute_per_named_dataset() -> None:
    (envelope,) = iim.read(f"{SAMPLES}/smallest.iim")
    plain = {name for name in dir(envelope) if name in ATTRIBUTES}
    assert len(plain) == sum(record in (1, 2) for record, _ in tables())
    mandatory = {
        "model_version": b"\0\4",
        "file_format": b"\0\2",
        "file_format_version": b"\0\1",
        "service_identifier": b"TST",
        "envelope_number": b"00000001",
        "date_sent": b"20240301",
        "record_version": b"\0\4",
    }
    for name, want in mandatory.items():
        assert (name, getattr(envelope, name)) == (name, want)
    many = (
        "destinations product_ids supplemental_categories keywords bylines byline_titles"
        " writer_editors"
    )
    one = (
        "envelope_priority time_sent coded_character_set unique_name_of_object object_name"
        " edit_status urgency category fixture_identifier release_date release_time expiration_date"
        " expiration_time special_instructions date_created time_created city province_state"
        " country_code country_name original_transmission_reference headline credit source"
        " copyright_notice caption_abstract"
    )
    assert [(name, getattr(envelope, name)) for name in many.split()] == [
        (name, []) for name in many.split()
    ]
    assert [(name, getattr(envelope, name)) for name in one.split()] == [
        (name, None) for name in one.split()
    ]
    assert len(many.split()) + len(one.split()) + 7 == len(plain)
    for name in "byline", "Headline", "headlines", "number", "_headline":
        pytest.raises(AttributeError, getattr, envelope, name)


def test_returns_each_dataset_by_its_attribute() -> None:
    values = {
        "Digits": b"5",
        "Date": b"20240301",
        "Time": b"120000+0100",
        "Letters": b"abc",
        "PartDate": b"20240000",
    }
    for (record, number), (name, repeats) in tables().items():
        row = rules.ROWS[record, number]
        if record > 2 or row.is_mandatory:
            continue
        value = values.get(row.kind, b"x" * max(1, row.least))
        at = 55 if record == 1 else 62
        (envelope,) = iim.read(
            io.BytesIO(
                SMALLEST[:at]
                + rules.dataset_of(record, number, value) * (2 if repeats else 1)
                + SMALLEST[at:]
            )
        )
        found = [
            plain
            for plain in ATTRIBUTES
            if plain not in mandatory_attributes() and getattr(envelope, plain)
        ]
        assert (name, len(found), getattr(envelope, found[0])) == (
            name,
            1,
            [value, value] if repeats else value,
        )
        assert found[0].replace("_", "")[:5] == re.sub("[^a-z]", "", name.lower())[:5]


def mandatory_attributes() -> Set[str]:
    """Return the attribute names of the mandatory datasets."""
    (envelope,) = iim.read(f"{SAMPLES}/smallest.iim")
    return {name for name in ATTRIBUTES if getattr(envelope, name)}
