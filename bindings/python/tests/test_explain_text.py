"""Sentences and rows of an explanation."""
from __future__ import annotations
from typing import Set

import html
import re

import envelopes
import iim
import rules
import tickets
from envelopes import SMALLEST, STORY, VARIED
from iim.explain import (
    case as explain_case,
    causes as explain_causes,
    page as explain_page,
    text as explain_text,
    words as explain_words,
)
from pages import causes
from support.bindings.explaining import (
    BAD_DATE,
    case_of,
    explained_samples,
    iim_text,
    on_a_terminal,
    accepted_after,
    printed_text,
    unwrapped,
)
from support.bindings.running import write_file


def test_matches_the_page_of_causes(folder: str) -> None:
    known = {
        cause.number: cause.entries
        for cause in causes.causes()
        if cause.section == causes.OF_ENVELOPES
    }
    written = {
        number: (entries["Likely reason"], entries["What to do"])
        for number, entries in known.items()
    }
    assert written == {number: tuple(cause) for number, cause in explain_causes.CAUSES.items()}
    assert {number: entries["Meaning"] for number, entries in known.items()} == {
        number: iim.cause_text(number) for number in explain_causes.CAUSES
    }
    assert sorted(explain_causes.CAUSES) == [
        number for number in sorted(rules.CAUSES) if number < 60
    ]


def test_describes_values_in_words(folder: str) -> None:
    words = explain_words
    assert words.value_in_words(2, 55, b"20240012", 8) == "day 12 of an unknown month, 2024"
    assert words.value_in_words(2, 55, b"20240300", 8) == "March 2024"
    assert words.value_in_words(1, 70, b"20240301", 8) == "1 March 2024"
    assert (
        words.value_in_words(1, 80, b"235959-2359", 11) == "23:59:59, 23:59 behind universal time"
    )
    assert [words.value_in_words(1, 60, digit, 1) for digit in (b"1", b"5", b"8", b"3")] == [
        "1, most urgent",
        "5, normal",
        "8, least urgent",
        "3",
    ]
    assert words.value_in_words(7, 10, b"\1", 1) == "1, the size is announced"
    assert words.value_in_words(7, 20, b"\0\0\4\0", 4) == "1,024"
    assert words.instant_in_words(b"20240301", b"120000-0100") == "2024-03-01T13:00:00Z"
    assert words.instant_in_words(b"99991231", b"235959-0100") is None
    assert words.names(b"0123456789 ") == "a digit or SP"
    assert (
        words.names(b"0123456789abcdefghijklmnopqrstuvwxyzABCDEFGHIJKLMNOPQRSTUVWXYZ")
        == "a digit or a letter"
    )
    assert words.names(set(range(256)) - {3}) == "any octet except ETX"
    assert words.names([]) == "no octet"
    release = explained_samples()["release.iim"][0]
    assert "Released at 2024-03-01T13:00:00Z." in printed_text(
        case_of(release, shows_all=True)
    ), "the release"


def test_lists_each_part_of_an_envelope(folder: str) -> None:
    for octets in SMALLEST, STORY, VARIED:
        whole = case_of(octets, shows_all=True).wholes[0]
        items = whole.walk.items
        datasets = [item for item in items if item.kind == "dataset"]
        assert b"".join(octets[item.at : item.at + item.length] for item in datasets) == octets
        printed = [
            octets[item.at : item.at + item.length] for item in items if item.kind != "dataset"
        ]
        assert b"".join(printed) == b"".join(
            octets[item.at + item.head : item.at + item.length]
            for item in datasets
            if item.record == 8
        )
        lines = b"".join(
            octets[item.at : item.at + item.length] for item in items if item.kind == "line"
        )
        assert re.split(rb"\r{0,2}\n", lines) == [
            bytes(line) for line in rules.read(octets).message.lines
        ]
        order = [item.label for item in items if item.kind == "part"]
        assert [label for label in order if label in ("SOH", "STX", "ETX", "EOT")] == [
            "SOH",
            "STX",
            "ETX",
            "EOT",
        ]
        header = {
            name: b"".join(
                octets[item.at : item.at + item.length] for item in items if item.label == name
            )
            for name in iim.Header._fields
        }
        assert [header[name] for name in iim.Header._fields] == list(
            rules.read(octets).message.head()
        )


def test_returns_the_position_and_next_bytes(folder: str) -> None:
    for octets in SMALLEST, STORY, VARIED:
        receiver = iim.Receiver()
        for at, octet in enumerate(octets):
            want = rules.read(octets[:at])
            ticket = tickets.ticket(want)
            place = receiver.current_position()
            assert (ticket, place.first + place.came) == (receiver.current_ticket(), at)
            assert octet in receiver.next_bytes(), f"{at} of {octets!r}"
            if at % 16 == 3:
                assert receiver.next_bytes() == accepted_after(octets[:at])
            assert receiver.try_bytes(octets[at:]) == (len(octets) - at, True)
            receiver.feed(octets[at : at + 1])
    refusal = case_of(BAD_DATE).refusal
    assert refusal
    again = iim.Receiver.resume(refusal.ticket, refusal.octet)
    assert (
        again.current_position().begun,
        again.current_position().record,
        again.current_position().number,
        again.current_position().came,
        again.current_position().to_come,
    ) == ("data", 1, 70, 7, 1)
    assert again.next_bytes() == frozenset(b"012345678")


# Values that do not fit in 80 columns: a service of ten letters, one of ten other bytes, and a
# caption.
SERVICES = b"REUTERSUK1", b"\xc3\xa6" * 5


CAPTION = b"Oslo (NTB): Regjeringen legger fram statsr\xe5dets forslag i dag, heter det. " * 5


def of_service(service: bytes, date: bytes = b"20241007") -> bytes:
    """Return an envelope of a service, with a caption."""
    fields = [
        *envelopes.SMALLEST_FIELDS[:3],
        (1, 30, service),
        (1, 40, b"00000002"),
        (1, 70, date),
        (2, 0, b"\0\4"),
        (2, 120, CAPTION),
        (2, 40, CAPTION[41:251]),
    ]
    packed: bytes = rules.packed(
        fields, rules.object_of(envelopes.STORY_HEAD, [CAPTION, b"\xff" * 40], b""), 1024
    )
    return packed


def test_never_truncates_ids(folder: str) -> None:
    for service in SERVICES:
        whole = of_service(service)
        known = f"{rules.shown(service)} 00000002 20241007"
        for octets, kind in [
            (whole[:-1], "a file that ends early"),
            (whole.replace(b"\3\4", b"\2\4"), "an octet"),
        ]:
            text = printed_text(case_of(SMALLEST + octets))
            rows = [line for line in text.splitlines() if line.endswith("  REFUSED")]
            assert (kind, [row.split(" octets  ")[1] for row in rows]) == (
                kind,
                [f"{known}  REFUSED"],
            )
            page = explain_page.page(case_of(SMALLEST + octets))
            cells = "</td><td>".join([*html.escape(known).split(" "), "REFUSED"])
            assert (kind, f"<td>{cells}</td></tr>" in page) == (kind, True)
        # (and in the lines of the datasets)
        for columns in range(60, 130):
            row = next(
                line
                for line in explain_text.lines(
                    case_of(whole, shows_all=True), explain_text.Paint(False), columns
                )
                if "1:30 " in line
            )
            assert row.endswith(f" {rules.shown(service)}"), row


def test_truncates_values_between_characters(folder: str) -> None:
    whole = of_service(b"NTB")
    # (the row of the rejected dataset has a mark after its value)
    for octets, numbers in (whole[:-1], [120, 40]), (
        whole.replace(b"det. Oslo", b"det\1 Oslo", 1),
        [120],
    ):
        assert cut_values(case_of(octets)) == {
            explain_words.titled(2, number) for number in numbers
        }


def cut_values(case: explain_case.Case) -> Set[str]:
    """Check each row at many widths, and return the datasets whose values were cut."""
    uncut = {line[:47]: line for line in explain_text.lines(case, explain_text.Paint(False), 400)}
    cut = set()
    for columns in range(60, 130):
        for line in explain_text.lines(case, explain_text.Paint(False), columns):
            assert len(line) <= max(columns, 80), f"{columns}: {line}"
            if line.startswith(" " * 40):
                # (the bytes of the text in the line before)
                assert re.fullmatch(r" +\[.*(\]|\.\.\.)", line), line
            elif line.startswith("        ") and line != uncut[line[:47]]:
                cut.add(line[14:].partition(",")[0])
                mark = "  <-- here" * line.endswith("  <-- here")
                front = line[: len(line) - len(mark)]
                assert front.endswith("...") and uncut[line[:47]].startswith(front[:-3]), line
                # (no escape is split, and the row is as long as possible)
                assert re.fullmatch(r"([^\\]|\\x[0-9A-F]{2})*", front[:-3]), line
                assert len(line) > columns - 4, line
    return {each for each in cut if each.startswith("2:")}


def test_truncates_texts_between_escapes(folder: str) -> None:
    text = r"a\xE5b\u202Ec\U0001F600d"
    ends = {
        len(text[: found.end()]) for found in re.finditer(r"\\x..|\\u....|\\U........|[^\\]", text)
    } | {0}
    for most in range(3, len(text) + 2):
        got = explain_words.fitted(text, most)
        assert (most, got) == (
            most,
            text
            if len(text) <= most
            else text[: max(end for end in ends if end <= most - 3)] + "...",
        )


def test_never_truncates_the_file_name(folder: str) -> None:
    for name in "a" * 250 + ".iim", "\u202e" * 80, "big.iim":
        octets = SMALLEST * 1_000 + b"\n" * 11_500_001
        printed = list(explain_text.lines(case_of(octets, name=name), explain_text.Paint(False)))
        assert printed[0].startswith(explain_words.printable(name) + ":") is True
        verdict = "11,614,001 octets, 1,000 envelopes accepted, envelope 1,001 refused"
        assert verdict in unwrapped(" ".join(printed[:3])) and all(
            len(line) <= 80 for line in printed[1:3]
        ), printed[:3]


def test_prints_rows_as_wide_as_the_terminal(folder: str) -> None:
    path = write_file(folder, "wide.iim", of_service(b"NTB")[:-1])
    longest = {}
    for columns in 40, 70, 100, 140:
        printed = (
            on_a_terminal(["explain", path], columns, NO_COLOR="1").decode().replace("\r\n", "\n")
        )
        # (the hexadecimal dump has 78 columns)
        longest[columns] = max(
            len(line) for line in printed.splitlines() if not re.match("  [0-9A-F]{8} ", line)
        )
        assert "..." in printed, printed
    # (rows have at least 70 columns)
    assert {
        columns: 60 <= most <= max(70, columns) for columns, most in longest.items()
    } == dict.fromkeys(longest, True)
    status, out, _ = iim_text("explain", path)
    most = max(out.splitlines(), key=len)
    assert (status, 112 < len(most) <= 120) == (1, True)
