"""Hints of an explanation: each where it applies, and nowhere else."""
from __future__ import annotations
from typing import List

import re

import envelopes
import iim
import rules
from envelopes import SMALLEST, STORY
from iim.explain import page as explain_page, sections as explain_sections
from support.bindings.comparing import by_rules
from support.bindings.explaining import (
    BAD_DATE,
    case_of,
    explained_samples,
    printed_text,
    unwrapped,
)


BLOCK_OF_PICTURE = (
    b"\x1c\x02\x00\x00\x02\x00\x04"
    + rules.dataset_of(2, 105, b"Rates held")
    + rules.dataset_of(2, 25, b"bank")
)


LATIN = rules.packed(
    [*envelopes.SMALLEST_FIELDS, (2, 105, b"Caf\xe9 \xfcber"), (2, 90, b"Gen\xe8ve")],
    envelopes.STORY_OBJECT,
    1024,
)


# The size of record 1 of the worked envelopes, in bytes.
RECORD_1 = STORY.index(b"\x1c\x02")


def long_story() -> bytes:
    """Return an envelope with a story longer than a block."""
    return rules.packed(
        envelopes.STORY_FIELDS,
        rules.object_of(envelopes.STORY_HEAD, [b"a word " * 20_000], b""),
        30_000,
    )


# Text of each hint: inputs for which it must be printed, and inputs for which it must not.
HINTS = {
    "With each CR LF changed to LF: the envelope is accepted": (
        [STORY.replace(b"\n", b"\r\n"), SMALLEST.replace(b"\n", b"\r\n")],
        [BAD_DATE],
    ),
    "With LF made CR LF again where the counts ask for it: the envelope is accepted": (
        [STORY.replace(b"\r\n", b"\n")],
        [STORY.replace(b"\r\n", b"\r"), STORY],
    ),
    "With CR LF made LF again where the counts ask for it: the envelope is accepted": (
        [re.sub(rb"(?<!\r)\n", b"\r\n", STORY)],
        [STORY.replace(b"\n", b"\r\n")],
    ),
    "With UTF-8 converted to Latin-1: the envelope is accepted": (
        [LATIN.decode("latin-1").encode("utf-8"), STORY.decode("latin-1").encode("utf-8")],
        [
            LATIN.replace(b"20240301", b"20230229"),
            LATIN[:70].decode("latin-1").encode("utf-8")[:60] + b"\xff" * 9,
        ],
    ),
    "complete: without the last": (
        [SMALLEST + b"\n", STORY + SMALLEST + b"\0" * 400, SMALLEST + b"junk"],
        [b"\n" + SMALLEST, SMALLEST + SMALLEST[:50]],
    ),
    "this is a block of record 2 alone": (
        [
            BLOCK_OF_PICTURE,
            b"\xff\xed\0\x60Photoshop 3.0\x008BIM\x04\x04\0\0\0\0\0\x24" + BLOCK_OF_PICTURE,
        ],
        [
            b"\x1d" + SMALLEST[1:],
            SMALLEST[:46] + b"\x1d" + SMALLEST[47:],
            b"\x1c\x02",
            b"no wire copy",
            STORY[RECORD_1:],
            STORY[RECORD_1:-1],
        ],
    ),
    "record 1 is lost. With a record 1 inserted there, everything after it is accepted.": (
        [
            STORY[RECORD_1:],
            STORY[RECORD_1:] + SMALLEST,
            SMALLEST + STORY[RECORD_1:],
            b"junk" + STORY[RECORD_1:],
            long_story()[RECORD_1:],
        ],
        [BLOCK_OF_PICTURE, STORY[RECORD_1:] + b"\n", STORY[RECORD_1:-1], STORY[RECORD_1 + 7 :]],
    ),
    "With a record 1 inserted there, the envelope is accepted, and ends before octet 191.": (
        [STORY[RECORD_1:] + b"\n", STORY[RECORD_1:] + STORY[:100]],
        [STORY[RECORD_1:]],
    ),
    "With a record 1 inserted there, it is valid up to octet 190.": (
        [STORY[RECORD_1:-1], STORY[RECORD_1:-1] + b"\0"],
        [STORY[RECORD_1:]],
    ),
    "The file has no octets": ([b""], [b"\x1c", SMALLEST, b"\0"]),
    "which is more than the file has": (
        [SMALLEST[:100], STORY[:230], SMALLEST[:50]],
        [SMALLEST[:105], SMALLEST[:44], STORY[:62]],
    ),
    "Without this dataset 2:105 Headline: the envelope is accepted": (
        [STORY[:62] + STORY[62:77] * 2 + STORY[77:]],
        [BAD_DATE],
    ),
    "1:70 Date Sent inserted before it": (
        [SMALLEST[:42] + SMALLEST[55:]],
        [SMALLEST[:21] + SMALLEST[29:]],
    ),
    "the envelope is accepted: one octet is lost.": (
        [SMALLEST[:92] + SMALLEST[93:]],
        [BAD_DATE],
    ),
}


def test_prints_each_hint_only_where_it_applies(folder: str) -> None:
    for words, (asking, others) in HINTS.items():
        for octets in asking:
            text = unwrapped(printed_text(case_of(octets)))
            assert words in text, f"{words!r} is not printed for {octets!r}: {text}"
        for octets in others:
            assert words not in unwrapped(
                printed_text(case_of(octets))
            ), f"{words!r} is printed for {octets!r}"


def test_accepts_envelopes_with_record_1_restored(folder: str) -> None:
    # (the hint's statement, by the test oracle)
    front = SMALLEST[:RECORD_1]
    for octets, ends in (STORY, 191), (long_story(), len(long_story()) - RECORD_1):
        rest = octets[RECORD_1:]
        assert (by_rules(rest)[:18], by_rules(front + rest)) == (
            "refused at octet 4",
            f"done {RECORD_1 + ends}",
        )
    assert by_rules(front + STORY[RECORD_1:-1])[:20] == f"refused at octet {RECORD_1 + 190}"
    # (there is no hint under limits that are too small for a record 1)
    assert "inserted" not in printed_text(
        case_of(STORY[RECORD_1:], iim.Limits(20, 5))
    ), "a record 1 was inserted"


def test_prints_no_transfer_hint_for_other_samples(folder: str) -> None:
    for name, (octets, _) in explained_samples().items():
        text = unwrapped(printed_text(case_of(octets)))
        for words in (
            "changed to LF",
            "changed to CR LF",
            "converted to Latin-1",
            "block of record 2",
            "record 1 is lost",
            "without the last",
            "no octets",
        ):
            assert words not in text, f"{words!r} is printed for {name}"


def titles(octets: bytes) -> List[str]:
    """Return the titles of the sections of an explanation."""
    return [section.title for section in explain_sections.sections(case_of(octets))]


def test_names_its_sections(folder: str) -> None:
    accepted = "Bytes accepted there"
    assert titles(BAD_DATE) == ["Where", "Why", "What to do", accepted, "Note"]
    assert titles(SMALLEST[:100])[3] == "Bytes accepted next"
    assert (titles(b""), titles(SMALLEST)) == (["Empty file"], [])
    text = printed_text(case_of(BAD_DATE))
    for line in (
        "  Likely reason: a date that does not exist, or in another form.",
        "  First: ask the sender to send it as CCYYMMDD.",
        "  It must be a date CCYYMMDD.",
    ):
        assert line in text, f"{line!r} is not printed: {text}"
    # (verdict, where, why and what to do come first, and last the sentence that an operator needs)
    order = ["WHERE", "WHY", "WHAT TO DO", "BYTES ACCEPTED THERE", "NOTE", "ENVELOPE 1"]
    assert [line for line in text.splitlines() if line in order or "ENVELOPE 1" in line] == [
        *order[:5],
        "ENVELOPE 1  at octet 0 of the file",
    ]
    assert text.splitlines()[-1] == "Ask TST for 00000002 again."


def test_states_that_nothing_was_repaired(folder: str) -> None:
    for name, (octets, _) in explained_samples().items():
        case = case_of(octets)
        reported = [unwrapped(printed_text(case)), unwrapped(explain_page.page(case))]
        assert (name, [explain_sections.NOTE in each for each in reported]) == (
            name,
            [case.refusal is not None] * 2,
        )
