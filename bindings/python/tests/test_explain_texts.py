"""The encodings that 1:90 declares (ISO 2022), and the forms of text that iim-explain opens."""
from __future__ import annotations

import pytest
import rules
from envelopes import SMALLEST, SMALLEST_FIELDS, STORY, STORY_OBJECT
from newsroom import NORWEGIAN

from iim.designations import encoding_of
from iim.explain import charsets, page, recognition
from support.bindings.explaining import case_of, printed_text, unwrapped
from support.running import TOP

# Designations of the register ISO-IR, each with some bytes and the letters that the set has there:
# Latin 1 to 4, Greek, Arabic, Hebrew, Cyrillic, Latin 5 to 10 and Thai.
SETS = {
    b"\x1b-A": (b"\xc5\xf8", "Åø"),
    b"\x1b-B": (b"\xa3\xea", "Łę"),
    b"\x1b-C": (b"\xa1\xd8", "ĦĜ"),
    b"\x1b-D": (b"\xa2\xbf", "ĸŋ"),
    b"\x1b-F": (b"\xc1\xe1", "Αα"),
    b"\x1b-G": (b"\xc7\xe4", "ال"),
    b"\x1b-H": (b"\xe0\xe1", "אב"),
    b"\x1b-L": (b"\xb6\xd6", "Жж"),
    b"\x1b-M": (b"\xd0\xfe", "Ğş"),
    b"\x1b-T": (b"\xa1\xc1", "กม"),
    b"\x1b-V": (b"\xa2\xbf", "Ēŋ"),
    b"\x1b-Y": (b"\xa8\xd0", "ØŠ"),
    b"\x1b-_": (b"\xa1\xd0", "ḂŴ"),
    b"\x1b-b": (b"\xa4\xbd", "€œ"),
    b"\x1b-f": (b"\xaa\xde", "ȘȚ"),
    b"\x1b$)A": (b"\xd6\xd0\xce\xc4", "中文"),
    b"\x1b$)B": (b"\xc6\xfc\xcb\xdc", "日本"),
    b"\x1b$)C": (b"\xc7\xd1\xb1\xdb", "한글"),
    b"\x1b%G": ("Ж".encode(), "Ж"),
    b"\x1b%/I": ("Ж".encode(), "Ж"),
    b"\x1b(B\x1b-A": (b"\xe9", "é"),
}


@pytest.mark.parametrize("designations", SETS)
def test_decodes_the_sets_of_the_register(designations: bytes) -> None:
    octets, letters = SETS[designations]
    name = encoding_of(designations)
    assert name is not None and octets.decode(name) == letters
    chosen = charsets.choose(None, designations, octets)
    assert (chosen.name, chosen.source) == (name, "declared")


@pytest.mark.parametrize(
    "text, name",
    [
        (b"plain", "ascii"),
        ("é".encode(), "utf-8"),
        ("éé".encode()[:3], "utf-8"),
        (b"caf\xe9", "iso8859-1"),
        (b"\x80 12", "cp1252"),
        (b"\x9f\xe9", "cp1252"),
        (b"\xa0\xe9", "iso8859-1"),
    ],
)
def test_guesses_an_encoding_that_is_not_declared(text: bytes, name: str) -> None:
    assert charsets.choose(None, None, text) == (name, "guessed")
    assert charsets.choose("koi8-r", b"\x1b%G", text) == ("koi8-r", "given")


@pytest.mark.parametrize(
    "designations, name",
    [(b"\x1b%G", "utf-8"), (b"\x1b-A", "iso8859-1"), (b"\x1b(B", "ascii"), (b"", None)],
)
def test_reads_designations(designations: bytes, name: str | None) -> None:
    assert encoding_of(designations) == name


@pytest.mark.parametrize("designations", [b"%G", b"\x1b!A", b"\x1b-~", b"\x1b%~"])
def test_reads_no_other_designations(designations: bytes) -> None:
    assert encoding_of(designations) is None


@pytest.mark.parametrize(
    "name, normal", [("latin-1", "iso8859-1"), ("UTF8", "utf-8"), ("utf-16", None), ("none", None)]
)
def test_knows_encodings_that_keep_ascii(name: str, normal: str | None) -> None:
    assert charsets.known_encoding(name) == normal


def test_cuts_text_between_characters() -> None:
    assert charsets.decoded("é".encode() * 3, "utf-8", 5) == "éé..."
    assert charsets.decoded("a€".encode(), "utf-8", 3) == "a..."
    assert charsets.decoded(b"abc", "utf-8", 3) == "abc"


@pytest.mark.parametrize(
    "opened, octets",
    [
        (recognition.of_quoted(b"caf=E9"), b"caf\xe9"),
        (recognition.of_uu(b"begin 644 a\n#0V%T\n \nend\n"), b"Cat"),
        (recognition.of_escapes(b"b'\\x1c\\x01'"), b"\x1c\x01"),
        (recognition.of_percent(b"%1C%01a"), b"\x1c\x01a"),
    ],
    ids=["quoted-printable", "uuencode", "escapes", "percent"],
)
def test_opens_text(opened: recognition.Opened, octets: bytes) -> None:
    assert [got for _, got in opened] == [octets]


# The first bytes of the smallest envelope, as programs print them.
DUMPS = {
    "xxd": b"00000000: 1c01 0000 0200 041c 0114 0002 0002 1c01  ................\n"
    b"00000010: 1600 02                                  ...\n",
    "hexdump": b"00000000  1c 01 00 00 02 00 04 1c  01 14 00 02 00 02 1c 01  |................|\n"
    b"00000010  16 00 02                                          |...|\n00000013\n",
    "od -t x1": b"0000000 1c 01 00 00 02 00 04 1c 01 14 00 02 00 02 1c 01\n0000020 16 00 02\n"
    b"0000023\n",
    "digits": b"1C010000020004 1C011400020002 1C01160002",
    "0x": b"0x1C, 0x01, 0x00, 0x00, 0x02, 0x00, 0x04, 0x1C, 0x01, 0x14, 0x00, 0x02, 0x00, 0x02,\n"
    b"0x1C, 0x01, 0x16, 0x00, 0x02\n",
}


@pytest.mark.parametrize("program", DUMPS)
def test_reads_dumps(program: str) -> None:
    assert recognition.hexadecimal(DUMPS[program]) == SMALLEST[:19]


def test_reads_chunks_of_a_body() -> None:
    body = b"4\r\nWiki\r\n6;x=y\r\npedia \r\nE\r\nin \r\n\r\nchunks.\r\n0\r\n\r\n"
    assert recognition.unchunked(body) == b"Wikipedia in \r\n\r\nchunks."
    assert recognition.unchunked(b"3\nabc\n2\nde\n0\n\n") == b"abcde"


@pytest.mark.parametrize("name", ["utf-16-le", "utf-16-be", "utf-16", "utf-32"])
def test_reads_wide_text(name: str) -> None:
    text = STORY.decode("latin-1").encode(name)
    tried = recognition.best(text, case_of(b"").limits)
    assert tried is not None and tried.octets == STORY
    kind = recognition.kind_of(text)
    assert kind is not None and kind.name == f"UTF-{name[4:6]} text"


def test_guesses_the_encoding_of_long_lines() -> None:
    line = "Длинная строка, ".encode() * 100
    octets = rules.packed(
        SMALLEST_FIELDS,
        rules.object_of([b"A", b"1", b"4", b"B", b"1", b""], [line] * 2, b""),
        8_192,
    )
    assert line[:2_048].decode("utf-8", "replace")[-1] == "\ufffd"
    text = printed_text(case_of(octets, shows_all=True))
    assert "Text is shown in utf-8, a guess," in unwrapped(text)
    assert "Длинная строка, Длинная" in text


def test_isolates_right_to_left_text() -> None:
    headline = "שלום abc".encode("iso8859-8")
    fields = [*SMALLEST_FIELDS[:6], (1, 90, b"\x1b-H"), *SMALLEST_FIELDS[6:], (2, 105, headline)]
    text = printed_text(case_of(rules.packed(fields, STORY_OBJECT, 1_024), shows_all=True))
    headed = text.partition("2:105 Headline, 8")[2].split("\n", 2)
    shown = [part.strip() for part in headed[:2]]
    assert shown == ["\u2068שלום abc\u2069", r"[\xF9\xEC\xE5\xED abc]"]
    assert text.count("\u2068") == text.count("\u2069") == 1


@pytest.mark.parametrize(
    "octets, sentence",
    [
        (SMALLEST + b"junk", "Ask for the envelope after TST 00000001 20240301 again."),
        (b"junk", "Ask the sender for this file again."),
        (SMALLEST[:29], "Ask TST for this envelope again."),
        (SMALLEST[:42], "Ask TST for 00000001 again."),
        (NORWEGIAN.octets[:-1], "Ask NTB for 00004711 of 20241007 again."),
    ],
)
def test_says_what_to_ask_for_last(octets: bytes, sentence: str) -> None:
    assert printed_text(case_of(octets)).splitlines()[-1] == sentence
    assert unwrapped(printed_text(case_of(octets))).count(sentence) == 2


@pytest.mark.parametrize("name", ["smallest", "story"])
def test_packs_scripts(name: str) -> None:
    script, envelope = (TOP / f"samples/{name}.{kind}" for kind in ("script", "iim"))
    assert [got for _, got in recognition.of_script(script.read_bytes())] == [envelope.read_bytes()]


def test_keeps_both_ends_of_long_parts() -> None:
    spans = [page.Span(begin, begin + 4, "a", False, 0) for begin in range(0, 40, 4)]
    ends = [(part.begin, part.end) for part in page.within(spans, 16)]
    assert ends == [(0, 4), (4, 8), (32, 36), (36, 40)]
    assert page.within(spans, 40) == spans
    (first, last) = page.within([page.Span(0, 100, "a", False, 0)], 10)
    assert (first.begin, first.end, last.begin, last.end) == (0, 5, 95, 100)
