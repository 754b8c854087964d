"""Long inputs: a million envelopes, and a million octets of each shape."""
from __future__ import annotations

from pathlib import Path
from typing import Sequence

import pytest

import rules
from envelopes import SMALLEST_FIELDS, SMALLEST_HEAD
from speed import shapes
from support.running import Argument, Command, Ran
from support.streams import NOON, SHOWN, SMALLEST, STORY, TEXT

TOO_MANY = b"too many envelopes\n"


def expect(
    run: Command, words: Sequence[Argument], octets: bytes, output: bytes, errors: bytes = b""
) -> None:
    """Check the long output of a run that succeeds."""
    expect_same(run(words, octets), Ran(0, output, errors))


def expect_same(got: Ran, want: Ran) -> None:
    """Check a run with a long output, without the comparison that pytest would print."""
    sizes = got.status, len(got.output), len(got.errors), got.errors[-100:]
    assert sizes == (want.status, len(want.output), len(want.errors), want.errors[-100:])
    is_same = got == want
    assert is_same


@pytest.fixture(scope="module")
def million(tmp_path_factory: pytest.TempPathFactory) -> Path:
    """Return a file of a million of the smallest envelope."""
    file = tmp_path_factory.mktemp("large") / "a.iim"
    with file.open("wb") as to:
        for _ in range(1000):
            to.write(SMALLEST * 1000)
    return file


def accepted(count: int, length: int = 114) -> bytes:
    """Return the lines of envelopes of this length."""
    return b"".join(b"%d accepted %d octets\n" % (at, length) for at in range(1, count + 1))


@pytest.mark.xdist_group("large")
def test_lists_at_most_a_million_envelopes(run: Command, million: Path) -> None:
    lines = accepted(1_000_000)
    expect_same(run(["check", million]), Ran(0, lines, b""))
    row = b"%d TST 00000001 20240301 priority - size 14 subfiles 1 words 0/0 age - "
    rows = [row % number + b"repeats 1 copy free\n" for number in range(1, 1_000_001)]
    rows[0] = rows[0].replace(b"repeats 1", b"repeats -")
    report = b"".join(rows) + b"1000000 envelopes, 999999 repeated, 0 held\n"
    expect_same(run(["audit", million, *NOON]), Ran(0, report, b""))
    with million.open("ab") as to:
        to.write(SMALLEST)
    expect_same(run(["check", million]), Ran(1, lines + TOO_MANY, b""))
    with million.open("r+b") as to:
        to.seek(114 * 1_000_000)
        to.write(STORY)
    want = Ran(1, b"\n" * 1_000_000 + TEXT[:-1], lines + TOO_MANY)
    expect_same(run(["story", million]), want)
    assert run(["audit", million, *NOON]) == (1, TOO_MANY, b"")


# Of each shape, of about a million octets: its number of envelopes, and the lines of each story.
SHORT_LINES = [b"x"] * 340_000 + [b""]
STORIES = {
    "envelopes of 114 octets": (9000, [b""]),
    "envelopes of 246 octets": (4000, [b"Rates stay.", b"No change."]),
    "stories of 4 KB, 22 datasets": (240, [shapes.PROSE] * 64),
    "400 keywords of 8 octets": (190, [b""]),
    "400 keywords of 64 octets": (40, [b""]),
    "long text, subfiles of 32 KB": (1, [shapes.PROSE] * 16_400),
    "tables, lines of 40 octets": (1, [shapes.WIDE_ROW] * 25_000 + [b""]),
    "tables, lines of 10 octets": (1, [shapes.NARROW_ROW] * 85_000 + [b""]),
    "lines of one octet, CR LF": (1, SHORT_LINES),
    "lines of one octet, LF": (1, SHORT_LINES),
    "subfiles of one octet": (1, [shapes.PROSE] * 2560),
}


def test_has_a_story_for_each_shape() -> None:
    assert [*shapes.SHAPES] == [*STORIES]


@pytest.mark.parametrize("shape", STORIES)
def test_prints_all_of_a_million_octets(run: Command, shape: str) -> None:
    octets, (count, lines) = shapes.SHAPES[shape], STORIES[shape]
    want = accepted(count, len(octets) // count)
    expect(run, ["check"], octets, want)
    expect(run, ["story"], octets, b"".join(line + b"\n" for line in lines) * count, want)


def test_shows_all_of_a_million_octets(run: Command) -> None:
    numbers = (b"envelope %d" % number for number in range(1, 9001))
    shown = b"".join(SHOWN.replace(b"envelope 1", number) for number in numbers)
    expect(run, ["show"], shapes.SHAPES["envelopes of 114 octets"], shown)


@pytest.mark.parametrize("script", shapes.SCRIPTS)
def test_packs_a_million_octets(run: Command, script: str) -> None:
    line, count, words = shapes.SCRIPTS[script]
    story = rules.object_of(SMALLEST_HEAD, [line] * count, b"")
    large = 32_768, ["--subfile", "32768"]
    for subfile, options in [(1, words)] if words else [(1024, []), large]:
        packed = rules.packed(SMALLEST_FIELDS, story, subfile)
        expect(run, ["pack", *options], shapes.script(line, count), packed)
