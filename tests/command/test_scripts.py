"""The scripts that `pack` reads: their faults and their limits."""
from __future__ import annotations

import os
from pathlib import Path

import pytest

from support.running import Command, Ran, write
from support.streams import SCRIPT, SMALLEST, dataset


def refused(line: int, cause: str) -> Ran:
    """Return what `pack` prints of a script with a fault in this line."""
    return Ran(1, b"", f"refused: script line {line} cause {cause}\n".encode())


def with_lines(lines: list[bytes]) -> bytes:
    """Return the smallest script with these lines before the message."""
    return SCRIPT.replace(b"message", b"".join(line + b"\n" for line in lines) + b"message")


# Lines before the message, each with its cause.
LINES = [
    (b"1:60 5", "10 RecordOrder"),
    (b"3:00 \\x00\\x04", "10 RecordOrder"),
    (b"7:10 \\x01", "10 RecordOrder"),
    (b"2:30 20230229", "15 BadValue"),
    (b"2:35 120000", "13 CountRange"),
    (b"2:37 2024030", "13 CountRange"),
    (b"2:38 240000+0000", "15 BadValue"),
]


def test_reports_each_fault_of_a_script(run: Command) -> None:
    long = SCRIPT.replace(b"1:30 TST\n", b"1:30 TSTTSTTSTTS\n")
    assert run(["pack"], long) == refused(4, "13 CountRange")
    assert run(["pack"], b"") == refused(1, "91 ScriptLine")
    assert run(["pack"], SCRIPT + b"a\n\4") == refused(11, "82 BadTextOctet")
    for line, cause in LINES:
        assert run(["pack"], with_lines([line])) == refused(8, cause)
    twice = with_lines([b"2:30 20240301"] * 2)
    assert run(["pack"], twice) == refused(9, "12 Repeated")
    past = run(["pack", "--unknown", "--max", "13"], SCRIPT)
    assert past == refused(9, "80 PastAnnounced")
    assert run(["pack"], bytes(16777217)) == refused(0, "92 ScriptTooLong")


# The smallest envelope has 7 datasets, of 27 octets. The limits are 65,536 octets, 65,509 more, and
# 512 datasets, 505 more.
FULL = [b"2:200 " + b"x" * 8192] * 7
LIMITS = [
    ([*FULL, b"2:200 " + b"x" * 8165], None),
    ([*FULL, b"2:200 " + b"x" * 8166], refused(15, "50 HeaderFull")),
    ([*FULL, b"2:200 " + b"x" * 8165, b"2:200", b"2:200 x"], refused(17, "50 HeaderFull")),
    ([b"2:200"] * 505, None),
    ([b"2:200"] * 506, refused(513, "51 TooManyFields")),
]


def test_limits_the_datasets_of_a_script(run: Command) -> None:
    for lines, want in LIMITS:
        fields = b"".join(dataset(2, 200, line[6:]) for line in lines)
        packed = Ran(0, SMALLEST[:62] + fields + SMALLEST[62:], b"")
        assert run(["pack"], with_lines(lines)) == (want or packed)


# Lines of the smallest script, what replaces each, and the line and cause of the fault.
REPLACED = [
    (3, b"1:30 TSTTSTTSTTS\n", (4, "13 CountRange")),
    (0, b"1:00\\x00\\x04\n", (1, "91 ScriptLine")),
    (1, b"1:20 \\x00\\x01\n", (2, "16 FileFormat")),
    (2, b"1:20 \\x00\\x02\n", (3, "12 Repeated")),
    (5, b"", (6, "14 Missing")),
    (6, b"", (8, "14 Missing")),
    (8, b"trailer \\x01\ntext\n", (9, "83 BadTrailer")),
    (8, b"text\none\ntw\x01o\n", (11, "82 BadTextOctet")),
]


def test_reports_the_first_invalid_line(run: Command) -> None:
    lines = SCRIPT.splitlines(keepends=True)
    for index, line, want in REPLACED:
        script = b"".join([*lines[:index], line, *lines[index + 1 :]])
        assert run(["pack"], script) == refused(*want)
    for script in b"", b"1:30 TST":
        assert run(["pack"], script) == refused(1, "91 ScriptLine")


LENGTHS = [
    (16777216, 16777216, refused(1, "91 ScriptLine")),
    (16777217, 16777217, refused(0, "92 ScriptTooLong")),
    (17000000, 16777217, refused(0, "92 ScriptTooLong")),
]


@pytest.mark.parametrize("length, consumed, want", LENGTHS)
def test_reads_at_most_one_octet_past_the_limit(
    run: Command, tmp_path: Path, length: int, consumed: int, want: Ran
) -> None:
    file = write(tmp_path / "long.script", b"")
    os.truncate(file, length)
    with file.open("rb") as script:
        at = script.fileno()
        assert run(["pack"], stdin=at) == want
        assert os.lseek(at, 0, os.SEEK_CUR) == consumed
