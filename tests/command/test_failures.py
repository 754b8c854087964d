"""Reads and writes that fail: full devices, closed pipes, and files that end too early."""
from __future__ import annotations

import os
from pathlib import Path

import pytest

from support.running import Command
from support.streams import ACCEPTED, SCRIPT, SHOWN, SMALLEST, STORY, STORY_ACCEPTED, TEXT

FAILED = b"cannot write\n"


def test_reports_a_full_device(run: Command, tmp_path: Path) -> None:
    with open("/dev/full", "wb") as full:
        assert run(["check"], SMALLEST, stdout=full) == (3, b"", FAILED)
        assert run(["check"], b"no envelope", stdout=full) == (3, b"", FAILED)
        assert run(["check"], b"", stdout=full) == (0, b"", b"")
        assert run(["check", "absent.iim"], stderr=full, cwd=tmp_path) == (3, b"", b"")
        assert run(["chek"], stderr=full) == (3, b"", b"")


def test_reports_a_full_device_for_show_and_story(run: Command) -> None:
    with open("/dev/full", "wb") as full:
        assert run(["show"], SMALLEST, stdout=full) == (3, b"", FAILED)
        assert run(["story"], STORY, stdout=full) == (3, b"", FAILED)
        assert run(["story"], SMALLEST, stdout=full) == (3, b"", FAILED)
        assert run(["story"], STORY, stderr=full) == (3, TEXT, b"")
        assert run(["story"], b"", stdout=full) == (0, b"", b"")


def test_reports_a_closed_pipe(run: Command) -> None:
    reader, writer = os.pipe()
    os.close(reader)
    try:
        assert run(["check"], SMALLEST, stdout=writer) == (3, b"", FAILED)
    finally:
        os.close(writer)


def test_reports_a_failed_read(run: Command) -> None:
    both = SMALLEST + SMALLEST
    for octets in range(len(both) + 1):
        accepted = range(1, octets // 114 + 1)
        lines = b"".join(b"%d accepted 114 octets\n" % number for number in accepted)
        want = 3, lines, b"cannot read\n"
        assert run.until_read_fails(["check"], both[:octets]) == want
    assert run(["check"], both) == (0, ACCEPTED + b"2 accepted 114 octets\n", b"")
    shown = SHOWN + SHOWN.replace(b"envelope 1", b"envelope 2")
    assert run.until_read_fails(["show"], both) == (3, shown, b"cannot read\n")
    texts = (0, b""), (212, b""), (218, b"Rates "), (225, b"Rates stay.\n"), (245, TEXT[:-1])
    for octets, text in texts:
        got = run.until_read_fails(["story"], STORY[:octets])
        assert got == (3, text, b"cannot read\n")
    want = 3, TEXT, STORY_ACCEPTED + b"cannot read\n"
    assert run.until_read_fails(["story"], STORY) == want


def test_reports_a_failed_read_of_a_script(run: Command) -> None:
    # (the octet after the script would be refused if it were received)
    script = SCRIPT + b"\1"
    for octets in range(len(script) + 1):
        want = 3, b"", b"cannot read\n"
        assert run.until_read_fails(["pack"], script[:octets]) == want


def test_exits_3_if_a_failed_read_cannot_be_printed(run: Command) -> None:
    reader, writer = os.pipe()
    os.set_blocking(reader, False)
    assert run.into_full_file(5, ["check"], full="stderr", stdin=reader) == (3, b"", b"canno")
    os.close(reader)
    os.close(writer)


def test_reports_a_failed_write(run: Command) -> None:
    for capacity in 0, 1, 7, 21:
        want = 3, ACCEPTED[:capacity], FAILED
        assert run.into_full_file(capacity, ["check"], SMALLEST) == want
    assert run.into_full_file(22, ["check"], SMALLEST) == (0, ACCEPTED, b"")
    for capacity in 0, 1, 11, 200:
        want = 3, SHOWN[:capacity], FAILED
        assert run.into_full_file(capacity, ["show"], SMALLEST) == want
    for capacity in 0, 1, 11, 12, 21, 22:
        want = 3, TEXT[:capacity], FAILED
        assert run.into_full_file(capacity, ["story"], STORY) == want


@pytest.mark.parametrize("count", [1, 3])
def test_reports_a_failed_write_of_lines(run: Command, count: int) -> None:
    # Envelopes of one block: if their stories cannot be written, no line is printed; if a line
    # cannot be written, all stories are out.
    lines = b"".join(b"%d accepted 246 octets\n" % number for number in range(1, count + 1))
    stream, text = STORY * count, TEXT * count
    for capacity in (0, 5, 21) if count == 1 else (0, 22, 30, 65):
        got = run.into_full_file(capacity, ["story"], stream, full="stderr")
        assert got == (3, text, lines[:capacity])
    got = run.into_full_file(len(lines), ["story"], stream, full="stderr")
    assert got == (0, text, lines)
    for capacity in (0, 22) if count == 1 else (0, 23, 30, 68):
        got = run.into_full_file(capacity, ["story"], stream)
        assert got == (3, text[:capacity], FAILED)


def test_leaves_a_prefix_if_pack_cannot_write(run: Command) -> None:
    for capacity in range(114):
        want = 3, SMALLEST[:capacity], FAILED
        assert run.into_full_file(capacity, ["pack"], SCRIPT) == want
    assert run.into_full_file(114, ["pack"], SCRIPT) == (0, SMALLEST, b"")


def test_fails_if_an_error_cannot_be_printed(run: Command, tmp_path: Path) -> None:
    absent = tmp_path / "absent.iim"
    assert run.into_full_file(5, [b"check", b"\xff.iim"], full="stderr") == (3, b"", b"argum")
    assert run.into_full_file(5, ["check", absent], full="stderr") == (3, b"", b"canno")
    assert run.into_full_file(5, ["check", tmp_path], full="stderr") == (3, b"", b"canno")
    assert run.into_full_file(5, ["pack"], full="stderr") == (3, b"", b"refus")
    assert run.into_full_file(5, ["chek"], full="stderr") == (3, b"", b"error")
    assert run.into_full_file(21, ["check", absent], full="stderr").status == 3
