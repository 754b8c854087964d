"""Output as soon as it is known, and writes of whole blocks."""
from __future__ import annotations

import subprocess
import time
from pathlib import Path
from typing import Any

import pytest

from support.preloaded import loaded, run_counted
from support.running import SECONDS, Command, Ran, read_in_time
from support.streams import ACCEPTED, MARKER, NOON, SHOWN, SMALLEST, STORY, STORY_ACCEPTED, TEXT
from support.streams import head, sized

PIPES: dict[str, Any] = {"stdout": subprocess.PIPE, "stderr": subprocess.PIPE}
TRUNCATED = b"2 refused at octet %d by layer dataset on 8:10, cause 3 Truncated\n"


def send_slowly(process: subprocess.Popen[bytes], octets: bytes) -> None:
    """Write bytes to a program in chunks of ten, which it mostly reads one by one."""
    assert process.stdin
    for at in range(0, len(octets), 10):
        process.stdin.write(octets[at : at + 10])
        process.stdin.flush()
        time.sleep(0.01)


def test_lists_an_envelope_once_complete(run: Command) -> None:
    with run.start("check", **PIPES) as process:
        send_slowly(process, SMALLEST)
        assert read_in_time(process.stdout, len(ACCEPTED)) == ACCEPTED
        rest = process.communicate(STORY[:200], timeout=SECONDS)
        assert (*rest, process.returncode) == (TRUNCATED % 200, b"", 1)


def test_prints_a_line_once_complete(run: Command) -> None:
    with run.start("story", **PIPES) as process:
        send_slowly(process, STORY)
        assert read_in_time(process.stdout, len(TEXT)) == TEXT
        assert read_in_time(process.stderr, len(STORY_ACCEPTED)) == STORY_ACCEPTED
        assert process.stdin
        process.stdin.write(STORY[:225])
        process.stdin.flush()
        assert read_in_time(process.stdout, 12) == b"Rates stay.\n"
        rest = process.communicate(timeout=SECONDS)
        assert (*rest, process.returncode) == (b"", TRUNCATED % 225, 1)


def with_pause(
    run: Command, name: str, first: bytes, want: tuple[bytes, bytes], rest: bytes
) -> Ran:
    """Run a command that must write this output and these errors before it gets the rest."""
    with run.start(name, **PIPES) as process:
        try:
            assert process.stdin
            process.stdin.write(first)
            process.stdin.flush()
            for stream, part in zip((process.stdout, process.stderr), want):
                assert read_in_time(stream, len(part)) == part, name
            output, errors = process.communicate(rest, timeout=SECONDS)
        finally:
            process.kill()
    return Ran(process.returncode, want[0] + output, want[1] + errors)


def test_flushes_before_it_reads_on(run: Command) -> None:
    lines = ACCEPTED + b"2 accepted 246 octets\n"
    for at in 1, 100, 200:
        got = with_pause(run, "check", SMALLEST + STORY[:at], (ACCEPTED, b""), STORY[at:])
        assert got == (0, lines, b"")
    shown = run(["show"], SMALLEST + STORY).output
    got = with_pause(run, "show", SMALLEST + STORY[:100], (SHOWN, b""), STORY[100:])
    assert got == (0, shown, b"")
    # Before and inside the text of the second envelope.
    for at, text in (100, b"\n"), (218, b"\nRates "):
        got = with_pause(run, "story", SMALLEST + STORY[:at], (text, ACCEPTED), STORY[at:])
        assert got == (0, b"\n" + TEXT, lines)


class Counted:
    """Runs the command with its writes counted."""

    def __init__(self, run: Command, folder: Path) -> None:
        """Compile what counts writes."""
        self.run, self.library = run, loaded(folder, "writes")

    def __call__(self, *words: str, octets: bytes = b"") -> tuple[Ran, bytes]:
        """Return what a run returned, and a byte for each write: '1' output, '2' errors."""
        return run_counted(self.library, [self.run.path, *words], octets, SECONDS)


@pytest.fixture()
def counted(run: Command, tmp_path: Path) -> Counted:
    """Return what runs the command with its writes counted."""
    return Counted(run, tmp_path)


def accepted(count: int) -> bytes:
    """Return the lines of many smallest envelopes."""
    return b"".join(b"%d accepted 114 octets\n" % number for number in range(1, count + 1))


def many(folder: Path, count: int) -> str:
    """Write a file of many smallest envelopes, and return its path."""
    (folder / "many.iim").write_bytes(SMALLEST * count)
    return str(folder / "many.iim")


def test_writes_once_per_block(counted: Counted, tmp_path: Path) -> None:
    file, blocks = many(tmp_path, 1000), 114 * 1000 // 4096 + 2
    got, writes = counted("check", file)
    assert got == (0, accepted(1000), b"")
    assert set(writes) == set(b"1") and len(writes) <= blocks
    # A report is printed line by line, in each write as many lines as fit in a block.
    (status, output, errors), writes = counted("audit", file, *NOON)
    assert (status, errors, output.count(b"\n")) == (0, b"", 1001)
    longest = max(map(len, output.splitlines(keepends=True)))
    most = len(output) // (4096 - longest) + 1
    assert set(writes) == set(b"1") and len(output) // 4096 < len(writes) <= most


def test_writes_once_per_block_of_a_story(counted: Counted) -> None:
    # A story of 10,000 lines of one octet.
    text = b"x\r\n" * 9999 + b"x"
    story = head(b"00000001") + sized(b"\x01X1 4 N 0\r\n\x02" + text + b"\x03\x04", 32767)
    got, writes = counted("story", octets=story)
    assert got == (0, b"x\n" * 10000, b"1 accepted %d octets\n" % len(story))
    # (a pipe may return less than a block at a time, but at least an eighth of it on average)
    assert writes.count(b"1") <= len(story) // 512 and writes.endswith(b"12")
    # Lines on the errors follow the text of all envelopes of their block.
    got, writes = counted("story", octets=STORY * 3)
    assert (got.status, writes) == (0, b"12")


def test_writes_stories_at_most_twice_per_block(counted: Counted, tmp_path: Path) -> None:
    count = (2 << 20) // 114
    file, blocks = many(tmp_path, count), 114 * count // 4096 + 1
    got, writes = counted("story", file)
    assert got == (0, b"\n" * count, accepted(count))
    assert writes == b"12" * (len(writes) // 2) and len(writes) <= 2 * blocks
    # A refusal, and one envelope too many, are printed by one more write.
    last = MARKER.replace(b"1 refused", b"4 refused")
    got, writes = counted("story", octets=SMALLEST * 3 + b"x")
    assert (got, writes) == ((1, b"\n" * 3, accepted(3) + last), b"122")
