"""Memory: allocations that fail, one by one, and how much is allocated."""
from __future__ import annotations

import re
import subprocess
import tempfile
import time
from pathlib import Path
from typing import Sequence

import pytest

from support.preloaded import loaded, run_refused
from support.running import SECONDS, TOP, Argument, Command, Ran, write
from support.streams import NOON, SCRIPT, SHOWN, SMALLEST, STORY, split, with_fields


@pytest.fixture()
def refusing(tmp_path: Path) -> Path:
    """Return the library that fails allocations of a program."""
    return loaded(tmp_path, "refuse")


def again(first: str) -> str:
    """Return the line of a call that fails in this way and succeeds when it is repeated."""
    return f"{first}, then as worked\n"


OUT = again("out of memory")
# What each call prints when each of its allocations fails in turn. A header is two allocations, a
# subfile one. Lines stop at the octet for which the allocation fails: that of the first line, its
# end, or that of the second line.
CALLS = {
    "Fields::new": OUT * 2,
    "SubfileBuffer::reserve": OUT,
    "SubfileBuffer::reserve of 7": OUT,
    "SubfileBuffer::reserve of 1": OUT,
    "Lines::text and line_end": f"({OUT})+",
    "Unpacker::new and feed": OUT * 2,
    "Unpacker::new and save": f"({OUT}){{3,}}",
    "Unpacker::save and restore": f"({OUT}){{5,}}",
    "Unpacker::new and next_envelope": OUT * 2,
    "Unpacker::new and feed into Lines": OUT * 2
    + again("stopped at octet 212, lines 1, octets 0")
    + f"({again('stopped at octet 224, lines 1, octets 11')})?"
    + f"({again('stopped at octet 225, lines 2, octets 11')})?",
    # Of six envelopes: the memory of the first header serves all others, and that of the first row
    # has capacity for three more rows.
    "audit": f"({again('out of memory at envelope 1')})+({again('out of memory at envelope 5')})+",
    "report_text": f"({OUT})+",
    "EnvelopeBuilder::new": OUT * 2,
    "EnvelopeBuilder::from": OUT * 2,
    "read_script": f"({OUT})+",
    "Packer::start": OUT,
    "Packer::start, subfiles of 7": OUT,
    "Packer::start, subfiles of 1": OUT,
    "pack": OUT,
}


def failed_call(library: Path, program: Sequence[Argument], number: int, good: str) -> list[str]:
    """Fail one allocation, and return the name of the one call that it changes and its line."""
    (status, output, errors), asked = run_refused(library, str(number), program)
    assert (status, errors, asked.count(b"x")) == (0, b"", 1)
    lines = output.decode().splitlines()
    others = [line for line, usual in zip(lines, good.splitlines()) if line != usual]
    assert (len(lines), len(others)) == (len(CALLS), 1), (number, output)
    name, _, line = others[0].partition(": ")
    return [name, line]


def test_calls_report_each_failed_allocation(calls: Command, refusing: Path) -> None:
    program: list[Argument] = [calls.path, "memory"]
    printed = (TOP / "crates/envelope_tests/stdout").read_text()
    good = "".join(printed.splitlines(keepends=True)[: len(CALLS)])
    got, requests = run_refused(refusing, "0", program)
    assert got == (0, good.encode(), b"")
    found = dict.fromkeys(CALLS, "")
    for number in range(1, len(requests) + 1):
        name, line = failed_call(refusing, program, number, good)
        found[name] += f"{line}\n"
        # If all later allocations fail too, the calls before it print the same, and it fails again.
        (status, output, errors), _ = run_refused(refusing, f"{number}+", program)
        before, _, last = output.decode()[:-1].rpartition("\n")
        assert (status, errors) == (3, b"")
        assert good.startswith(before), number
        assert re.fullmatch(f"{name}: .+, then out of memory", last), number
    for name, pattern in CALLS.items():
        assert re.fullmatch(pattern, found[name]), name


def prefixes(name: str, output: bytes) -> list[bytes]:
    """Return what a failed allocation may leave of a command's output.

    Nothing of a report or a packed envelope, any prefix of stories, complete lines of `check`, and
    complete envelopes of `show`.
    """
    if name in ("audit", "pack"):
        return [b""]
    if name == "story":
        return [output[:at] for at in range(len(output) + 1)]
    parts = re.split(rb"(?<=\n)(?=\d+ |envelope )", output)
    return [b"".join(parts[:count]) for count in range(len(parts) + 1)]


def is_out_of_memory(name: str, got: Ran, want: Ran) -> bool:
    """Check whether a run has reported a failed allocation, after a prefix of a good run."""
    before, reported, after = got.errors.rpartition(b"out of memory\n")
    is_reported = bool(reported) and not after and want.errors.startswith(before)
    is_line = not before or before.endswith(b"\n")
    return got.status == 3 and is_reported and is_line and got.output in prefixes(name, want.output)


# The arguments of runs over the files of `folder`.
RUNS = [
    ["check", "a.iim"],
    ["show", "a.iim"],
    ["story", "a.iim"],
    ["audit", "a.iim", *NOON],
    ["pack", "a.script"],
    ["check", "b.iim"],
    ["story", "b.iim"],
    ["audit", "b.iim", *NOON],
    ["pack", "b.script"],
    ["check", "absent.iim"],
    ["audit", "a.iim", "--now", "noon"],
    ["pack", "a.script", "--max", "5"],
]


@pytest.fixture()
def folder(tmp_path: Path) -> Path:
    """Return a directory with a valid stream and script, and with invalid ones."""
    write(tmp_path / "a.iim", SMALLEST + STORY + SMALLEST)
    write(tmp_path / "a.script", SCRIPT)
    write(tmp_path / "b.iim", SMALLEST + b"no envelope")
    write(tmp_path / "b.script", SCRIPT[:50])
    return tmp_path


@pytest.mark.parametrize("words", RUNS, ids=" ".join)
def test_reports_each_failed_allocation(
    run: Command, refusing: Path, folder: Path, words: list[str]
) -> None:
    program: list[Argument] = [run.path, *words]
    want, requests = run_refused(refusing, "0", program, cwd=folder)
    assert want == run(words, stdin=subprocess.DEVNULL, cwd=folder)
    retried = 0
    for number in range(1, len(requests) + 1):
        for refused in str(number), f"{number}+":
            got, asked = run_refused(refusing, refused, program, cwd=folder)
            # The arguments are collected in one allocation, or in smaller ones if that one fails.
            if got == want and len(asked) > len(requests) and asked.count(b"x") == 1:
                retried += 1
            else:
                assert b"x" in asked and is_out_of_memory(words[0], got, want), refused
    assert retried == 1


def peak(run: Command, count: int) -> int:
    """Return the most memory, in KB, that the program has mapped while it checks envelopes."""
    with tempfile.TemporaryFile() as output, run.start("check", stdout=output) as process:
        assert process.stdin
        process.stdin.write(STORY * count)
        process.stdin.flush()
        # All is read once the last line is there: it is flushed before the next read.
        want = sum(len(b"%d accepted 246 octets\n" % number) for number in range(1, count + 1))
        end = time.monotonic() + SECONDS
        while output.seek(0, 2) < want and time.monotonic() < end:
            time.sleep(0.02)
        assert output.seek(0, 2) == want
        status = Path(f"/proc/{process.pid}/status").read_text()
        process.stdin.close()
        assert process.wait(SECONDS) == 0
    (kilobytes,) = re.findall(r"^VmPeak:\s+(\d+) kB$", status, re.M)
    return int(kilobytes)


def test_memory_does_not_grow_with_the_input(run: Command) -> None:
    short, long = (peak(run, size // len(STORY)) for size in (2 << 20, 64 << 20))
    assert abs(long - short) <= 64


# Lines of a story of 3,000,000 octets, with a size of subfiles.
LARGE = [
    ([b"a" * 3_000_000], 1 << 20),
    ([b"b" * 98] * 30_000, 1 << 20),
    ([b"c" * 98] * 30_000, 4_000_000),
]


@pytest.mark.parametrize("lines, subfile", LARGE, ids=["one line", "lines", "one subfile"])
def test_allocates_for_large_scripts(run: Command, lines: list[bytes], subfile: int) -> None:
    story = SMALLEST[91:103] + b"\r\n".join(lines) + b"\3\4"
    script, words = SCRIPT + b"\n".join(lines) + b"\n", ["pack", "--subfile", str(subfile)]
    want = split(SMALLEST[:62], story, subfile, True)
    status, output, errors = run(words, script)
    assert (status, output == want, errors) == (0, True, b"")
    # Of unknown size, the memory of a subfile is allocated first.
    unknown = split(SMALLEST[:62], story, subfile, False)
    status, output, errors = run([*words, "--unknown"], script)
    assert (status, output == unknown, errors) == (0, True, b"")
    status, output, errors = run(["story"], want)
    assert (status, errors) == (0, b"1 accepted %d octets\n" % len(want))
    assert output.splitlines() == lines


@pytest.mark.parametrize("octet, text", [(0, "\\x00"), (0x20, " ")])
def test_allocates_for_the_largest_datasets(run: Command, octet: int, text: str) -> None:
    lengths = [8192] * 7 + [8165] + [0] * 497
    sent = with_fields(*((200, bytes([octet]) * length) for length in lengths))
    lines = "".join(f"2:200{' ' if length else ''}{text * length}\n" for length in lengths)
    shown = lines.encode() + b"message"
    status, output, errors = run(["show"], sent)
    assert (status, output == SHOWN.replace(b"message", shown), errors) == (0, True, b"")
    status, output, errors = run(["pack"], SCRIPT.replace(b"message", shown))
    assert (status, output == sent, errors) == (0, True, b"")
    row = b"1 TST 00000001 20240301 priority - size 14 subfiles 1 words 0/0 age - repeats - copy "
    want = 0, row + b"free\n1 envelopes, 0 repeated, 0 held\n", b""
    assert run(["audit", *NOON], sent) == want
