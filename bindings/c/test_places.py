"""The position of a receiver after each prefix, and the rows of audits, of the C library."""
from __future__ import annotations

import functools
import re
from pathlib import Path
from typing import Callable, Iterable, List, Tuple

import pytest
import rules
from support.bindings.harness import SIZES, by_each_size, lines_of, octets_of_sample
from support.bindings.paths import SAMPLES
from support.bindings.running import run, write_file

# The parts of a message after its filler, as the format numbers them from 1 on: the bytes of each
# in the example envelopes. Only the info may be absent.
PARTS = [
    rb"\x01[A-Z]*",
    rb"[0-9]+",
    rb" ",
    rb"[0-9]",
    rb" [A-Z]*",
    rb" [0-9]*",
    rb"(?: [a-z]*)",
    rb"([\r\n]+)",
    rb"\x02([^\x03]*)",
    rb"\x03",
    rb"\x04",
]


def part_of(octets: bytes) -> Tuple[int, int, int]:
    """Return the part, the counter and the flag of a message of which these bytes were received."""
    fronts = [
        b"".join(part + b"?" * (part == PARTS[6]) for part in PARTS[:number]) for number in range(7)
    ]
    for number in range(7, 12):
        info = PARTS[6] + b"?" * (number > 7)
        fronts.append(b"".join([*PARTS[:6], info, *PARTS[7:number]]))
    part = max(number for number, pattern in enumerate(fronts) if re.fullmatch(pattern, octets))
    found = re.fullmatch(fronts[part], octets)
    assert found
    if part == 8:
        return part, len(found[1]), int(b"\n" in found[1])
    return part, 0, len(found[2]) - len(found[2].rstrip(b"\r")) if part == 9 else 0


def place_of(front: bytes, whole: bytes) -> Tuple[List[int], bytes]:
    """Return what is in progress after a prefix of an example envelope.

    Its tags have five bytes.

    Returns:
        The numbers that the C program prints, and the bytes of it that a ticket stores.
    """
    at, section, printed = 0, 0, b""
    while len(rest := front[at:]) >= 5 and len(rest) >= 5 + int.from_bytes(rest[3:5], "big"):
        section, count = rest[1], int.from_bytes(rest[3:5], "big")
        printed += rest[5 : 5 + count] if section == 8 else b""
        at += 5 + count
    if len(rest) < 5:
        kind = 3 if front == whole else 1 if rest else 0
        numbers = [*(rest + bytes(3))[1:3], *part_of(printed), 0, len(rest), 0, at, at]
        return [kind, section, *numbers], rest
    section, number = rest[1], rest[2]
    count, taken = int.from_bytes(rest[3:5], "big"), rest[5:]
    printed += taken if section == 8 else b""
    token = len(front) if section == 8 else at + 5
    of_data = [count, len(taken), count - len(taken), at + 5, token]
    kept = b"" if section == 8 else taken
    return [2, section, section, number, *part_of(printed), *of_data], kept


def set_of(octets: Iterable[int]) -> str:
    """Return a set of bytes in hexadecimal, as the C program prints it."""
    return sum(1 << octet for octet in octets).to_bytes(32, "little").hex()


def places(program: Path, name: str) -> List[List[str]]:
    """Return the lines of the C program after each prefix of a sample."""
    return [line.split(" ") for line in lines_of(program, "places", SAMPLES / name)]


@pytest.mark.parametrize("name", ["smallest.iim", "story.iim"])
def test_returns_the_position_after_each_prefix(
    program: Path, name: str, count_cases: Callable[[int], None]
) -> None:
    lines, whole = places(program, name), octets_of_sample(name)
    assert len(lines) == len(whole) + 1
    for count, line in enumerate(lines):
        numbers, kept = place_of(whole[:count], whole)
        wanted = [str(number) for number in [count, *numbers]]
        assert (name, line[:13], line[15]) == (name, wanted, kept.hex())
    count_cases(len(lines))


@functools.lru_cache(maxsize=None)
def accepted_next() -> List[List[str]]:
    """Return what the rules accept after each prefix of the smallest envelope."""
    whole = octets_of_sample("smallest.iim")
    want = []
    for count in range(len(whole)):
        tried = (rules.read(whole[:count] + bytes([octet])) for octet in range(256))
        fits = [octet for octet, read in enumerate(tried) if read.refusal is None]
        want.append(["1", set_of(fits)])
    return [*want, ["0", set_of([])]]


def test_returns_the_bytes_accepted_next(program: Path, count_cases: Callable[[int], None]) -> None:
    lines = places(program, "smallest.iim")
    assert [line[13:15] for line in lines] == accepted_next()
    # (a tag begins with 1C, the priority is a digit, the text has any byte except SOH, STX and
    # EOT, and ETX ends it)
    sets = [set_of([0x1C]), set_of([0x1C]), set_of(range(0x30, 0x3A))]
    assert [lines[at][14] for at in (0, 55, 95)] == sets
    assert lines[103][14] == set_of(octet for octet in range(256) if octet not in (1, 2, 4))
    count_cases(len(lines))


# The rows of samples at 12:00 on 2024-03-01, derived by hand: offset and length of the envelope,
# service, number and date sent, the byte of the priority, bytes and subfiles of the object, words
# announced and counted; whether there is an age, and the age; whether the copy may be used; whether
# there is a release and an expiration, with second and nanosecond. Then the offset of a rejected
# envelope, and its status, layer, cause, record, number and octet.
ROWS = {
    "audit.iim": """\
0 136 TST 00000001 20240301 53 14 1 0 0 1 3600 0 0 0 0 0 0 0
136 246 TST 00000002 20240301 0 50 1 5 4 0 0 0 0 0 0 0 0 0
382 114 TST 00000001 20240301 0 14 1 0 0 0 0 0 0 0 0 0 0 0
""",
    "stream.iim": """\
0 114 TST 00000001 20240301 0 14 1 0 0 0 0 0 0 0 0 0 0 0
114 246 TST 00000002 20240301 0 50 1 5 4 0 0 0 0 0 0 0 0 0
""",
    "release.iim": "0 143 TST 00000001 20240301 0 14 1 0 0 0 0 1 1 1709298000 0 0 0 0\n",
    "subfiles.iim": "0 281 TST 00000002 20240301 0 50 8 5 4 0 0 0 0 0 0 0 0 0\n",
    "damaged/control_octet.iim": "at 0: 2 6 41 8 10 104\n",
    "damaged/truncated.iim": "at 0: 3 1 3 8 10 100\n",
}
NOON = 1709294400


def expect_audit(
    program: Path, sizes: Tuple[int, int], capacity: int, path: str, want: str
) -> None:
    """Check the rows of a file, for some sizes of chunks and a capacity, against these."""
    words = *map(str, (*sizes, capacity, NOON)), path
    printed = by_each_size((int("at" in want), want.encode(), b""), *sizes)
    assert run([program, "audit", *words]) == printed


@pytest.mark.parametrize("name", ROWS)
def test_audits_samples_in_chunks_of_any_size(program: Path, name: str) -> None:
    for sizes in SIZES:
        for capacity in (1, 2, 5):
            expect_audit(program, sizes, capacity, f"{SAMPLES}/{name}", ROWS[name])


def test_audits_up_to_a_rejected_envelope(program: Path, folder: str) -> None:
    octets = octets_of_sample("stream.iim") + octets_of_sample("damaged/missing.iim")
    path = write_file(folder, "refused.iim", octets)
    want = f"{ROWS['stream.iim']}at 360: 2 2 14 1 70 46\n"
    for size in (1, 7, 64, 4096):
        expect_audit(program, (size, size), 5, path, want)


@pytest.mark.parametrize("second, age", [(NOON - 3600, 0), (NOON - 3601, -1), (NOON + 1, 3601)])
def test_rounds_ages_down(program: Path, second: int, age: int) -> None:
    # (the first of the sample was sent at 11:00)
    first = ROWS["audit.iim"].splitlines()[0]
    words = "audit", "64", "64", "5", str(second), f"{SAMPLES}/audit.iim"
    assert lines_of(program, *words)[0] == first.replace(" 1 3600 ", f" 1 {age} ")
