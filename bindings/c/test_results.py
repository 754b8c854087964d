"""Results of the C library for samples, prefixes and changes, in chunks of any size."""
from __future__ import annotations

from pathlib import Path
from typing import Callable, Dict, List, Tuple

import pytest
import rules
from support.bindings.harness import (
    ALL,
    REFUSED,
    SIZES,
    Sized,
    answers,
    batches,
    by_rules,
    expect_answers,
    expect_rules,
    lines_of,
    octets_of_sample,
    streams,
)
from support.bindings.paths import SAMPLES
from support.bindings.running import run, write_file


def expect_as_the_command(printed: Dict[str, List[Sized]], command: Path, name: str) -> int:
    """Check what the C program prints for each sample and size of chunks against the command.

    Returns:
        The number of samples and sizes.
    """
    sizes = [size for first, last in SIZES for size in range(first, last + 1)]
    for path in ALL:
        status, out, errors = run([command, name, path])
        # (the lines of `check` are the errors of `story`)
        got = [
            (size, by_size, parts[name], parts["check"] if name == "story" else b"")
            for size, by_size, parts in printed[path]
        ]
        assert (path, got) == (path, [(size, status, out, errors) for size in sizes])
    return len(ALL) * len(sizes)


# (the three tests share what the program prints)
@pytest.mark.xdist_group("streams")
@pytest.mark.parametrize("name", ["check", "show", "story"])
def test_prints_samples_as_the_command(
    program: Path, command: Path, name: str, count_cases: Callable[[int], None]
) -> None:
    count_cases(expect_as_the_command(streams(program), command, name))


@pytest.mark.parametrize("name", ["smallest.iim", "story.iim"])
def test_checks_each_prefix_of_worked_envelopes(
    program: Path, command: Path, name: str, count_cases: Callable[[int], None]
) -> None:
    whole = octets_of_sample(name)
    prefixes = [whole[:count] for count in range(len(whole) + 1)]
    expect_rules(program, [*prefixes, whole + b"\x1c", whole + whole])
    for front, answer in zip(prefixes[1:-1], answers(program, "check", (0, 0), prefixes[1:-1])):
        cause = f"{answer[2]} {rules.CAUSES[answer[2]]}"
        place = f"octet {answer[5]} by layer dataset on {answer[3]}:{answer[4]:02}"
        line = f"1 refused at {place}, cause {cause}\n"
        assert run([command, "check"], front) == (1, line.encode(), b"")
    count_cases(len(prefixes) + 2)


def test_checks_each_changed_byte(program: Path, count_cases: Callable[[int], None]) -> None:
    changes = list(rules.read_changes(octets_of_sample("smallest.iim")))
    assert len(changes) == 114 * 256
    parts = [changed for changed, _ in changes]
    expect_answers(program, parts, [by_rules(read) for _, read in changes])
    count_cases(len(changes))


def test_enforces_the_given_limits(program: Path) -> None:
    whole = octets_of_sample("story.iim")
    for limits in [(1, 512), (26, 512), (27, 512), (65536, 1), (65536, 7), (200, 15), (80, 3)]:
        expect_rules(program, [whole, whole[:100]], limits, limits)
    expect_rules(program, [whole], (65536, 3), (0, 3))
    expect_rules(program, [whole], (40, 512), (40, 0))


WAYS: List[Tuple[Tuple[int, int, int, int], List[str]]] = [
    ((0, 0, 0, 0), []),
    ((7, 0, 0, 0), ["--subfile", "7"]),
    ((1024, 1, 0, 0), ["--unknown"]),
    ((0, 1, 1, 4000), ["--unknown", "--max", "4000"]),
    ((0, 1, 1, 3), ["--unknown", "--max", "3"]),
]


def test_packs_as_the_command(program: Path, command: Path, folder: str) -> None:
    script = octets_of_sample("story.script")
    wrong = [b"", b"text\n", script.replace(b"1:40 ", b"1:41 ")]
    wrong += [script.replace(b"message", b"massage"), script + b"\x01", script[:30]]
    paths = [f"{SAMPLES}/smallest.script", f"{SAMPLES}/story.script"]
    paths += [write_file(folder, f"{number}.script", text) for number, text in enumerate(wrong)]
    for path in paths:
        for members, words in WAYS:
            status, out, errors = run([command, "pack", *words, path])
            got = run([program, "pack", *map(str, members), path])
            want = REFUSED if status == 1 else status, out, errors
            assert (path, members, *got) == (path, members, *want)


VALUES_OF_DATASETS = [
    *(b"", b"A", b"AB", b"12345678", b"20240301", b"20240001", b"120000+0100", b"250000+0100"),
    *(b"\0", b"\1", b"\2", b"\0\2", b"a b\r\n", b"\x7f", b"\xff" * 8),
    *(b"x" * count for count in (10, 11, 32, 33, 64, 65, 256, 257, 1024, 1025)),
    *(b"x" * count for count in (2000, 2001, 8192, 8193)),
    *(b"\x7f" + b"\xff" * 7, b"\0" * 9),
]


def test_admits_values_by_the_rules(program: Path, count_cases: Callable[[int], None]) -> None:
    numbers = *range(0, 131, 5), 7, 22, 37, 38, 101, 103, 116, 122
    records = 0, 1, 2, 3, 7, 8, 9, 10
    asked = [(r, n, octets) for r in records for n in numbers for octets in VALUES_OF_DATASETS]
    want = []
    for record, number, octets in asked:
        row = rules.row_of(record, number)
        want.append("1" if row and rules.admits(row, octets) else "0")
    parts = [bytes([record, number]) + octets for record, number, octets in asked]
    assert lines_of(program, "admits", octets=batches(parts)) == want
    count_cases(len(asked))


# Results for the smallest envelope, of 114 bytes, derived by hand from docs/reference/format.md
# and the header: status, layer, cause, record, number, octet, used, written and ticket. Its 27th
# byte is in the data of 1:30. The ticket there has 79 bytes; at the end it has 135, of which 69
# are the seven datasets (six each, and 27 of data), 28 the numbers of record 7,
# and 12 the texts of the message (seven, and five bytes).
VALUES = """\
done 0 0 0 0 0 114 114 0 0
more 1 0 0 0 0 27 27 0 79
short 5 0 0 0 0 0 0 0 135
fed 0 0 0 0 0 114 114 0 135
ended 0 0 0 0 0 114 0 0 0
refused 2 1 1 0 0 0 0 0 0
truncated 3 1 3 1 30 27 0 0 0
octets 2 3 50 1 0 4 0 0 0
datasets 2 3 51 1 20 11 0 0 0
memory 6 0 0 0 0 0 0 0 0
packing 8 0 0 0 0 0 0 0 0
size 0 0 0 0 0 0 0 114 0
none 4 0 0 0 0 0 0 0 0
ticket octets 7 0 50 0 0 0 0 0 0
ticket datasets 7 0 51 0 0 0 0 0 0
ticket form 7 0 100 0 0 0 0 0 0
ticket version 7 0 101 0 0 0 0 0 0
ticket impossible 7 0 102 0 0 0 0 0 0
rule 1:70 8 8 6 1 0
rule 2:55 8 8 7 2 0
rule 2:105 0 256 2 2 0
rule 7:90 1 8 12 3 0
"""


def test_returns_each_value_as_documented(program: Path) -> None:
    words = f"{SAMPLES}/smallest.iim", f"{SAMPLES}/smallest.script"
    assert lines_of(program, "values", *words) == VALUES.splitlines()
