"""Run c/test.c on its own buffers, find planted faults with it, and compile c/headline.c."""
from __future__ import annotations

import re
import shutil
import subprocess
from pathlib import Path
from typing import Callable, List

import pytest
from support.bindings.harness import (
    HERE,
    PARTS,
    REFUSING,
    SIZES,
    STRICT,
    batches,
    octets_of_sample,
)
from support.bindings.paths import BUILT, HEADER, SAMPLES
from support.bindings.running import Name, run, run_text

# The functions of the library that a planted fault of c/faults.c replaces.
REPLACED = [f"-Wl,--wrap=iim_{name}" for name in ("feed", "audit", "pack", "field")]
SOURCES: List[Name] = [HERE / "test.c", *PARTS]
# The least share of the lines of c/test.c and its parts that its runs execute, in percent. The
# library is not compiled from C: what is measured is which checks of the program take place.
LEAST_LINES = 97.0


@pytest.mark.parametrize("end", ["after", "before"])
def test_passes_the_checks_of_its_buffers(
    program: Path, buffers: List[str], end: str, count_cases: Callable[[int], None]
) -> None:
    words: List[Name] = [program]
    if end == "before":
        words = ["env", "GUARD_BEFORE=1", program]
    status, output, errors = run_text([*words, *buffers])
    counts = re.fullmatch(r"(\d+) passed, 0 failed", output.splitlines()[-1])
    assert (status, bool(counts), errors) == (0, True, ""), output[-2000:]
    assert counts
    count_cases(int(counts[1]))


# (the guarded program must be killed by each fault at one end of its buffers)
@pytest.mark.parametrize(
    "fault, end", [(1, ""), (2, "GUARD_BEFORE=1"), (3, ""), (4, ""), (5, ""), (6, "")]
)
def test_is_killed_by_a_planted_fault(
    compiler: str, library: Path, tmp_path: Path, buffers: List[str], fault: int, end: str
) -> None:
    made, faulty = tmp_path / "fault.o", tmp_path / "faulty"
    plain = ["-std=c11", "-O1", "-Wall", "-Wextra", "-Werror", f"-DFAULT={fault}"]
    assert run_text([compiler, *plain, "-c", "-o", made, HERE / "faults.c"]) == (0, "", "")
    words: List[Name] = [*SOURCES, made, BUILT / "libiim.a", *REFUSING, *REPLACED]
    assert run_text([compiler, *STRICT, "-DGUARDED", "-o", faulty, *words]) == (0, "", "")
    # (ended by a signal, which is a negative status)
    assert run(["env", *filter(None, [end]), faulty, *buffers])[0] < 0


def test_executes_nearly_all_lines_of_the_program(
    compiler: str, library: Path, tmp_path: Path, buffers: List[str]
) -> None:
    if shutil.which("gcov") is None:
        pytest.skip("gcov is not installed")
    measured = tmp_path / "measured"
    words: List[Name] = [*SOURCES, BUILT / "libiim.a", *REFUSING]
    ran = subprocess.run([compiler, *STRICT, "-O0", "--coverage", "-o", measured, *words])
    assert ran.returncode == 0
    sample, script = SAMPLES / "story.iim", SAMPLES / "smallest.script"
    wrong = SAMPLES / "damaged" / "bad_value.iim"
    parts = [octets_of_sample("story.iim"), octets_of_sample("smallest.iim")[:50], b"\x1d"]
    value = [bytes([2, 105]) + b"A"]
    runs = [
        (buffers, b""),
        *((["streams", *map(str, SIZES[0]), str(path)], b"") for path in (sample, wrong)),
        *(([how, "0", "0"], batches(parts)) for how in ("check", "feed")),
        (["admits"], batches(value)),
        *((["pack", *flags.split(), str(script)], b"") for flags in ("0 0 0 0", "0 1 1 3")),
        (["places", str(sample)], b""),
        *((["audit", "1", "64", "2", "1709294400", str(path)], b"") for path in (sample, wrong)),
        *(([how], b"") for how in ("texts", "tables")),
        (["values", str(SAMPLES / "smallest.iim"), str(script)], b""),
    ]
    for arguments, octets in runs:
        assert run([measured, *arguments], octets)[0] in (0, 1, 2), arguments
    notes = sorted(tmp_path.glob("*.gcno"))
    lines = run_text(["gcov", "--no-output", *notes], cwd=tmp_path)[1]
    found = re.findall(r"File '.*/(test\w*\.c)'\nLines executed:([\d.]+)% of (\d+)", lines)
    assert sorted(name for name, _, _ in found) == sorted(Path(str(it)).name for it in SOURCES)
    counts = [(float(share) / 100 * int(count), int(count)) for _, share, count in found]
    executed, all_lines = map(sum, zip(*counts))
    assert 100 * executed / all_lines >= LEAST_LINES, lines


def test_prints_a_headline(headline: Path, command: Path) -> None:
    assert run([headline, SAMPLES / "story.iim"]) == (0, b"Rates held\n", b"")
    refused = SAMPLES / "damaged" / "release_date.iim"
    checked = run_text([command, "check", refused])[1]
    assert run_text([headline, refused]) == (1, "", checked.partition(" ")[2])


def test_prints_a_headline_with_the_shared_library(
    compiled: Callable[..., Path], compiler: str
) -> None:
    words = [f"-L{BUILT}", "-liim", f"-Wl,-rpath,{BUILT}"]
    shared = compiled(compiler, "headline_shared", "headline.c", words)
    assert run([shared, SAMPLES / "story.iim"]) == (0, b"Rates held\n", b"")


def test_compiles_the_header_as_cpp() -> None:
    if shutil.which("c++") is None:
        pytest.skip("no C++ compiler is installed")
    strict = ["-std=c++17", "-Wall", "-Wextra", "-Werror", "-fsyntax-only", "-x", "c++"]
    assert run_text(["c++", *strict, HEADER]) == (0, "", "")


@pytest.mark.parametrize("argument", ["--help", "--gates", ""])
def test_build_rejects_other_arguments(argument: str) -> None:
    build = HERE.parent / "build"
    ran = subprocess.run([build, argument], capture_output=True, text=True, timeout=60)
    assert ran.returncode == 2
    assert ran.stderr == "usage: bindings/build [--module] [--gate]\n"
