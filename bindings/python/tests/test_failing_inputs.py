"""Files that iim-explain and `python3 -m iim` cannot read."""
from __future__ import annotations
from typing import List
import pytest
from support.bindings.running import run_text

import json
import os
import re
import resource
import subprocess
import sys
import tempfile

import iim
import rules
from envelopes import SMALLEST, STORY, STORY_FIELDS, STORY_OBJECT
from iim.explain import case as explain_case, walk as explain_walk
from support.bindings.paths import environment, unmeasured, SECONDS
from support.bindings.programs import at_most, DAMAGED, EXPLAIN, GOOD, ran, started, without
from support.bindings.running import write_file


def test_reports_files_that_cannot_be_opened(folder: str) -> None:
    write_file(folder, "a.iim", SMALLEST)
    os.symlink("loop.iim", f"{folder}/loop.iim")
    long = "a" * 300
    for name, reason in [
        ("absent.iim", "No such file or directory"),
        (".", "Is a directory"),
        ("a.iim/b", "Not a directory"),
        ("loop.iim", "Too many levels of symbolic links"),
        (long, "File name too long"),
        ("/dev/zero", "not a regular file"),
        ("/proc/self/mem", "Input/output error"),
        ("a\n\x1b\u202e.iim", "No such file or directory"),
        (os.fsdecode(b"\xe9.iim"), "No such file or directory"),
    ]:
        shown = {
            "a\n\x1b\u202e.iim": "a\\x0A\\x1B\\u202E.iim",
            os.fsdecode(b"\xe9.iim"): "\\xE9.iim",
        }.get(name, name)
        assert (name, ran(folder, [name])) == (name, (3, [f"iim-explain: {shown}: {reason}"]))


def test_reports_files_without_permission(folder: str) -> None:
    os.chmod(folder, 0o755)
    os.chmod(write_file(folder, "secret.iim", SMALLEST), 0)
    assert ran(folder, ["secret.iim"], program="as nobody") == (
        3,
        ["iim-explain: secret.iim: Permission denied"],
    )


def test_reports_errors_of_standard_input(folder: str) -> None:
    assert ran(folder, ["-"], stdin=None, preexec_fn=without(0)) == (
        3,
        ["iim-explain: standard input: Bad file descriptor"],
    )
    with open(os.devnull, "wb") as written:
        assert ran(folder, ["-"], stdin=written) == (
            3,
            ["iim-explain: standard input: Bad file descriptor"],
        )
    reader, writer = os.pipe()
    os.set_blocking(reader, False)
    with open(reader, "rb") as pipe, open(writer, "wb"):
        assert ran(folder, ["-"], stdin=pipe) == (
            3,
            ["iim-explain: standard input: Resource temporarily unavailable"],
        )


def test_reads_files_without_a_size(folder: str) -> None:
    # (a pipe, a file of /proc, whose size is reported as 0, and an empty file)
    status, errors = ran(folder, ["-"], octets=STORY, stdin=subprocess.PIPE)
    assert (status, errors) == (0, [])
    for path, told in (
        ("/proc/self/status", "envelope 1 refused"),
        ("/proc/self/cmdline", "envelope 1 refused"),
        ("/dev/null", "no octets"),
    ):
        process = started(folder, [path])
        out, printed = process.communicate(timeout=SECONDS)
        # (the verdict, which may have several lines)
        first = " ".join(out.decode().partition("\n\n")[0].split())
        assert (path, told in first, "no octets" in first, printed) == (
            path,
            True,
            told == "no octets",
            b"",
        )


def test_starts_at_the_offset_of_standard_input(folder: str) -> None:
    path = write_file(folder, "many.iim", SMALLEST + STORY + STORY[:100])
    for at, told in (
        (0, "460 octets, 2 envelopes"),
        (114, "346 octets, 1 envelope "),
        (360, "100 octets, 0 envelopes"),
        (460, "no octets"),
        (999, "no octets"),
    ):
        with open(path, "rb") as given:
            os.lseek(given.fileno(), at, os.SEEK_SET)
            process = started(folder, ["-"], stdin=given)
            out = process.communicate(timeout=SECONDS)[0].decode()
            assert (at, told in out.splitlines()[0], process.returncode) == (
                at,
                True,
                int(at < 460),
            )
            # (the refusal that `check` of the module raises)
            os.lseek(given.fileno(), at, os.SEEK_SET)
            lines = (
                started(folder, [], "module", stdin=given)
                .communicate(timeout=SECONDS)[0]
                .splitlines()
            )
            assert (at, len(lines)) == (at, {0: 3, 114: 2, 360: 1}.get(at, 0))
            if at == 114:
                assert (
                    "which is octet 346 of the file" in re.sub(r"\s+", " ", out)
                    and "ENVELOPE 2  at octet 246 of the file" in out
                ), out


def test_detects_a_shortened_file(folder: str) -> None:
    path = write_file(folder, "a.iim", STORY * 1_000 + b"\x1d")
    source = explain_walk.Source(path)
    os.truncate(path, 100_000)
    with pytest.raises(OSError, match="the file became shorter while it was read"):
        explain_case.Case(source, iim.WIRE)


def test_detects_a_changed_file(folder: str) -> None:
    script = write_file(
        folder,
        "iim-explain",
        b"""
import sys
from iim.explain.case import Case
from iim.program import main
first = Case.selected
def told(case):
    # (another process writes to it meanwhile)
    with open(sys.argv[1], "r+b") as to:
        to.write(b"x" * 300)
    return first(case)
Case.selected = told
sys.exit(main(["explain", *sys.argv[1:]]))
""",
    )
    path = write_file(folder, "a.iim", STORY + b"\x1d")
    process = subprocess.run(
        [sys.executable, script, path, "--all"],
        capture_output=True,
        text=True,
        env=environment(),
        timeout=SECONDS,
    )
    assert (process.returncode, process.stderr) == (
        3,
        f"iim-explain: {path}: the file was changed while it was read\n",
    )


def test_names_the_directory_of_its_copy(folder: str) -> None:
    with tempfile.TemporaryFile() as big:
        big.write(STORY * 4_000)
        big.seek(0)
        reader = subprocess.Popen(
            ["cat"], stdin=big, stdout=subprocess.PIPE, stderr=subprocess.DEVNULL
        )
        want = (
            3,
            [f"iim-explain: standard input: a copy in {tempfile.gettempdir()}: File too large"],
        )
        assert (
            ran(
                folder,
                ["-"],
                stdin=reader.stdout,
                preexec_fn=at_most(resource.RLIMIT_FSIZE, 100_000),
            )
            == want
        )
        assert reader.stdout
        reader.stdout.close()
        reader.wait(SECONDS)


# Limits the memory to a little more than is used after all is loaded.
SPARE = """
import resource, sys, iim, iim.explain.page, iim.explain.program, iim.program
iim.row(1, 0)
size = int(open("/proc/self/statm").read().split()[0]) * resource.getpagesize()
resource.setrlimit(resource.RLIMIT_AS, (size + 12_000_000, size + 12_000_000))
sys.exit(iim.program.main(sys.argv[1:]))
"""


def test_reports_an_allocation_failure(folder: str) -> None:
    fields = [*STORY_FIELDS, *([(2, 200, b"x" * 8_000)] * 4_000)]
    path = write_file(folder, "big.iim", rules.packed(fields, STORY_OBJECT, 1_024))
    limits = ["--limits", "4294967295", "100000"]
    for script, words, want in [
        ("iim-explain", ["explain", path, "--all", *limits], f"iim-explain: {path}: out of memory"),
        ("module", [path, *limits], f"python3 -m iim: {path}: out of memory"),
    ]:
        words = [sys.executable, write_file(folder, script, SPARE.encode()), *words]
        process = subprocess.run(
            words,
            capture_output=True,
            text=True,
            env=unmeasured(),
            timeout=SECONDS,
            stdin=subprocess.DEVNULL,
        )
        assert (process.returncode, process.stderr) == (3, f"{want}\n")


def test_names_the_missing_library(folder: str) -> None:
    for library in "/nonexistent/libiim.so", "libm.so.6":
        for program, words, what in ("iim-explain", [DAMAGED], "iim-explain"), (
            "module",
            [DAMAGED],
            "python3 -m iim",
        ):
            status, errors = ran(
                folder, words, program=program, env={**environment(), "IIM_LIBRARY": library}
            )
            begins = f"{what}: no libiim.so: bindings/build makes it, and IIM_LIBRARY may name it ("
            assert (status, len(errors), errors[0][: len(begins)]) == (3, 1, begins)
            assert library.rpartition("/")[2] in errors[0], errors


def test_reports_unreadable_files_as_json_lines(folder: str) -> None:
    process = started(folder, ["absent.iim", ".", DAMAGED], "module")
    lines = [json.loads(line) for line in process.communicate(timeout=SECONDS)[0].splitlines()]
    told = [(line["file"], line.get("failed")) for line in lines]
    want = [
        ("absent.iim", "cannot open: No such file or directory"),
        (".", "cannot open: Is a directory"),
        (DAMAGED, None),
    ]
    assert (process.returncode, told) == (3, want)
    assert ran(folder, [], program="module", stdin=None, preexec_fn=without(0)) == (
        3,
        ["python3 -m iim: standard input: Bad file descriptor"],
    )


def test_reports_an_internal_error_in_a_line(folder: str) -> None:
    planted = "from iim.explain import text; text.listing = lambda *_: [1 / 0]; from iim.program"
    script = write_file(
        folder, "iim-explain", EXPLAIN.replace("from iim.program", planted).encode()
    )
    status, _, errors = run_text([sys.executable, script, DAMAGED], env=environment())
    told = "iim-explain: internal error: ZeroDivisionError: division by zero (iim-explain:2)\n"
    assert (status, errors) == (3, told)


def test_exits_with_2_for_usage_errors(folder: str) -> None:
    of_explain: List[List[str]] = [
        [],
        ["a", "b"],
        ["--other", "a"],
        [DAMAGED, "--limits", "0", "1"],
    ]
    of_explain += [[DAMAGED, "--envelope", "0"], [DAMAGED, "--html"]]
    of_module = [["--limits", "1", "x"], ["--other"]]
    wrong = [("iim-explain", words) for words in of_explain]
    for program, words in [*wrong, *(("module", words) for words in of_module)]:
        status, errors = ran(folder, words, program=program)
        assert status == 2 and errors[-1].startswith(
            f"{'iim-explain' if program == 'iim-explain' else 'python3 -m iim'}: error: "
        ), errors
    assert ran(folder, [GOOD, "--envelope", "9"]) == (
        2,
        [f"iim-explain: {GOOD}: there is no envelope 9: the file has 1"],
    )
