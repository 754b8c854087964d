"""Outputs that fail, and signals, of iim-explain and `python3 -m iim`."""
from __future__ import annotations
from support.bindings.running import NO_ARGUMENTS
from typing import Any, Dict

import fcntl
import os
import resource
import shutil
import signal
import subprocess
import sys
import time

import pytest
import rules
from envelopes import SMALLEST, STORY, STORY_FIELDS, STORY_OBJECT
from iim import safe_output
from support.bindings.paths import environment, unmeasured, SECONDS
from support.bindings.programs import (
    at_most,
    DAMAGED,
    EXPLAIN,
    F_GETPIPE_SZ,
    F_SETPIPE_SZ,
    full,
    GOOD,
    ran,
    started,
    unread,
    wait_until_blocked,
    without,
)
from support.bindings.running import octets_of, write_file


PAGE = (safe_output.PAGE_HEAD + "\n").encode()


def test_reports_errors_of_standard_output(folder: str) -> None:
    for program, words, what in (
        ("iim-explain", [DAMAGED], "iim-explain"),
        ("module", [DAMAGED], "python3 -m iim"),
        ("module", ["explain", DAMAGED], "python3 -m iim explain"),
    ):
        assert ran(folder, words, program=program, stdout=None, preexec_fn=without(1)) == (
            3,
            [f"{what}: standard output: Bad file descriptor"],
        )
        for more in words, ["--help"] if program == "iim-explain" else words:
            assert ran(folder, more, program=program, stdout=full()) == (
                3,
                [f"{what}: standard output: No space left on device"],
            )
        reader, writer = os.pipe()
        os.close(reader)
        with open(writer, "wb") as pipe:
            assert ran(folder, words, program=program, stdout=pipe) == (
                3,
                [f"{what}: standard output: Broken pipe"],
            )


def test_keeps_the_status_without_standard_error(folder: str) -> None:
    closed: Dict[str, Any] = {"stderr": None, "preexec_fn": without(2)}
    for more in closed, {"stderr": full()}:
        assert ran(folder, ["absent.iim"], **more) == (3, [])
        assert ran(folder, [DAMAGED], **more) == (1, [])
        assert ran(folder, [GOOD, "--envelope", "9"], **more) == (2, [])
    assert ran(
        folder, [DAMAGED], stdin=None, stdout=None, stderr=None, preexec_fn=without(0, 1, 2)
    ) == (3, [])


def test_writes_names_in_any_encoding(folder: str) -> None:
    path = write_file(folder, "\xe9\u20ac.iim", SMALLEST)
    process = subprocess.run(
        [sys.executable, write_file(folder, "iim-explain", EXPLAIN.encode()), path],
        capture_output=True,
        env={**environment(), "PYTHONIOENCODING": "ascii"},
        timeout=SECONDS,
    )
    assert (process.returncode, process.stderr, b"\\xe9\\u20ac.iim: " in process.stdout) == (
        0,
        b"",
        True,
    )


BAD = STORY.replace(b"20240301", b"20230229")


def test_replaces_no_foreign_file(folder: str) -> None:
    path = write_file(folder, "a.iim", BAD)
    os.symlink("a.iim", f"{folder}/link.html")
    os.link(path, f"{folder}/hard.html")
    os.mkdir(f"{folder}/folder")
    write_file(folder, "other.html", b"<!doctype html>\n")
    before = octets_of(path)
    for out, reason in [
        ("a.iim", "is an input"),
        ("link.html", "is an input"),
        ("hard.html", "is an input"),
        ("./folder/../a.iim", "is an input"),
        ("folder", "is a directory"),
        ("/dev/null", "is not a regular file"),
        ("none/page.html", "No such file or directory"),
        ("other.html", "exists and was not written by this program; --force replaces it"),
    ]:
        for force in (["--force"] if "force" not in reason else NO_ARGUMENTS), NO_ARGUMENTS:
            assert (out, ran(folder, ["a.iim", "--html", out, *force])) == (
                out,
                (3, [f"iim-explain: {out}: {reason}"]),
            )
    # (standard input, too)
    with open(path, "rb") as given:
        assert ran(folder, ["-", "--html", "a.iim"], stdin=given) == (
            3,
            ["iim-explain: a.iim: is an input"],
        )
    assert (octets_of(path), octets_of(f"{folder}/other.html")) == (before, b"<!doctype html>\n")
    assert (
        ran(folder, ["a.iim", "--html", "other.html", "--force"]),
        octets_of(f"{folder}/other.html")[:15],
    ) == ((1, []), b"<!doctype html>")
    assert ran(folder, ["a.iim", "--html", "other.html"]) == (1, [])
    assert octets_of(f"{folder}/other.html").startswith(PAGE.rstrip()) is True


def test_keeps_the_old_page_if_the_new_one_fails(folder: str) -> None:
    write_file(folder, "a.iim", BAD)
    page = write_file(folder, "page.html", PAGE)
    too_large: Dict[str, Any] = {"preexec_fn": at_most(resource.RLIMIT_FSIZE, 4_096)}
    not_allowed: Dict[str, Any] = {"program": "as nobody"}
    for more, reason in (too_large, "File too large"), (not_allowed, "Permission denied"):
        os.chmod(folder, 0o755)
        assert ran(folder, ["a.iim", "--html", "page.html"], stdout=subprocess.DEVNULL, **more) == (
            3,
            [f"iim-explain: page.html: {reason}"],
        )
        assert (octets_of(page), sorted(os.listdir(folder))) == (
            PAGE,
            ["a.iim", "iim-explain", "page.html"],
        )
    # (failures before the page is written, and rejected paths)
    for status, words in (3, ["absent.iim"]), (2, [GOOD, "--envelope", "9"]):
        assert (ran(folder, [*words, "--html", "page.html"])[0], octets_of(page)) == (status, PAGE)


def test_reports_a_full_disk(folder: str) -> None:
    """Write a page to a full disk, if this user may mount one."""
    words = (
        'mount -t tmpfs -o size=64k none disk && cp page.html disk && "$0" iim-explain a.iim'
        " --all --html disk/page.html >/dev/null; echo $?; cat disk/page.html; ls disk"
    )
    write_file(
        folder,
        "a.iim",
        rules.packed(
            STORY_FIELDS,
            rules.object_of([b"X", b"1", b"4", b"N", b"0", b""], [b"a line of it " * 6] * 800, b""),
            9_000,
        ),
    )
    write_file(folder, "iim-explain", EXPLAIN.encode())
    write_file(folder, "page.html", PAGE)
    os.mkdir(f"{folder}/disk")
    if (
        not shutil.which("unshare")
        or subprocess.run(["unshare", "-rm", "true"], capture_output=True).returncode
    ):
        pytest.skip("this user may mount no disk")
    process = subprocess.run(
        ["unshare", "-rm", "sh", "-c", words, sys.executable],
        cwd=folder,
        env=unmeasured(),
        capture_output=True,
        text=True,
        timeout=SECONDS,
    )
    if "mount" in process.stderr:
        pytest.skip(process.stderr)
    assert (process.stdout, process.stderr) == (
        f"3\n{PAGE.decode()}page.html\n",
        "iim-explain: disk/page.html: No space left on device\n",
    )


def test_prints_a_line_when_ended_by_a_signal(folder: str) -> None:
    os.mkfifo(f"{folder}/fifo")
    for number, reason in (signal.SIGINT, "interrupted"), (signal.SIGTERM, "terminated"):
        for program, words, what in [
            ("iim-explain", ["-"], "iim-explain: standard input: "),
            ("iim-explain", ["fifo"], "iim-explain: fifo: "),
            ("module", NO_ARGUMENTS, "python3 -m iim: standard input: "),
            ("module", ["explain", "-"], "python3 -m iim explain: standard input: "),
        ]:
            process = started(folder, words, program, stdin=subprocess.PIPE)
            wait_until_blocked(process)
            process.send_signal(number)
            assert process.stderr
            errors = process.stderr.read().decode()
            assert (words, number, process.wait(SECONDS), errors) == (
                words,
                number,
                130,
                f"{what}{reason}\n",
            )
            process.communicate()


def test_ends_by_a_signal_with_an_unread_pipe(folder: str) -> None:
    # (a part of the output is in the pipe, and a part in a buffer, which Python would write at its
    # exit; or
    # the output is too long for that)
    for program, many in ("module", 25), ("iim-explain", 25), ("module", 490), ("iim-explain", 490):
        path = write_file(
            folder,
            "a.iim",
            rules.packed([*STORY_FIELDS, *([(2, 25, b"x" * 60)] * many)], STORY_OBJECT, 1_024),
        )
        what = f"python3 -m iim: {path}" if program == "module" else "iim-explain: standard output"
        words = [path] if program == "module" else [path, "--all"]
        process = started(folder, words, program)
        # (a pipe with a capacity of one page)
        assert process.stdout and process.stderr
        fcntl.fcntl(process.stdout, F_SETPIPE_SZ, 4_096)
        while fcntl.fcntl(process.stdout, F_GETPIPE_SZ) > unread(process.stdout):
            time.sleep(0.01)
        time.sleep(0.2)
        process.send_signal(signal.SIGINT)
        # (it does not wait for its reader when it ends)
        errors = process.stderr.read()
        assert (program, many, process.wait(SECONDS), errors) == (
            program,
            many,
            130,
            f"{what}: interrupted\n".encode(),
        )
        process.communicate()
