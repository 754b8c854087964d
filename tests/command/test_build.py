"""`./build`: its progress, what it leaves as it is, and signals."""
from __future__ import annotations

import contextlib
import os
import re
import signal as signals
import time
from pathlib import Path
from typing import Callable

import pytest

from support.repositories import BUILDS, BUILT_BY_GATE, PROMPT, Repository, is_running, wait_until
from support.running import SECONDS, write_program

# The lines of progress while the first crate is built, and the second.
FIRST, SECOND = rb"0 of 2 proved, 1 running, \d\d:\d\d", rb"1 of 2 proved, 1 running, \d\d:\d\d"


@pytest.fixture()
def made(tmp_path: Path) -> Repository:
    """Return a repository in which nothing is built."""
    return Repository(tmp_path)


def read_progress(made: Repository, read: Callable[[], bytes]) -> bytes:
    """Read what a paused build prints, and let each crate be built once its progress is printed."""
    shown, end = b"", time.monotonic() + 60
    for pattern in FIRST, SECOND:
        while not re.search(pattern, shown):
            more = read()
            assert more and time.monotonic() < end, shown
            shown += more
        made.write("continue")
    return shown


def test_prints_progress_while_building(made: Repository) -> None:
    made.write("paused")
    words = [f"{made.top}/iimwire", "check"]
    with made.start(*words, more={"PROGRESS": "0.2"}) as process:
        assert process.stderr
        errors = read_progress(made, process.stderr.readline)
        output, rest = process.communicate(timeout=SECONDS)
    errors += rest
    assert (process.returncode, output) == (0, b"one: check\n")
    assert errors.startswith(BUILDS)
    # (no crate is running in the moment between two)
    form = rb"[012] of 2 proved, [01] running, \d\d:\d\d"
    assert all(re.fullmatch(form, line) for line in errors.splitlines()[1:])


def test_updates_progress_on_a_terminal(made: Repository) -> None:
    made.write("paused")
    made.write("proved")
    terminal, side = os.openpty()
    words = [f"{made.top}/iimwire", "check"]
    with made.start(*words, more={"PROGRESS": "0.2"}, stderr=side) as process:
        os.close(side)
        shown = read_progress(made, lambda: os.read(terminal, 4096))
        # (a terminal whose other side is closed fails to be read)
        with contextlib.suppress(OSError):
            while part := os.read(terminal, 4096):
                shown += part
        assert process.communicate(timeout=SECONDS)[0] == b"one: check\n"
    os.close(terminal)
    clear = rb"\r\x1b\[K"
    part = rb"(?:%s[012] of 2 proved, [01] running, \d\d:\d\d)" % clear
    first = rb"%s+%sproved: low\r\n" % (part, clear)
    second = rb"%s+(?:%s)?proved: iimwire\r\n%s*(?:%s)?" % (part, clear, part, clear)
    assert re.fullmatch(re.escape(BUILDS[:-1]) + rb"\r\n" + first + second, shown)


def test_keeps_what_the_gate_has_proved(made: Repository) -> None:
    (made.top / "crates/iimwire/out").mkdir()
    made.write("crates/low/specs/Low.antt")
    # (files that are written in this order must have times in this order)
    time.sleep(0.05)
    made.write("crates/low/out/rlib/low.rlib/format")
    write_program(made.top / "crates/iimwire/out/iimwire", BUILT_BY_GATE)
    assert made.run("build") == (0, b"", b"")
    assert made.builds() == 0
    # What is changed since then is proved, also a definition.
    made.write("crates/low/specs/Low.antt", "changed")
    assert made.run("build") == (0, b"", b"")
    assert made.builds() == 1


@pytest.mark.parametrize("signal, status", [("INT", 130), ("TERM", 143)])
def test_signal_ends_the_build(made: Repository, signal: str, status: int) -> None:
    # (without the wrapper, which ends a group of processes)
    made.write("paused")
    words = ["env", f"--default-signal={signal}", f"{made.top}/build"]
    with made.start(*words, start_new_session=True) as process:
        builder = made.builder()
        os.kill(process.pid, getattr(signals, f"SIG{signal}"))
        assert process.communicate(timeout=PROMPT) == (b"", b"")
        assert process.returncode == status
    assert made.leftovers() == []
    wait_until(lambda: not is_running(builder))
