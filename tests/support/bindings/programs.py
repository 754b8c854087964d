"""Programs of the package under failures: closed files, limits, full disks, signals."""
from __future__ import annotations

import contextlib
import fcntl
import os
import resource
import signal
import struct
import subprocess
import sys
import termios
import time
from pathlib import Path
from typing import IO, Any, Callable, List, Optional, Sequence, Tuple

from support.bindings.paths import SAMPLES, environment, unmeasured
from support.bindings.running import Name, write_file

GOOD = str(SAMPLES / "story.iim")
DAMAGED = str(SAMPLES / "damaged" / "bad_value.iim")
SECONDS = 60
# The installed command.
EXPLAIN = "import sys\nfrom iim.program import main\nsys.exit(main(['explain', *sys.argv[1:]]))\n"
# The same without the rights of root, who can read any file. (Python's modules are imported
# before.)
AS_NOBODY = """
import locale, os, sys, iim, iim.explain.program, iim.explain.page, iim.program
iim.row(1, 0)
if os.getuid() == 0:
    os.setgroups([])
    os.setgid(65534)
    os.setuid(65534)
sys.exit(iim.program.main(['explain', *sys.argv[1:]]))
"""
SCRIPTS = {"iim-explain": EXPLAIN, "as nobody": AS_NOBODY}
# The commands of fcntl that return and set the capacity of a pipe (Python has names for them from
# 3.10 on).
F_SETPIPE_SZ, F_GETPIPE_SZ = 1031, 1032
# Where a process sleeps that waits for a pipe or for the other end of a FIFO.
PIPES = {"pipe_read", "pipe_wait", "pipe_write", "wait_for_partner", "fifo_open"}
PIPES |= {"anon_pipe_read", "anon_pipe_write"}
Process = subprocess.Popen


def started(
    folder: Name, words: Sequence[str], program: str = "iim-explain", **more: Any
) -> "Process[bytes]":
    """Start a program with its output on pipes."""
    text = SCRIPTS.get(program)
    script = [write_file(folder, "iim-explain", text.encode())] if text else ["-m", "iim"]
    options: Any = {"stdin": subprocess.DEVNULL, "stdout": subprocess.PIPE}
    options.update(stderr=subprocess.PIPE, cwd=folder, env=environment())
    prepare = more.pop("preexec_fn", None)
    if prepare is not None or program == "as nobody":
        options["env"] = unmeasured()

    def begin() -> None:
        # (a background job of a shell ignores SIGINT, and so would the program that it starts)
        signal.signal(signal.SIGINT, signal.SIG_DFL)
        if prepare is not None:
            prepare()

    options.update(more, preexec_fn=begin)
    return subprocess.Popen([sys.executable, *script, *words], **options)


def ended(process: "Process[bytes]", octets: Optional[bytes] = None) -> Tuple[int, List[str]]:
    """Return the status and the lines of standard error of a program."""
    errors = process.communicate(octets, timeout=SECONDS)[1]
    return process.returncode, (errors or b"").decode().splitlines()


def ran(
    folder: Name, words: Sequence[str], octets: Optional[bytes] = None, **more: Any
) -> Tuple[int, List[str]]:
    """Run a program, and return its status and its lines of standard error."""
    return ended(started(folder, words, **more), octets)


def without(*numbers: int) -> Callable[[], object]:
    """Return a function that closes standard files in the child."""

    def close() -> None:
        for number in numbers:
            os.close(number)

    return close


def at_most(kind: int, most: int) -> Callable[[], object]:
    """Return a function that sets a limit in the child."""
    return lambda: resource.setrlimit(kind, (most, most))


def full() -> IO[bytes]:
    """Open a file that takes no byte."""
    return open("/dev/full", "wb")


def wait_until_blocked(process: "Process[bytes]") -> None:
    """Wait until a process waits for its input, or for its reader."""
    for _ in range(600):
        is_asleep = False
        with contextlib.suppress(OSError):
            where = Path(f"/proc/{process.pid}/wchan").read_text(encoding="utf-8")
            if where in PIPES or process.poll() is not None:
                return
            state = Path(f"/proc/{process.pid}/stat").read_text(encoding="utf-8")
            is_asleep = state.rpartition(")")[2].split()[0] == "S"
        time.sleep(0.3 if is_asleep else 0.05)
        if is_asleep:
            return
    raise AssertionError("it doesn't wait")


def unread(pipe: IO[bytes]) -> int:
    """Return the number of unread bytes in a pipe."""
    count: int = struct.unpack("i", fcntl.ioctl(pipe, termios.FIONREAD, bytes(4)))[0]
    return count
