"""Run programs with a library loaded before libc.

tests/writes.c counts writes, and tests/refuse.c fails allocations.
"""
from __future__ import annotations

import os
import shutil
import subprocess
import tempfile
from pathlib import Path
from typing import Any, Optional, Sequence, Tuple

from support.running import SECONDS, Argument, Ran, as_streams

TESTS = Path(__file__).resolve().parent.parent


def compiler() -> list[str]:
    """Return the toolchain's own compiler, or cc."""
    clang = Path(shutil.which("rt") or "rt").resolve().parent.parent / "toolchain/bin/clang"
    return [str(clang), "-fuse-ld=lld"] if clang.exists() else [os.environ.get("CC", "cc")]


def loaded(folder: Path, name: str) -> Path:
    """Compile tests/NAME.c to a shared library for `LD_PRELOAD`, and return its path."""
    library = Path(folder) / f"{name}.so"
    options = ["-O1", "-shared", "-fPIC", "-nostdlib", "-o", str(library)]
    subprocess.run([*compiler(), *options, f"{TESTS}/{name}.c"], check=True)
    return library


def run_counted(
    library: Path, arguments: Sequence[Argument], octets: bytes = b"", seconds: Optional[int] = None
) -> Tuple[Ran, bytes]:
    """Run a program, and return its result and a byte for each write.

    The byte is '1' for standard output, and '2' for standard error.
    """
    with tempfile.TemporaryFile() as writes:
        at = writes.fileno()
        env = {**os.environ, "LD_PRELOAD": str(library), "WRITES": str(at)}
        options: dict[str, Any] = {"timeout": seconds, "input": octets, "capture_output": True}
        ran = subprocess.run(arguments, env=env, pass_fds=[at], **options)
        writes.seek(0)
        return Ran(ran.returncode, ran.stdout, ran.stderr), writes.read()


def run_refused(
    library: Path, refused: str, arguments: Sequence[Argument], **streams: Any
) -> Tuple[Ran, bytes]:
    """Run a program while an allocation fails.

    `refused` is the number of the allocation that fails (0: none). If a '+' follows, all later
    allocations fail too. The result has a byte for each allocation, 'x' if it failed.
    """
    with tempfile.TemporaryFile() as requests:
        at = requests.fileno()
        variables = {"LD_PRELOAD": str(library), "REFUSE": refused, "REQUESTS": str(at)}
        options = as_streams({"stdin": subprocess.DEVNULL, **streams}, b"")
        env = {**os.environ, **variables}
        ran = subprocess.run(arguments, env=env, pass_fds=[at], timeout=SECONDS, **options)
        requests.seek(0)
        return Ran(ran.returncode, ran.stdout, ran.stderr), requests.read()
