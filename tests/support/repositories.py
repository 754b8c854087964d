"""A repository with `./iimwire`, `./build`, two crates, and a substitute for `rt`."""
from __future__ import annotations

import os
import shutil
import subprocess
import time
from pathlib import Path
from typing import Any, Callable, Mapping, Optional

from support.running import SECONDS, TOP, Argument, Ran, as_streams, write_program

# Replaces `rt`: its program prints the source as it was when the build began, and the
# arguments. Files control it: `slow` and `paused` make it wait, `edit` changes the source, `wrong`
# lets it fail, and with `proved` both crates are proved anew. While `paused` exists, a crate is
# built once the file `continue` exists, which it removes, or after two minutes.
BUILDER = """#!/usr/bin/env bash
[ "$1" != version ] || { echo "some-kit logic dac8208d650f15bf"; exit; }
top=$(cd ../.. && pwd)
echo "$(basename "$PWD") $1" >>"$top/asked"
mkdir -p out/rlib
if [ -e "$top/paused" ]; then
  echo $$ >"$top/building"
  for _ in {1..2400}; do
    if rm "$top/continue" 2>/dev/null; then break; fi
    sleep 0.05
  done
fi
if [ "$1" = lib ]; then [ ! -e "$top/proved" ] || touch out/rlib/stamp; exit; fi
source=$(cat "$top"/crates/low/src/*.rt)
[ ! -e "$top/slow" ] || { echo $$ >"$top/building"; sleep 100; }
if [ -e "$top/edit" ]; then
  sleep 0.05
  cat "$top/edit" >"$top/crates/low/src/lib.rt"
  rm "$top/edit"
fi
if [ -e "$top/wrong" ]; then
  echo "low is not proved"
  echo "why" >&2
  echo "nothing is built"
  exit 1
fi
echo kept >../low/out/stamp
[ ! -e "$top/proved" ] || touch out/iimwire.stamp
printf '#!/bin/sh\\necho "%s: $*"\\n' "$source" >out/iimwire
chmod +x out/iimwire
"""
PROCESSORS = len(os.sched_getaffinity(0))
MINUTES = max(64 // PROCESSORS, 8)
BUILDING = "building the command: proves every function first; "
BUILDING += f"about {MINUTES} minutes on {PROCESSORS} processors\n"
BUILDS = BUILDING.encode()
# The longest that a signal may take to end a build, which would run longer.
PROMPT = 60
# What the gate leaves as the command.
BUILT_BY_GATE = '#!/bin/sh\necho "gate: $*"\n'


class Repository:
    """A repository in a directory."""

    def __init__(self, top: Path) -> None:
        """Make a repository in which nothing is built."""
        self.top = top
        for name in "tmp", "crates/iimwire/src", "crates/low/src":
            (top / name).mkdir(parents=True)
        for name in "iimwire", "build", ".ci/toolchain", "bindings/build":
            write_program(top / name, (TOP / name).read_text())
        write_program(top / "bin/rt", BUILDER)
        self.write("crates.txt", "low:\niimwire: low\n")
        self.write("HANDLES", "Handles allowed: none.\n")
        self.write("crates/iimwire/src/main.rt", "")
        self.write("crates/low/src/lib.rt", "one")

    def write(self, name: str, text: str = "") -> None:
        """Write a file, with the directories above it."""
        path = self.top / name
        path.parent.mkdir(parents=True, exist_ok=True)
        path.write_text(text)

    def remove(self, name: str) -> None:
        """Remove a file."""
        (self.top / name).unlink()

    def add_help(self) -> None:
        """Add the pages of help, and the source that defines the release."""
        shutil.copytree(TOP / "tests/help", self.top / "tests/help")
        name = "crates/iim_request/src/commands.rt"
        self.write(name, (TOP / name).read_text())

    def start(
        self, *arguments: Argument, more: Optional[Mapping[str, str]] = None, **streams: Any
    ) -> subprocess.Popen[bytes]:
        """Start a program of the repository, with additions to its environment."""
        path = f"{self.top}/bin:{os.environ['PATH']}"
        env = {**os.environ, "PATH": path, "TMPDIR": f"{self.top}/tmp", **(more or {})}
        options = as_streams({"stdin": subprocess.DEVNULL, **streams}, b"")
        return subprocess.Popen(arguments, env=env, **options)

    def run(self, program: str, *arguments: str) -> Ran:
        """Run a program of the repository."""
        with self.start(self.top / program, *arguments) as process:
            output, errors = process.communicate(timeout=SECONDS)
        return Ran(process.returncode, output, errors)

    def builds(self) -> int:
        """Return how often the command was built, each time after its library."""
        asked = self.top / "asked"
        lines = asked.read_text().splitlines() if asked.exists() else []
        assert lines == ["low lib", "iimwire run"] * (len(lines) // 2)
        return len(lines) // 2

    def leftovers(self) -> list[str]:
        """Return the names of the temporary files."""
        return os.listdir(self.top / "tmp")

    def expect(self, source: str, builds: int) -> None:
        """Check that a run prints this source, after this many builds, and leaves no files."""
        before = self.builds()
        got = self.run("iimwire", "story", "a b", "--x")
        errors = BUILDS if builds > before else b""
        assert got == (0, f"{source}: story a b --x\n".encode(), errors)
        assert (self.builds(), self.leftovers()) == (builds, [])

    def builder(self) -> str:
        """Wait until a crate is being built, and return the process that builds it."""
        path = self.top / "building"
        wait_until(lambda: path.exists() and path.stat().st_size > 0)
        return path.read_text().strip()


def is_running(process: str) -> bool:
    """Check whether a process exists and has not ended."""
    try:
        stat = Path(f"/proc/{process}/stat").read_text()
    except OSError:
        return False
    return stat.rpartition(")")[2].split()[0] != "Z"


def wait_until(holds: Callable[[], bool]) -> None:
    """Wait until a condition holds, however slow the machine is."""
    end = time.monotonic() + SECONDS
    while not holds():
        assert time.monotonic() < end, "the condition never held"
        time.sleep(0.05)
