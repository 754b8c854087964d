"""Runs programs as their users do, and returns the status, the output and the errors."""
from __future__ import annotations

import dataclasses
import os
import select
import socket
import subprocess
import sys
import tempfile
import time
from pathlib import Path
from typing import IO, Any, Mapping, NamedTuple, Optional, Sequence, Union

TOP = Path(__file__).resolve().parent.parent.parent
# The longest that one run of a program may take, and the longest wait for its output.
SECONDS = 300
Argument = Union[str, bytes, "os.PathLike[str]", "os.PathLike[bytes]"]


class Ran(NamedTuple):
    """What a run returned: its status, its output and its errors.

    A stream that was given to the run is empty here.
    """

    status: int
    output: bytes
    errors: bytes


def as_streams(streams: Mapping[str, Any], octets: bytes) -> dict[str, Any]:
    """Return options of `subprocess.run` with pipes for the streams that are not given."""
    options: dict[str, Any] = {"stdout": subprocess.PIPE, "stderr": subprocess.PIPE, **streams}
    return options if "stdin" in options else {**options, "input": octets}


# Runs its arguments with a limit on the size of files: a write past the limit is short, and the
# next one fails.
LIMITED = """
import os, resource, signal, sys
signal.signal(signal.SIGXFSZ, signal.SIG_IGN)
resource.setrlimit(resource.RLIMIT_FSIZE, (int(sys.argv[1]),) * 2)
os.execv(sys.argv[2], sys.argv[2:])
"""


@dataclasses.dataclass(frozen=True)
class Command:
    """A built program."""

    path: Path

    def __call__(
        self, arguments: Sequence[Argument] = (), octets: bytes = b"", **streams: Any
    ) -> Ran:
        """Run the program on these arguments and bytes of standard input."""
        options = as_streams(streams, octets)
        ran = subprocess.run([self.path, *arguments], timeout=SECONDS, **options)
        return Ran(ran.returncode, ran.stdout or b"", ran.stderr or b"")

    def start(self, *arguments: Argument, **streams: Any) -> subprocess.Popen[bytes]:
        """Start the program with a pipe as its standard input."""
        return subprocess.Popen([self.path, *arguments], stdin=subprocess.PIPE, **streams)

    def until_read_fails(self, arguments: Sequence[Argument], octets: bytes) -> Ran:
        """Run the program on a standard input that returns these bytes and then fails."""
        reader, writer = os.pipe()
        try:
            os.set_blocking(reader, False)
            os.write(writer, octets)
            return self(arguments, stdin=reader)
        finally:
            os.close(reader)
            os.close(writer)

    def into_full_file(
        self,
        capacity: int,
        arguments: Sequence[Argument],
        octets: bytes = b"",
        full: str = "stdout",
        stdin: Optional[int] = None,
    ) -> Ran:
        """Run the program with a file of this capacity as its output, or as its errors (`full`)."""
        python = [sys.executable, "-I", "-S", "-c", LIMITED, str(capacity)]
        limited: list[Argument] = [*python, self.path, *arguments]
        with tempfile.TemporaryFile() as to:
            given: dict[str, Any] = {full: to} if stdin is None else {full: to, "stdin": stdin}
            ran = subprocess.run(limited, timeout=SECONDS, **as_streams(given, octets))
            to.seek(0)
            written = to.read()
        if full == "stdout":
            return Ran(ran.returncode, written, ran.stderr)
        return Ran(ran.returncode, ran.stdout, written)


def write(path: Path, octets: bytes) -> Path:
    """Write a file, and return its path."""
    path.write_bytes(octets)
    return path


def write_program(path: Path, script: str) -> Path:
    """Write an executable script, with the directories above it, and return its path."""
    path.parent.mkdir(parents=True, exist_ok=True)
    # (never through a link, which may be one to a built program)
    path.unlink(missing_ok=True)
    path.write_text(script)
    path.chmod(0o755)
    return path


def in_shell(run: Command, folder: Path, script: str, options: str = "") -> Ran:
    """Run a script of bash in a directory, with the program as `iimwire` on the path."""
    programs = folder / "bin"
    programs.mkdir(exist_ok=True)
    if not os.path.lexists(programs / "iimwire"):
        (programs / "iimwire").symlink_to(run.path)
    env = {**os.environ, "PATH": f"{programs}:{os.environ['PATH']}", "LC_ALL": "C"}
    arguments = ["bash", "-c", f"{options}{script}"]
    streams = as_streams({"stdin": subprocess.DEVNULL}, b"")
    ran = subprocess.run(arguments, cwd=folder, env=env, timeout=SECONDS, **streams)
    return Ran(ran.returncode, ran.stdout, ran.stderr)


def in_pipe(run: Command, folder: Path, script: str) -> Ran:
    """Run a script of bash in which a pipe has the status of its first failure."""
    return in_shell(run, folder, script, "set -o pipefail; ")


def read_in_time(stream: Union[IO[bytes], socket.socket, None], count: int) -> bytes:
    """Read this many bytes, or those that were received within a minute."""
    assert stream is not None
    got, end = b"", time.monotonic() + 60
    while len(got) < count and select.select([stream], [], [], max(0, end - time.monotonic()))[0]:
        chunk = os.read(stream.fileno(), count - len(got))
        if not chunk:
            break
        got += chunk
    return got


def usage_error(run: Command, arguments: Sequence[Argument], naming: bytes = b"iimwire") -> bytes:
    """Check that arguments are a usage error that names something, and return the errors."""
    ran = run(arguments, b"no envelope")
    assert (ran.status, ran.output) == (2, b""), arguments
    assert ran.errors.endswith(b"\n") and naming in ran.errors, arguments
    return ran.errors
