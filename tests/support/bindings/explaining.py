"""Explanations of files, and what they must contain."""
from __future__ import annotations

import contextlib
import fcntl
import functools
import html.parser
import os
import pty
import re
import select
import struct
import subprocess
import sys
import termios
from typing import Any, Dict, Iterable, List, Optional, Set, Tuple

import envelopes
import iim
import rules
from iim import _library
from iim.explain.case import Case
from iim.explain.text import Paint, lines
from support.bindings.paths import ARCHIVE, MODULE, NOW, SAMPLES, SECONDS, environment
from support.bindings.running import Name, run_text, samples, text_of

# One answer for all calls, since a receiver and a refusal for each would take longer than the call.
ANSWER, LIMITS = _library.Answer(), _library.Limits(*iim.WIRE)
BAD_DATE = envelopes.STORY.replace(b"20240301", b"20230229")
LINE = b"A line of the story that has some eighty octets, as those of the wire mostly have. "


class Held:
    """Bytes in memory with the interface of a `Source`."""

    def __init__(self, octets: bytes, name: str = "held.iim") -> None:
        self._octets, self.name, self.size = octets, name, len(octets)

    def take(self, at: int, count: int) -> bytes:
        """Return the bytes at an offset."""
        return self._octets[at : at + count]

    def read_into(self, at: int, buffer: memoryview) -> int:
        """Copy the bytes at an offset into a buffer, and return their number."""
        piece = self.take(at, len(buffer))
        buffer[: len(piece)] = piece
        return len(piece)


def case_of(
    octets: bytes,
    limits: iim.Limits = iim.WIRE,
    wanted: Optional[int] = None,
    name: str = "held.iim",
    shows_all: bool = False,
    encoding: Optional[str] = None,
) -> Case:
    """Return the explanation of an input."""
    held: Any = Held(octets, name)
    return Case(held, limits, wanted, shows_all=shows_all, encoding=encoding)


def printed_text(case: Case) -> str:
    """Return the text that is printed for a case."""
    return "\n".join(lines(case, Paint(False)))


def unwrapped(text: str) -> str:
    """Return a text with single spaces."""
    return re.sub(r"\s+", " ", text)


@functools.lru_cache(maxsize=None)
def explained_samples() -> Dict[str, Tuple[bytes, List[str]]]:
    """Return the bytes of each sample by its path below samples/, and its lines of `check`."""
    page = text_of(SAMPLES / "README.md")
    rows = re.findall(r"^\| `([\w/.]+\.iim)` \|.*\| (`\d.*`) \|$", page, re.M)
    found = {name: (samples()[name], re.findall("`(.*?)`", lines)) for name, lines in rows}
    assert len(found) > 35, f"{len(found)} samples"
    return found


def reach(octets: bytes) -> Tuple[int, bool]:
    """Return the number of valid bytes by `iim_check`, and whether they are an envelope."""
    _library.library.iim_check(LIMITS, octets, len(octets), ANSWER)
    status = ANSWER.status
    expected = _library.DONE, _library.REFUSED, _library.TRUNCATED
    assert status in expected, f"iim_check returned the status {status}"
    return ANSWER.octet, status == _library.DONE


def accepted_after(front: bytes) -> Set[int]:
    """Return the bytes that `iim_check` accepts after a prefix of an envelope."""
    found = set()
    for value in range(256):
        valid, is_whole = reach(front + bytes([value]))
        if valid > len(front) or is_whole:
            found.add(value)
    return found


def of_lines(count: int, subfile: int = 32_000) -> bytes:
    """Return an envelope with a story of `count` lines."""
    story = rules.object_of(envelopes.STORY_HEAD, [LINE] * count, b"")
    packed: bytes = rules.packed(envelopes.STORY_FIELDS, story, subfile)
    return packed


@functools.lru_cache(maxsize=None)
def longest_shown() -> bytes:
    """Return the longest envelope that a page shows completely."""
    return of_lines(1_150)


def iim_text(*words: Name, octets: bytes = b"", **env: str) -> Tuple[int, str, str]:
    """Run `python3 -m iim`, and return the status, the output and the errors."""
    program = [*MODULE, *words]
    options: Any = {"capture_output": True, "timeout": SECONDS, "env": environment(**env)}
    ran = subprocess.run(program, input=octets, **options)
    return ran.returncode, ran.stdout.decode(), ran.stderr.decode()


def on_a_terminal(words: Iterable[Name], columns: int = 80, **env: str) -> bytes:
    """Return what `python3 -m iim` prints on a terminal with `columns` columns."""
    ours, theirs = pty.openpty()
    fcntl.ioctl(theirs, termios.TIOCSWINSZ, struct.pack("4H", 24, columns, 0, 0))
    options: Any = {"stdout": theirs, "stderr": theirs, "stdin": subprocess.DEVNULL}
    parts = []
    with subprocess.Popen([*MODULE, *words], env=environment(**env), **options) as ran:
        os.close(theirs)
        with contextlib.suppress(OSError):
            while select.select([ours], [], [], SECONDS)[0] and (part := os.read(ours, 65_536)):
                parts.append(part)
        ran.wait(SECONDS)
    os.close(ours)
    return b"".join(parts)


class Tags(html.parser.HTMLParser):
    """Collect the elements of a page, each with its attributes."""

    def __init__(self) -> None:
        super().__init__()
        self.found: List[Tuple[str, Dict[str, Optional[str]]]] = []

    def handle_starttag(self, tag: str, attrs: List[Tuple[str, Optional[str]]]) -> None:
        """Collect an element."""
        self.found.append((tag, dict(attrs)))


def elements(page: str) -> List[Tuple[str, Dict[str, Any]]]:
    """Return the elements of a page, each with its attributes."""
    parser = Tags()
    parser.feed(page)
    return parser.found


def tags_of(page: str) -> Set[str]:
    """Return the names of the elements of a page."""
    return {tag for tag, _ in elements(page)}


def archive_text(*words: Name, python: str = sys.executable, **env: str) -> Tuple[int, str, str]:
    """Run iim-archive, and return the status, the output and the errors."""
    return run_text([python, *ARCHIVE[1:], *words], env=environment(**env))


def indexed(folder: Name, tree: Name = SAMPLES) -> str:
    """Return the index of a tree."""
    index = f"{folder}/tree.index"
    words = "--into", index, "--now", NOW, "--name", "*.iim", tree
    status, _, errors = archive_text(*words)
    assert (status in (0, 1), errors) == (True, "")
    return index
