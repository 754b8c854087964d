"""Count what is the same in each run: instructions (by valgrind) and writes."""
from __future__ import annotations

import functools
import os
import re
import subprocess
import tempfile
from pathlib import Path
from typing import Dict, List, Tuple

from support import preloaded


def callgrind(words: List[str]) -> str:
    """Return the output of callgrind for a run."""
    with tempfile.TemporaryDirectory() as folder:
        out = os.path.join(folder, "out")
        subprocess.run(
            ["valgrind", "--tool=callgrind", f"--callgrind-out-file={out}", *words],
            stdout=subprocess.DEVNULL,
            stderr=subprocess.DEVNULL,
            check=True,
        )
        with open(out, encoding="utf-8", errors="replace") as file:
            return file.read()


def instructions(words: List[str]) -> int:
    """Return the number of instructions of a run."""
    found = re.search(r"^(?:totals|summary): (\d+)$", callgrind(words), re.M)
    assert found, "callgrind wrote no sum"
    return int(found[1])


# The committed instructions of `check` and `story` for each small shape, and how much more a build
# may need.
TABLE = Path(__file__).resolve().parent / "counts.txt"
MARGIN = 1.03
COMMANDS = "check", "story"


def of_input(command: str, name: str, octets: bytes) -> int:
    """Return the instructions of a run over these octets.

    Each path has the same length, since the instructions of the loader depend on it.
    """
    with tempfile.TemporaryDirectory() as folder:
        path = Path(folder, "stream.iim")
        path.write_bytes(octets)
        return instructions([command, name, str(path)])


@functools.lru_cache(maxsize=None)
def of_nothing(command: str, name: str) -> int:
    """Return the instructions of a run over no octets."""
    return of_input(command, name, b"")


def above_nothing(command: str, name: str, octets: bytes) -> int:
    """Return the instructions of a run over these octets, less those of a run over none."""
    return of_input(command, name, octets) - of_nothing(command, name)


def table() -> Dict[Tuple[str, str], int]:
    """Return the committed instructions of each shape and command."""
    rows = [line.split("\t") for line in TABLE.read_text(encoding="utf-8").splitlines()[1:]]
    return {(row[0], name): int(each) for row in rows for name, each in zip(COMMANDS, row[1:])}


def write_table(command: str, shapes: Dict[str, bytes]) -> None:
    """Count the instructions of each shape, and write the table."""
    lines = ["\t".join(["shape", *COMMANDS])]
    for shape, octets in shapes.items():
        counts = [above_nothing(command, name, octets) for name in COMMANDS]
        lines.append("\t".join([shape, *map(str, counts)]))
    TABLE.write_text("\n".join(lines) + "\n", encoding="utf-8")


def functions(words: List[str]) -> Dict[str, int]:
    """Return the instructions of each function in a run, without those of its callees."""
    names: Dict[str, str] = {}
    found: Dict[str, int] = {}
    function, is_call = "", False
    for line in callgrind(words).splitlines():
        named = re.match(r"(c?)fn=\((\d+)\)(?: (.*))?$", line)
        if named:
            if named[3]:
                names[named[2]] = named[3]
            if not named[1]:
                function = named[2]
        elif line.startswith("calls="):
            # The line after it has the instructions of what was called.
            is_call = True
        elif re.match(r"[+\-*0-9]", line):
            if not is_call:
                found[function] = found.get(function, 0) + int(line.split()[1])
            is_call = False
    return {names[function]: count for function, count in found.items()}


def writes(library: Path, words: List[str]) -> int:
    """Return the number of writes of a run to standard output and standard error."""
    (status, _, errors), counted = preloaded.run_counted(library, words)
    if status:
        raise subprocess.CalledProcessError(status, words, stderr=errors)
    return len(counted)
