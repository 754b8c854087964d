"""The C program c/test.c: how it is built and run, and what it prints."""
from __future__ import annotations

import functools
import io
import os
import re
import shutil
import subprocess
from concurrent.futures import ThreadPoolExecutor
from pathlib import Path
from typing import Any, Dict, Iterator, List, Sequence, Tuple

import rules
from support.bindings.paths import HEADER, SAMPLES, TOP
from support.bindings.running import Name, run, text_of

HERE = TOP / "bindings" / "c"
# What is compiled together with c/test.c.
PARTS = sorted(map(str, HERE.glob("test_*.c")))
STRICT = ["-std=c11", "-O1", "-g", "-Wall", "-Wextra", "-Werror"]
# Lets allocations fail, and observes how the library moves bytes.
REFUSING = [f"-Wl,--wrap={name}" for name in ("malloc", "realloc", "free", "memmove")]
SANITIZERS = ["-fsanitize=address,undefined", "-fno-sanitize-recover=all"]
BUFFERS = [
    SAMPLES / name
    for name in ("smallest.iim", "story.iim", "smallest.script", "smallest.iim", "release.iim")
]
ALL = sorted(map(str, [*SAMPLES.glob("*.iim"), *SAMPLES.glob("damaged/*.iim")]))
# The statuses of the header, by name.
STATUSES: Dict[str, str] = dict(re.findall(r"IIM_(\w+) = (\d+)", text_of(HEADER)))
DONE, REFUSED, TRUNCATED = (int(STATUSES[name]) for name in ("DONE", "REFUSED", "TRUNCATED"))
# Sizes of chunks, from the first to the last of each pair.
SIZES = (1, 64), (4096, 4096)
# What the program prints for a file and each size, in this order.
PRINTED = "check", "show", "story"
# The members of an `iim_answer`.
Answer = Tuple[int, ...]
# A size of chunks, the status, and the output of each command.
Sized = Tuple[int, int, Dict[str, bytes]]

PROBE = """
#include <stdlib.h>
int main(int n, char **w) { char *at = malloc(1); at[n] = w[0][0]; return n > 1 && at[n - 2] == 0; }
"""


def has_sanitizers(compiler: str, folder: Path) -> bool:
    """Check whether a compiler has the sanitizers, and finds a store behind a buffer."""
    if shutil.which(compiler) is None:
        return False
    source = folder / f"probe_{compiler}_{os.getpid()}.c"
    source.write_text(PROBE, encoding="utf-8")
    probe = source.with_suffix("")
    if run([compiler, *SANITIZERS, "-o", probe, source])[0] != 0:
        return False
    return b"AddressSanitizer: heap-buffer-overflow" in run([probe])[2]


def octets_of_sample(name: str) -> bytes:
    """Return the bytes of a sample."""
    return (SAMPLES / name).read_bytes()


def batches(parts: Sequence[bytes]) -> bytes:
    """Return the input of the program for several inputs of the library."""
    return b"".join(len(part).to_bytes(4, "little") + part for part in parts)


def answers(program: Path, how: str, limits: Sequence[int], parts: Sequence[bytes]) -> List[Answer]:
    """Return the members of the result for each part, in the order of `iim_answer`."""
    status, out, errors = run([program, how, *map(str, limits)], batches(parts))
    assert (status, errors) == (0, b"")
    return [tuple(map(int, line.split())) for line in out.split(b"\n")[:-1]]


def by_rules(read: rules.Envelope) -> Answer:
    """Return the same result from the rules."""
    if read.is_done:
        return DONE, 0, 0, 0, 0, read.at, read.at, 0, 0
    text = str(read.refusal or read.end())
    form = r"refused at octet (\d+) by layer (\w+) on (\d+):(\d+), cause (\d+) \w+"
    found = re.fullmatch(form, text)
    assert found, text
    octet, layer, record, dataset, cause = found.groups()
    status = REFUSED if read.refusal else TRUNCATED
    numbers = int(cause), int(record), int(dataset), int(octet)
    return status, rules.LAYERS.index(layer) + 1, *numbers, 0, 0, 0


def expect_answers(
    program: Path, parts: Sequence[bytes], want: List[Answer], asked: Tuple[int, int] = (0, 0)
) -> None:
    """Check the results of `iim_check` and `iim_feed` against these."""
    assert answers(program, "check", asked, parts) == want
    assert answers(program, "feed", asked, parts) == want


def expect_rules(
    program: Path,
    parts: Sequence[bytes],
    limits: Tuple[int, int] = rules.LIMITS,
    asked: Tuple[int, int] = (0, 0),
) -> None:
    """Check the results of `iim_check` and `iim_feed` against the rules."""
    wanted = [by_rules(rules.read(part, limits)) for part in parts]
    expect_answers(program, parts, wanted, asked)


def by_each_size(
    answer: Tuple[int, bytes, bytes], first: int, last: int
) -> Tuple[int, bytes, bytes]:
    """Return the output of the program if chunks of each size have this result."""
    status, out, errors = answer
    sizes = range(first, last + 1)
    return status, b"".join(out + b"\x1e%d\n" % size for size in sizes), errors * len(sizes)


def each_size(octets: bytes) -> Iterator[Sized]:
    """Yield for each size of chunks the size, the status and the output of each command."""
    printed = io.BytesIO(octets)
    while line := printed.readline():
        size, status, *counts = map(int, line.split())
        yield size, status, dict(zip(PRINTED, map(printed.read, counts), strict=True))
    assert printed.tell() == len(octets)


def printed_of(program: Path, path: str) -> List[Sized]:
    """Return what the program prints for a file, size by size of the chunks."""
    found: List[Sized] = []
    for first, last in SIZES:
        status, out, errors = run([program, "streams", str(first), str(last), path])
        assert (path, status, errors) == (path, 0, b"")
        found += each_size(out)
    return found


@functools.lru_cache(maxsize=None)
def streams(program: Path) -> Dict[str, List[Sized]]:
    """Run a build of the program on each sample, in parallel, and return what it prints."""
    with ThreadPoolExecutor(os.cpu_count()) as pool:
        return dict(zip(ALL, pool.map(lambda path: printed_of(program, path), ALL), strict=True))


def lines_of(program: Path, *words: Name, octets: bytes = b"") -> List[str]:
    """Return the lines that the program prints."""
    status, out, errors = run([program, *words], octets)
    assert (status, errors) == (0, b"")
    return out.decode().split("\n")[:-1]


def run_signal(words: Sequence[Name], **more: Any) -> int:
    """Return the status of a program, negative if a signal ended it."""
    return subprocess.run(words, capture_output=True, timeout=120, **more).returncode
