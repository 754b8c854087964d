"""The programs that are measured, and the time and memory of their runs."""
from __future__ import annotations

import glob
import os
import resource
import subprocess
import sys
import tempfile
from typing import List, Optional, Sequence, Tuple

from speed.shapes import TOP

HERE = os.path.dirname(os.path.realpath(__file__))
LIBRARY = f"{TOP}/bindings/out/libiim.a"


def command(named: Optional[str]) -> Tuple[str, str]:
    """Return the program that is measured, and its description.

    If none is named, it is the proved command of this repository.
    """
    if named:
        return os.path.abspath(named), "another build, which may not be proved"
    # (`./iimwire` is a script, which builds the program where it is not there or is of older
    # sources)
    subprocess.run([f"{TOP}/iimwire", "check"], stdin=subprocess.DEVNULL, check=True)
    return f"{TOP}/crates/iimwire/out/iimwire", "the proved command"


def compiled(folder: str, name: str, words: List[str]) -> Optional[str]:
    """Return a program that is compiled for the measurement, or None without its compiler."""
    try:
        subprocess.run([*words, "-o", f"{folder}/{name}"], check=True)
    except FileNotFoundError:
        print(f"{words[0]} is not there: {name} is not measured", file=sys.stderr)
        return None
    return f"{folder}/{name}"


def plain(folder: str, name: str) -> Optional[str]:
    """Compile the reader or the packer in plain Rust, for the same processor as the command."""
    words = [
        "rustc",
        "--edition",
        "2021",
        "-O",
        "-C",
        "codegen-units=1",
        "-C",
        "target-cpu=x86-64-v2",
        f"{HERE}/{name}.rs",
    ]
    return compiled(folder, name, words)


def best(folder: str) -> Optional[str]:
    """Compile the reader in C, for the same processor as the command."""
    words = [os.environ.get("CC", "cc"), "-O2", "-march=x86-64-v2", f"{HERE}/best.c"]
    return compiled(folder, "best", words)


def feeder(folder: str) -> Optional[str]:
    """Compile the program that feeds a file to the C library.

    Return None if the library is older than the sources.
    """
    sources = [f"{TOP}/crates.txt", *glob.glob(f"{TOP}/crates/*/src/**/*.rt", recursive=True)]
    if not os.path.exists(LIBRARY) or os.path.getmtime(LIBRARY) < max(
        map(os.path.getmtime, sources)
    ):
        print(
            "bindings/build has not made the library for C of these sources: "
            "iim_feed is not measured",
            file=sys.stderr,
        )
        return None
    return compiled(
        folder,
        "feed",
        [os.environ.get("CC", "cc"), "-O2", f"-I{TOP}/bindings/c", f"{HERE}/feed.c", LIBRARY],
    )


def words_of(program: Optional[str], name: str, path: str, *more: str) -> Optional[List[str]]:
    """Return the arguments that run a command of the program, or None if there is no program."""
    now = ["--now", "2024-03-01T12:00:00Z"] if name == "audit" else []
    return [program, name, path, *more, *now] if program else None


def of_package(expression: str, path: str, extension: str) -> List[str]:
    """Return the run of an expression of the Python package over a file.

    Without the extension module `extension` is "0", and otherwise empty.
    """
    environment = ["env", f"PYTHONPATH={TOP}/bindings/python/src", f"IIM_EXTENSION={extension}"]
    program = f"import iim\npath = {path!r}\n{expression}"
    return [*environment, sys.executable, "-c", program]


def printed(words: List[str]) -> Tuple[bytes, bytes]:
    """Return the standard output and standard error of a run."""
    ran = subprocess.run(words, capture_output=True, check=True)
    return ran.stdout, ran.stderr


def seconds(words: List[str]) -> float:
    """Return the processor time of a run."""
    before = resource.getrusage(resource.RUSAGE_CHILDREN)
    subprocess.run(words, stdout=subprocess.DEVNULL, stderr=subprocess.DEVNULL, check=True)
    after = resource.getrusage(resource.RUSAGE_CHILDREN)
    return after.ru_utime + after.ru_stime - before.ru_utime - before.ru_stime


def least(turns: int, runs: Sequence[Optional[List[str]]]) -> List[Optional[float]]:
    """Return the least processor time of each run. A turn runs each of them once.

    The result of a run `None` is `None`.
    """
    taken = [[seconds(words) if words else None for words in runs] for _ in range(turns)]
    return [
        None if each[0] is None else min(time for time in each if time is not None)
        for each in zip(*taken)
    ]


def peak(words: List[str]) -> int:
    """Return the greatest number of octets that a run had in memory.

    GNU time runs the program, since it is a small process: the count of a child that Python forks
    would begin with the memory of Python.
    """
    with tempfile.NamedTemporaryFile() as told:
        timed = ["/usr/bin/time", "-f", "%M", "-o", told.name, *words]
        subprocess.run(timed, stdout=subprocess.DEVNULL, stderr=subprocess.DEVNULL, check=True)
        return int(told.read()) * 1024


def processor() -> str:
    """Return the name of the processor."""
    with open("/proc/cpuinfo", encoding="utf-8") as file:
        names = [line.partition(":")[2].strip() for line in file if line.startswith("model name")]
    return names[0] if names else "an unknown processor"
