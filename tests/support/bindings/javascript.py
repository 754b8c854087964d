"""Node, and the compilers that the tests of bindings/wasm run."""
from __future__ import annotations

import shutil
import subprocess
from pathlib import Path
from typing import List

import pytest
from support.bindings.paths import SAMPLES, SECONDS, TOP, environment

WASM = TOP / "bindings" / "wasm"


def require(program: str) -> str:
    """Return the path of a program, or skip the test if it is not installed."""
    found = shutil.which(program)
    if found is None:
        pytest.skip(f"{program} is not installed")
    return found


def node(folder: Path, *words: str) -> "subprocess.CompletedProcess[str]":
    """Run Node in a directory."""
    command: List[str] = [require("node"), *words]
    env = environment(SAMPLES=str(SAMPLES))
    return subprocess.run(
        command, cwd=folder, capture_output=True, text=True, timeout=SECONDS, env=env
    )


def compiled(folder: Path, source: Path, *words: str) -> Path:
    """Compile a program in C, and return its path."""
    program = folder / source.stem
    command = [require("cc"), "-std=gnu11", "-Wall", "-Wextra", *words, "-o", str(program)]
    ran = subprocess.run([*command, str(source)], capture_output=True, text=True)
    assert ran.returncode == 0, ran.stderr
    return program
