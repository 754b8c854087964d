"""Builds of c/test.c and c/headline.c: plain, and under sanitizers with guard pages.

The library itself is not compiled with a sanitizer. Under the sanitizers each buffer that is passed
to it lies between pages that may not be touched (c/guard.h).
"""
from __future__ import annotations

import shutil
import subprocess
from pathlib import Path
from typing import Callable, List

import pytest
from support.bindings.harness import (
    BUFFERS,
    HERE,
    PARTS,
    REFUSING,
    SANITIZERS,
    STRICT,
    has_sanitizers,
)
from support.bindings.paths import BUILT
from support.bindings.running import Name

Build = Callable[[str, Callable[[Path], object]], Path]


@pytest.fixture(scope="session")
def compiler() -> str:
    """Return the C compiler, or skip the test."""
    found = shutil.which("cc")
    if found is None:
        pytest.skip("no C compiler is installed")
    return found


@pytest.fixture(scope="session")
def compiled(build_once: Build, library: Path) -> Callable[..., Path]:
    """Return a function that compiles a program once, and returns its path."""

    def compile_with(compiler: str, name: str, source: str, words: List[str]) -> Path:
        def make(path: Path) -> None:
            made = path.with_suffix(".made")
            command: List[Name] = [compiler, *STRICT, "-o", made, HERE / source, *words]
            ran = subprocess.run(command, capture_output=True, text=True)
            assert ran.returncode == 0, f"{command}\n{ran.stderr}"
            made.rename(path)

        return build_once(name, make)

    return compile_with


@pytest.fixture(scope="session")
def plain_program(compiled: Callable[..., Path], compiler: str) -> Path:
    """Return the path of c/test.c, compiled without a sanitizer."""
    words = [*PARTS, str(BUILT / "libiim.a"), *REFUSING]
    return compiled(compiler, "test", "test.c", words)


@pytest.fixture(scope="session")
def sanitizing_compiler(shared_folder: Path) -> str:
    """Return a compiler that has the sanitizers, or skip the test."""
    for name in "cc", "clang":
        if has_sanitizers(name, shared_folder):
            return name
    pytest.skip("no compiler here has the address and undefined-behaviour sanitizers")


@pytest.fixture(scope="session")
def sanitized_program(compiled: Callable[..., Path], sanitizing_compiler: str) -> Path:
    """Return the path of c/test.c, compiled with the sanitizers and with guard pages."""
    words = ["-DGUARDED", *SANITIZERS, *PARTS, str(BUILT / "libiim.a"), *REFUSING]
    return compiled(sanitizing_compiler, "test_sanitized", "test.c", words)


@pytest.fixture(scope="session", params=["plain", "sanitized"])
def program(request: pytest.FixtureRequest) -> Path:
    """Return the path of each build of c/test.c in turn."""
    path: Path = request.getfixturevalue(f"{request.param}_program")
    return path


@pytest.fixture(scope="session")
def headline(compiled: Callable[..., Path], compiler: str) -> Path:
    """Return the path of c/headline.c, linked with the static library."""
    return compiled(compiler, "headline", "headline.c", [str(BUILT / "libiim.a")])


@pytest.fixture(scope="session")
def buffers() -> List[str]:
    """Return the arguments with which c/test.c checks its buffers."""
    return ["buffers", *map(str, BUFFERS)]
