"""Call the library from several threads by c/threads.c, under the tools that find races."""
from __future__ import annotations

import shutil
import subprocess
from pathlib import Path
from typing import Callable, List

import pytest
from support.bindings.paths import BUILT, SAMPLES
from support.bindings.running import Name, run, run_text

LINKED = ["-pthread", str(BUILT / "libiim.a")]
STREAM = SAMPLES / "stream.iim"
AGREE = "5 passed, 0 failed\n"
SANITIZER = "-fsanitize=thread"
HELGRIND: List[Name] = ["valgrind", "-q", "--tool=helgrind", "--error-exitcode=9"]

# Two threads write one variable, and nothing orders them.
PROBE = """
#include <pthread.h>
static int written;
static void *write_it(void *at) { written++; return at; }
int main(void) {
    pthread_t one;
    if (pthread_create(&one, NULL, write_it, NULL)) return 1;
    written++;
    return pthread_join(one, NULL);
}
"""


@pytest.fixture(scope="session", params=["gcc", "clang"])
def thread_sanitizer(request: pytest.FixtureRequest, shared_folder: Path) -> str:
    """Return a compiler that has ThreadSanitizer, or skip the test."""
    compiler: str = request.param
    if shutil.which(compiler) is None:
        pytest.skip(f"{compiler} is not installed")
    probe = shared_folder / f"probe_threads_{compiler}"
    words: List[Name] = [compiler, SANITIZER, "-pthread", "-x", "c", "-", "-o", probe]
    if subprocess.run(words, input=PROBE, capture_output=True, text=True).returncode:
        pytest.skip(f"{compiler} has no ThreadSanitizer")
    assert b"ThreadSanitizer: data race" in run([probe])[2]
    return compiler


@pytest.fixture(scope="session")
def sanitized_threads(compiled: Callable[..., Path], thread_sanitizer: str) -> Path:
    """Return the path of c/threads.c, compiled with ThreadSanitizer by each compiler in turn."""
    name = f"threads_sanitized_{thread_sanitizer}"
    return compiled(thread_sanitizer, name, "threads.c", [SANITIZER, *LINKED])


@pytest.fixture(scope="session")
def threads(compiled: Callable[..., Path], compiler: str) -> Path:
    """Return the path of c/threads.c, compiled without a sanitizer."""
    return compiled(compiler, "threads", "threads.c", LINKED)


def test_threads_find_the_same(threads: Path) -> None:
    assert run_text([threads, STREAM]) == (0, AGREE, "")


def test_threads_are_clean_under_thread_sanitizer(sanitized_threads: Path) -> None:
    assert run_text([sanitized_threads, STREAM]) == (0, AGREE, "")


def test_thread_sanitizer_finds_unordered_calls(sanitized_threads: Path) -> None:
    status, _, errors = run_text([sanitized_threads, STREAM, "unordered"])
    # (the status of the sanitizer, which reports and goes on)
    assert status == 66 and "ThreadSanitizer: data race" in errors


def test_threads_are_clean_under_helgrind(threads: Path) -> None:
    if shutil.which("valgrind") is None:
        pytest.skip("valgrind is not installed")
    assert run_text([*HELGRIND, threads, STREAM]) == (0, AGREE, "")


def test_helgrind_finds_unordered_calls(threads: Path) -> None:
    if shutil.which("valgrind") is None:
        pytest.skip("valgrind is not installed")
    status, _, errors = run_text([*HELGRIND, threads, STREAM, "unordered"])
    assert status == 9 and "Possible data race" in errors
