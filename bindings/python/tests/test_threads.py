"""Threads can't corrupt the package."""
from __future__ import annotations

import copy
import io
import os
import pickle
import shutil
import sys
from pathlib import Path
from typing import Any, Callable, List, Tuple

import envelopes
import iim
import pytest
from envelopes import SMALLEST, STORY
from iim import _library
from support.bindings import scenes
from support.bindings.paths import PYTHON_TESTS, SOURCES, TOP, unmeasured
from support.bindings.running import run_text
from support.bindings.scenes import IN_USE, NOW, on_threads

SHARED = {
    **dict.fromkeys(["share_a_receiver", "share_an_auditor"], (0, "right True in use True\n", "")),
    "use_blindly": (0, "alive\n", ""),
}
ON_THREADS = (0, f"{scenes.count()} tests on {scenes.THREADS} threads\n", "")


def scene(name: str, **env: str) -> Tuple[int, str, str]:
    """Run a scene in a separate process, and return its status and its output."""
    more = unmeasured(**env)
    more["PYTHONPATH"] += os.pathsep + str(PYTHON_TESTS)
    words = [sys.executable, "-m", "support.bindings.scenes", name]
    status, output, errors = run_text(words, env=more)
    return status, output, errors[-3000:]


# (the scenes use all processors)
@pytest.mark.xdist_group("alone")
@pytest.mark.parametrize("name", SHARED)
def test_never_corrupts_a_shared_object(name: str) -> None:
    assert scene(name) == SHARED[name]


def test_loads_once_on_threads() -> None:
    assert scene("load_on_threads") == (0, "loaded\n", "")


def test_runs_the_suite_on_threads() -> None:
    assert scene("run_tests_on_threads") == ON_THREADS


def sanitizer() -> str:
    """Return the shared library of AddressSanitizer that a compiler here has."""
    if shutil.which("cc"):
        path = run_text(["cc", "-print-file-name=libasan.so"])[1].strip()
        if Path(path).is_absolute():
            return str(Path(path).resolve())
    pytest.skip("no compiler here has AddressSanitizer")


@pytest.mark.xdist_group("alone")
@pytest.mark.parametrize("name", [*SHARED, "run_tests_on_threads"])
def test_runs_under_a_sanitizer(name: str) -> None:
    # (Python allocates each object separately, so that overruns are detected)
    options = "detect_leaks=0:allocator_may_return_null=1"
    env = {"LD_PRELOAD": sanitizer(), "ASAN_OPTIONS": options, "PYTHONMALLOC": "malloc"}
    assert scene(name, **env) == SHARED.get(name, ON_THREADS)


def test_detects_an_overrun_under_the_sanitizer() -> None:
    env = {"ASAN_OPTIONS": "detect_leaks=0", "PYTHONMALLOC": "malloc"}
    status, _, errors = scene("write_past_the_end", LD_PRELOAD=sanitizer(), **env)
    assert status != 0 and "heap-buffer-overflow" in errors, f"{status}: {errors}"


def test_rejects_a_second_input_of_an_auditor() -> None:
    auditor = iim.Auditor(now=NOW)
    first = auditor.raw_blocks(io.BytesIO(SMALLEST * 3_000).readinto)
    rows = next(first)
    for other in auditor.raw_blocks(io.BytesIO(STORY).readinto), auditor.blocks(
        io.BytesIO(STORY).readinto
    ):
        assert str(pytest.raises(RuntimeError, next, other).value) == f"the Auditor {IN_USE}"
    rows += [row for block in first for row in block]
    assert [row[:2] for row in rows] == [(at * 114, 114) for at in range(3_000)]
    # (an input that is abandoned or rejected frees the auditor)
    given_up: Any = auditor.blocks(io.BytesIO(SMALLEST * 3_000).readinto)
    next(given_up)
    given_up.close()
    assert (
        str(
            pytest.raises(
                iim.TruncatedError, list, auditor.blocks(io.BytesIO(STORY[:90]).readinto)
            ).value
        )[:24]
        == "1 refused at octet 90 by"
    )
    assert [
        row.length for block in auditor.blocks(io.BytesIO(STORY).readinto) for row in block
    ] == [246]


def test_rejects_a_call_inside_a_call() -> None:
    auditor = iim.Auditor(now=NOW)
    faults: List[str] = []

    def fill(room: memoryview) -> int:
        faults.append(
            str(
                pytest.raises(
                    RuntimeError, list, auditor.blocks(io.BytesIO(SMALLEST).readinto)
                ).value
            )
        )
        return source.readinto(room)

    source = io.BytesIO(STORY)
    assert [row.length for block in auditor.blocks(fill) for row in block] == [246]
    assert faults == [f"the Auditor {IN_USE}"] * 2
    receiver = iim.Receiver()

    class Start(int):
        """An offset that feeds the receiver while it is compared."""

        def __ge__(self, other: int) -> bool:
            faults.append(str(pytest.raises(RuntimeError, receiver.feed, SMALLEST).value))
            return int(self) >= other

    assert (receiver.feed(b"--" + STORY, Start(2)).used, faults[2:]) == (
        246,
        [f"the Receiver {IN_USE}"],
    )
    # (no other code can use the receiver of the generator of `read`)
    given = iim.read(
        io.BytesIO(STORY + SMALLEST),
        on_text=lambda text: faults.append(str(pytest.raises(ValueError, next, given).value)),
    )
    assert ([envelope.length for envelope in given], faults[3:]) == (
        [246, 114],
        ["generator already executing"],
    )


def test_releases_an_object_after_an_error() -> None:
    receiver = iim.Receiver()
    for octets, start in ("text", 0), (STORY, 999), (STORY, None), (None, 0):
        pytest.raises((TypeError, ValueError), receiver.feed, octets, start)
    pytest.raises(TypeError, receiver.tries, "text")
    assert receiver.feed(STORY).used == 246
    pytest.raises(iim.RefusedError, receiver.feed, b"\x1d")
    assert pytest.raises(iim.RefusedError, lambda: receiver.current_position()).value.cause == 61


def test_rejects_copies_and_pickles() -> None:
    ways: List[Callable[[object], object]] = [copy.copy, copy.deepcopy, pickle.dumps]
    for each in iim.Receiver(), iim.Auditor(now=NOW):
        for way in ways:
            assert "can't be copied or pickled" in str(
                pytest.raises(TypeError, way, each).value
            ), str(way)


def test_ignores_wrong_lengths() -> None:
    class Longer(bytes):
        """Bytes that return a wrong length."""

        def __len__(self) -> int:
            return 1 << 40

    text = iim.script(envelopes.STORY_FIELDS, envelopes.STORY_HEAD, envelopes.STORY_LINES)
    assert (
        iim.check(Longer(STORY)),
        iim.Receiver().feed(Longer(STORY)).used,
        iim.pack(Longer(text)),
    ) == (246, 246, STORY)
    assert (iim.admits(2, 105, Longer(b"a")), iim.Receiver().try_bytes(Longer(STORY))) == (
        True,
        (246, True),
    )
    receiver = iim.Receiver()
    receiver.feed(STORY[:100])
    assert iim.Receiver.resume(Longer(receiver.current_ticket()), 100).feed(STORY[100:]).used == 146
    envelope = next(iim.read(io.BytesIO(STORY)))
    assert iim.Envelope(Longer(envelope._ticket), 1, 0, 246, None).header == envelope.header
    # (at most as many bytes as the buffer has)
    auditor = iim.Auditor(now=NOW)
    for count in iim.BLOCK + 1, 1 << 40, -1:
        assert str(count) in str(
            pytest.raises(ValueError, list, auditor.blocks(lambda room: count)).value
        ), f"{count} octets"
    assert list(auditor.blocks(lambda room: 0)) == []


def test_lends_its_block_only_during_a_call() -> None:
    auditor, source = iim.Auditor(now=NOW), io.BytesIO(STORY)
    kept: List[memoryview] = []

    def fill(room: memoryview) -> int:
        kept.append(room)
        return source.readinto(room)

    assert [row.length for block in auditor.blocks(fill) for row in block] == [246]
    for room in kept:
        pytest.raises(ValueError, room.__setitem__, 0, 0)


def test_reads_one_envelope_on_threads() -> None:
    names = "fields", "headline", "bylines", "header", "sizes", "id", "trailer"
    want = next(iim.read(io.BytesIO(STORY)))
    for _ in range(50):
        envelope = next(iim.read(io.BytesIO(STORY)))
        for got in on_threads(lambda _: [getattr(envelope, name) for name in names], range(8)):
            assert got == [getattr(want, name) for name in names]
        refusal = pytest.raises(iim.RefusedError, list, iim.read(io.BytesIO(STORY[:200]))).value
        for known in on_threads(lambda _: (refusal.id, len(refusal.datasets)), range(8)):
            assert known == ((b"TST", b"00000002", b"20240301"), 16)


def library_in(folder: str) -> str:
    """Return the path of the library that the package in a directory loads, or `none`."""
    removed = "IIM_LIBRARY", "LD_LIBRARY_PATH"
    env = {name: value for name, value in os.environ.items() if name not in removed}
    words = [sys.executable, "-c", "from iim import _library; print(_library.load()._name)"]
    status, output, errors = run_text(words, cwd=folder, env={**env, "PYTHONPATH": folder})
    if status == 0:
        return output.strip()
    return "none" if "ImportError" in errors else errors


def test_loads_only_the_library_of_a_clone(tmp_path: Path) -> None:
    library = _library.load()._name
    # (a directory `out` beside an installed package, and beside a directory named as in a clone)
    installed, clone = tmp_path / "dist-packages", tmp_path / "lib" / "python" / "src"
    ignored = shutil.ignore_patterns("__pycache__")
    for folder, out in (installed, installed / "out"), (clone, tmp_path / "lib" / "out"):
        shutil.copytree(SOURCES / "iim", folder / "iim", ignore=ignored)
        out.mkdir(parents=True)
        shutil.copy(library, out / "libiim.so")
    shutil.copytree(installed / "out", tmp_path / "out")
    assert [library_in(str(each)) for each in (installed, clone)] == ["none", "none"]
    # (the library of a clone)
    (tmp_path / "lib" / "c").mkdir()
    for name in "build", "c/iim.h":
        shutil.copy(TOP / "bindings" / name, tmp_path / "lib" / name)
    assert library_in(str(clone)) == str(tmp_path.resolve() / "lib" / "out" / "libiim.so")
    # (and a library beside the package, in any directory)
    shutil.copy(library, installed / "iim" / "libiim.so")
    assert library_in(str(installed)) == str(installed.resolve() / "iim" / "libiim.so")
