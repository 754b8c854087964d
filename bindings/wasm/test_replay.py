"""Calls of all functions, compared with the native library."""
from __future__ import annotations

import json
import subprocess
import sys
from pathlib import Path
from typing import Any, Callable, Dict, List

from support.bindings.javascript import WASM, node
from support.bindings.running import Name

CALLS = 220_000
# The functions that allocate memory.
ALLOCATING = {"iim_check", "iim_feed", "iim_end", "iim_next", "iim_audit", "iim_pack"}
ALLOCATING |= {"iim_pack_size", "iim_unpacker_open", "iim_unpacker_restore"}


def replayed(built: Path, native: Path, folder: Path, calls: int, seed: int) -> Dict[str, Any]:
    """Record calls of the native library, replay them, and return the report."""
    trace = folder / "trace"
    words: List[Name] = [
        sys.executable,
        WASM / "tests" / "trace.py",
        native,
        trace,
        str(calls),
        str(seed),
    ]
    subprocess.run(words, check=True, stdout=subprocess.DEVNULL)
    replay, layout = str(WASM / "tests" / "replay.mjs"), str(built / "package" / "layout.mjs")
    ran = node(folder, replay, layout, str(built / "iim.wasm"), str(trace))
    assert ran.returncode == 0, ran.stderr
    report: Dict[str, Any] = json.loads(ran.stdout)
    return report


def test_answers_as_the_native_library(
    built: Path, library: Path, tmp_path: Path, count_cases: Callable[[int], None]
) -> None:
    report = replayed(built, library, tmp_path, CALLS, seed=1)
    assert (report["differ"], report["bad"]) == (0, 0), report["differences"]
    assert report["calls"] >= CALLS and len(report["counts"]) == 32
    assert min(report["counts"].values()) >= 1
    rare = {name: count for name, count in report["counts"].items() if count < 30}
    assert set(rare) == {"iim_version"}, rare
    # (each request is refused in turn, for the functions that make one, and for no other)
    assert {name for name, count in report["refused"].items() if count} == ALLOCATING
    assert report["again"] > 2_000 and report["memory"] < 16_000_000
    count_cases(report["calls"])
