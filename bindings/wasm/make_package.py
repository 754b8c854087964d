#!/usr/bin/env python3
"""Lay out the package for JavaScript.

  make_package.py IIM_WASM TO

The release, the layouts and the words come from the sources of the command, the C header and the
package iim.explain.
"""
from __future__ import annotations

import importlib
import json
import re
import shutil
import sys
from pathlib import Path
from typing import Any, List

HERE = Path(__file__).resolve().parent
TOP = HERE.parents[1]
sys.path.insert(0, str(HERE))
sys.dont_write_bytecode = True

declarations: Any = importlib.import_module("declarations")
tables: Any = importlib.import_module("tables")

RELEASE = TOP / "crates" / "iim_request" / "src" / "commands.rt"
FILES = ["index.mjs", "index.d.ts", "core.mjs", "errors.mjs", "receiver.mjs", "README.md"]


def release() -> str:
    """Return the number of the release, from the source of the command."""
    (number,) = re.findall(
        r'^const RELEASE: .* = "(\d+)";$', RELEASE.read_text(encoding="utf-8"), re.M
    )
    return str(number)


def manifest() -> str:
    """Return the package.json with the version of the release."""
    described = json.loads((HERE / "package" / "package.json").read_text(encoding="utf-8"))
    described["version"] = f"{release()}.0.0"
    return json.dumps(described, indent=2) + "\n"


def lay_out(wasm: Path, to: Path) -> None:
    """Write all files of the package to a directory."""
    (to / "explain").mkdir(parents=True)
    for name in FILES:
        shutil.copyfile(HERE / "package" / name, to / name)
    for path in sorted((HERE / "package" / "explain").glob("*.mjs")):
        shutil.copyfile(path, to / "explain" / path.name)
    header = (TOP / "bindings" / "c" / "iim.h").read_text(encoding="utf-8")
    (to / "layout.mjs").write_text(declarations.module(header), encoding="utf-8")
    (to / "explain" / "tables.mjs").write_text(tables.module(), encoding="utf-8")
    (to / "package.json").write_text(manifest(), encoding="utf-8")
    shutil.copyfile(wasm, to / "iim.wasm")
    for path in to.rglob("*"):
        path.chmod(0o755 if path.is_dir() else 0o644)


def main(arguments: List[str]) -> int:
    """Lay out the package, and return the status."""
    wasm, to = map(Path, arguments)
    lay_out(wasm, to)
    return 0


if __name__ == "__main__":
    sys.exit(main(sys.argv[1:]))
