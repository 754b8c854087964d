"""The pages that are generated from the sources, and the list of public items.

Each module of this directory with a function `wanted` generates pages.
"""
from __future__ import annotations

import importlib
from pathlib import Path
from typing import Dict, List

from pages import items, surface
from pages.items import TOP, text_of


def written() -> Dict[str, str]:
    """Return each generated page, by its path below the repository, with its text."""
    found: Dict[str, str] = {}
    for path in sorted(Path(__file__).parent.glob("*.py")):
        module = importlib.import_module(f"pages.{path.stem}")
        found.update(module.wanted() if hasattr(module, "wanted") else {})
    return found


def changed() -> Dict[str, str]:
    """Return the generated pages that are missing or have another text."""
    paths = {path: Path(TOP) / path for path in written()}
    texts = {path: text_of(str(at)) if at.is_file() else None for path, at in paths.items()}
    return {path: text for path, text in written().items() if texts[path] != text}


def write() -> List[str]:
    """Write the generated pages that changed, and return their paths."""
    found = changed()
    for path, text in found.items():
        (Path(TOP) / path).write_text(text, encoding="utf-8")
    return sorted(found)


def write_items() -> None:
    """Write the list of all public items."""
    Path(surface.LIST).write_text(surface.text(items.promising()), encoding="utf-8")
