"""Check that each cause is in one heading of docs/reference/refusals.md.

Below the heading are the layer, the contracts, and what shows them.
"""
from __future__ import annotations

import re
from typing import Iterator, List, Tuple

from pages import causes
from pages.items import TOP, text_of

PAGE = "docs/reference/refusals.md"
ENTRIES = ["Contract", "Shown by"]


def parts() -> Iterator[Tuple[List[Tuple[int, str]], List[Tuple[str, str]]]]:
    """Yield the parts of the page: the causes in the heading, with their names, and the entries."""
    for part in text_of(f"{TOP}/{PAGE}").split("\n## ")[1:]:
        heading, _, body = part.partition("\n")
        named = [(int(number), name) for number, name in re.findall(r"(\d+) `(\w+)`", heading)]
        entries = re.findall(r"^- \*\*([\w ]+)\*\*: ((?:.|\n  )+)", body, re.M)
        yield named, [(key, " ".join(text.split())) for key, text in entries]


def faults() -> List[str]:
    """Return what is wrong with the page.

    A cause may be missing, unknown, named twice or in another layer, or entries may be missing.
    """
    known = {(cause.number, cause.name): cause.entries.get("Layer") for cause in causes.causes()}
    found = [each for named, _ in parts() for each in named]
    wrong = [f"{number} {name} is missing" for number, name in known if (number, name) not in found]
    wrong += [
        f"{number} {name} is unknown, or named twice"
        for number, name in found
        if found.count((number, name)) > 1 or (number, name) not in known
    ]
    for named, entries in parts():
        layers = list(dict.fromkeys(known[each] for each in named if known.get(each)))
        layer = [("Layer", layers[0])] if layers else []
        if entries[: len(layer)] != layer or len(layers) > 1:
            wrong.append(f"{named} have the layer {layers}, and not {entries[:1]}")
        if [key for key, _ in entries[len(layer) :]] != ENTRIES:
            wrong.append(f"{named} have the entries {[key for key, _ in entries]}")
    return wrong
