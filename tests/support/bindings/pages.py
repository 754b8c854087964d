"""Programs and tables of the pages that users read."""
from __future__ import annotations

import functools
import re
from typing import Dict, List, Optional, Tuple

from support.bindings.paths import TOP
from support.bindings.running import text_of


@functools.lru_cache(maxsize=None)
def tables() -> Dict[Tuple[int, int], Tuple[str, bool]]:
    """Return the rows of format.md by numbers: the name, and whether the dataset repeats."""
    row = r"^\| (\d+):(\d+) \| ([^|]+) \| [^|]+ \| [^|]+ \| [^|]+ \| (yes|no) \|$"
    rows = re.findall(row, text_of(TOP / "docs" / "reference" / "format.md"), re.M)
    return {
        (int(record), int(number)): (name, many == "yes") for record, number, name, many in rows
    }


def name_in_tables(record: int, number: int) -> Optional[str]:
    """Return the name of a dataset in docs/reference/format.md, or `None`."""
    name, _ = tables().get((record, number), (None, False))
    return name


@functools.lru_cache(maxsize=None)
def blocks(page: str) -> List[Tuple[str, str]]:
    """Return the programs and outputs of a page, in order: the language, if any, and the text."""
    return re.findall(r"^```(\w*)\n(.*?)^```$", text_of(TOP / page), re.M | re.S)


def block(guide: str, language: str, words: str) -> Tuple[str, str]:
    """Return the only block of a guide that has this language and these words, and its output.

    The output is the first block of no language or of JSON after it, and empty if there is none.
    """
    found = blocks(f"docs/guide/{guide}.md")
    matching = [at for at, (name, text) in enumerate(found) if name == language and words in text]
    (at,) = matching
    outputs = (text for name, text in found[at:] if name in ("", "json"))
    return found[at][1], next(outputs, "")
