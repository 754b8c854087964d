"""Write the table of bindings/python/src/iim/explain/causes.py from docs/reference/causes.md.

It has the likely reason of each cause of an envelope, and what to do.

All else in that file is written by hand.
"""
from __future__ import annotations

import re
import textwrap
from typing import Dict, Iterator, List, Tuple

from pages import causes
from pages.items import TOP, text_of

PAGE = "bindings/python/src/iim/explain/causes.py"
# What stands around the entries.
HEAD, FOOT = "CAUSES: Dict[int, Cause] = {\n", "}\n# fmt: on\n"
# The columns of a line, without its quotation marks and what follows them.
WIDTH = 96
INDENT = " " * 8


def reasons() -> Iterator[Tuple[int, str, str]]:
    """Yield the number, the likely reason and the advice of each cause of an envelope."""
    for cause in causes.causes():
        if cause.section == causes.OF_ENVELOPES:
            yield cause.number, cause.entries["Likely reason"], cause.entries["What to do"]


def literal(text: str) -> List[str]:
    """Return a text as lines of Python."""
    parts = textwrap.wrap(text, WIDTH - len(INDENT), break_on_hyphens=False)
    words = [part + " " for part in parts[:-1]] + parts[-1:]
    return [INDENT + (repr(each) if re.search(r'["\\]', each) else f'"{each}"') for each in words]


def entry(number: int, reason: str, advice: str) -> List[str]:
    """Return the lines of a cause."""
    *lines, last = literal(reason)
    *more, end = literal(advice)
    return [f"    {number}: Cause(", *lines, f"{last},", *more, f"{end},", "    ),"]


def wanted() -> Dict[str, str]:
    """Return the file, with its text."""
    before, _, rest = text_of(f"{TOP}/{PAGE}").partition(HEAD)
    entries = "".join(f"{line}\n" for cause in reasons() for line in entry(*cause))
    return {PAGE: f"{before}{HEAD}{entries}{FOOT}{rest.partition(FOOT)[2]}"}
