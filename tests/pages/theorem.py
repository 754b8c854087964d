"""The contract of the headline in docs/THEOREM.md, and the links to the definitions in it.

Both are generated from the source. All else on that page is written by hand.
"""
from __future__ import annotations

import re
from typing import Dict, List, Tuple

from pages import cited, definitions
from pages.items import TOP, text_of

PAGE = "docs/THEOREM.md"
SOURCE = f"{TOP}/crates/iim_round_trip/src/unpacking.rt"
# The most lines of the page beside what is generated.
MOST_LINES = 200
# What is generated on the page: what stands before it, the contract, what is between them, and the
# links.
SHOWN = re.compile(
    r"(^## The contract\n(?:(?!```|#).*\n)*```rust\n)((?:(?!```).*\n)*)(```\n\n)"
    r"((?:It cites.*\n(?:.+\n)*)?)",
    re.M,
)


def contract() -> str:
    """Return the signature and the contract of `unpack_packed`, without its body."""
    (found,) = re.findall(r"^pub fn unpack_packed.*?\n(?=\{\n)", text_of(SOURCE), re.M | re.S)
    return str(found)


def links() -> str:
    """Return the lines that link each name in the contract to its definition."""
    titles = definitions.headings(cited.believed(cited.HEADLINE))
    found = dict(cited.cites(cited.brings_in(text_of(SOURCE)), None, contract()))
    named = [
        f"[`{word}`](reference/definitions.md#{definitions.anchor(titles[source])})"
        for word, source in found.items()
    ]
    return "\n".join(definitions.wrapped(f"It cites {', '.join(named)}.")) + "\n"


def shown() -> Tuple[str, str]:
    """Return the contract and the links as the page shows them."""
    ((_, code, _, lines),) = SHOWN.findall(text_of(f"{TOP}/{PAGE}"))
    return code, lines


def by_hand() -> int:
    """Return the number of lines of the page that are written by hand."""
    generated: List[str] = [line for part in shown() for line in part.splitlines()]
    return len(text_of(f"{TOP}/{PAGE}").splitlines()) - len(generated)


def wanted() -> Dict[str, str]:
    """Return the page, with its text."""
    return {
        PAGE: SHOWN.sub(
            lambda found: found[1] + contract() + found[3] + links(),
            text_of(f"{TOP}/{PAGE}"),
            count=1,
        )
    }
