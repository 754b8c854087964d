"""Which crates are proved: all, or those of which `rt ci` has said so by now, beside which wrong
bodies are judged.
"""
from __future__ import annotations

import os
import re
from typing import Optional, Set

PROVED = re.compile(r"^rt: (\w+) (?:proved$|is kept: )", re.M)
# Checks beside those of `rt ci`, at the most: they are for the processors that it leaves idle.
BESIDE = 3


class AllProved:
    """Every crate is proved."""

    SECONDS: Optional[int] = None
    ended = True

    def look(self) -> None:
        """Nothing more comes."""

    def has(self, crate: str) -> bool:
        """Whether a crate is proved."""
        return True

    def share(self, jobs: int) -> int:
        """How many checks may run."""
        return jobs


class Proofs(AllProved):
    """What `rt ci` has said by now, in a file.

    Once it has ended there is another, `.ended` after the name of the first.
    """

    SECONDS = 2

    def __init__(self, path: str) -> None:
        self.path, self.ended = path, False
        self.proved: Set[str] = set()

    def look(self) -> None:
        """Reads what it has said."""
        self.ended = os.path.exists(f"{self.path}.ended")
        if os.path.exists(self.path):
            with open(self.path, encoding="utf-8", errors="replace") as file:
                self.proved = set(PROVED.findall(file.read()))

    def has(self, crate: str) -> bool:
        """Whether a crate is proved."""
        return crate in self.proved

    def share(self, jobs: int) -> int:
        """How many checks may run: once `rt ci` has ended all."""
        return jobs if self.ended else min(BESIDE, jobs)
