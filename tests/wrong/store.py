"""What mutants came to in earlier runs on this machine, by the sums of all that a verdict
stands on.
"""
from __future__ import annotations

import functools
import glob
import hashlib
import json
import os
from typing import Iterable, Optional, Tuple

from wrong import prover, sources

PLACE = os.path.join(
    os.environ.get("XDG_CACHE_HOME") or os.path.expanduser("~/.cache"), "iim-wrong-bodies"
)


def sum_of(paths: Iterable[str]) -> str:
    """The sum of files, with their names."""
    sums = hashlib.sha256()
    for path in paths:
        with open(path, "rb") as file:
            sums.update(
                f"{os.path.relpath(path, sources.TOP)} "
                f"{hashlib.sha256(file.read()).hexdigest()}\n".encode()
            )
    return sums.hexdigest()


@functools.cache
def sum_of_judges() -> str:
    """The sum of the toolchain, by the name that it has of itself, and of what judges."""
    with open(f"{prover.kit()}/KIT-ID", encoding="utf-8") as name:
        return f"{name.read()} {sum_of(sorted(glob.glob(f'{os.path.dirname(__file__)}/*.py')))}"


@functools.cache
def sum_of_crate(crate: str) -> str:
    """The sum of a crate and of all libraries of the repository below it."""
    listed = sources.order_of_crates()
    below = [sum_of_crate(name) for name in listed[crate][0] if name in listed]
    paths = [
        f"{at}/{name}"
        for part in prover.PARTS
        for at, _, names in os.walk(f"{sources.TOP}/crates/{crate}/{part}")
        for name in names
    ]
    return hashlib.sha256(
        json.dumps([listed[crate], below, sum_of(sorted(paths))]).encode()
    ).hexdigest()


def place(body: sources.Body) -> str:
    """The file of a mutant's verdict."""
    stands_on = json.dumps(
        [
            sum_of_judges(),
            sum_of_crate(body.crate),
            body.said,
            body.pairs,
            body.whole or (),
            body.is_right,
        ]
    )
    return f"{PLACE}/{hashlib.sha256(stands_on.encode()).hexdigest()}"


def known(body: sources.Body) -> Optional[Tuple[str, str]]:
    """What a mutant came to, and what was named, or None where no run judged it so."""
    try:
        with open(place(body), encoding="utf-8") as file:
            verdict, named = json.load(file)
    except (OSError, ValueError):
        return None
    return verdict, named


def keep(body: sources.Body, verdict: Tuple[str, str]) -> None:
    """Keeps what a mutant came to. Where it can't, the next run judges it again."""
    try:
        os.makedirs(PLACE, exist_ok=True)
        with open(f"{place(body)}.{os.getpid()}", "w", encoding="utf-8") as file:
            json.dump(verdict, file)
        os.replace(file.name, place(body))
    except OSError:
        pass
