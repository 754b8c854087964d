"""The copies of functions with their right bodies: each must be proved, or a mutant in its
place would be rejected for nothing.
"""
from __future__ import annotations

from dataclasses import replace
from typing import Dict, Iterable, List, Optional, Tuple

from wrong import code, rounds, sources


def unchanged(body: sources.Body) -> sources.Body:
    """Return a body that changes nothing where the wrong one changes something; one that calls the
    right function where the wrong one is written whole.
    """
    if not body.whole:
        return replace(body, pairs=[(path, old, old) for path, old, _ in body.pairs], is_right=True)
    own = code.own_place(sources.original(body), body)
    assert own is not None, body.name
    path, name, before = own
    text = sources.text_in(body.crate, path)
    first, end = code.span(text, name, before)
    return replace(body, whole=(path, code.called(text[first:end], body.function)), is_right=True)


def copy_of(body: sources.Body) -> Optional[Tuple[object, ...]]:
    """Return all that the prover reads of the copy of a right body: its crate, its function, its
    text and its proof; None if there is no copy.
    """
    places = code.places(sources.original(body), body) or set()
    if not rounds.Round(body.crate).add_copy(body, places):
        return None
    (at,) = places
    text = sources.text_in(body.crate, at[0])
    return (
        body.crate,
        at,
        rounds.copied(body, text, at, "copy"),
        tuple(sorted(rounds.copied_proof(body, text, "copy").items())),
    )


def copies(bodies: Iterable[sources.Body]) -> List[sources.Body]:
    """Return the right bodies for those wrong ones that are in a copy of their function, one for
    all whose copies are the same.
    """
    found: Dict[Tuple[object, ...], sources.Body] = {}
    for body in map(unchanged, bodies):
        if copy := copy_of(body):
            found.setdefault(copy, body)
    return list(found.values())
