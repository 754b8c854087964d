"""Damages that newsrooms really have, each with the sentences that an explanation must print."""
from __future__ import annotations

from typing import Iterator, List, NamedTuple

import rules
from newsroom import Copy

ACCEPTED = "the envelope is accepted"


class Damage(NamedTuple):
    """A damaged file.

    Attributes:
        name: What was done.
        octets: The bytes.
        sentences: What the explanation must contain, with single spaces.
    """

    name: str
    octets: bytes
    sentences: List[str]


Made = Iterator[Damage]


def ask(copy: Copy) -> str:
    """Return the sentence on which envelope to ask for again."""
    service, number, date = (rules.first(copy.fields, 1, each) for each in (30, 40, 70))
    assert service and number and date
    return f"Ask {service.decode()} for {number.decode()} of {date.decode()} again."
