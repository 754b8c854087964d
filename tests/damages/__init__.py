"""The corpus of damages: files as newsrooms get them, and what must be printed of each."""
from __future__ import annotations

from typing import Dict

from damages import places, senders, transfers, wrapping
from damages.damage import Damage

MAKERS = (
    transfers.transfers,
    transfers.conversions,
    wrapping.wrapped,
    wrapping.foreign,
    places.places,
    places.ends,
    places.joined,
    senders.records,
    senders.values,
    senders.messages,
)


def damages() -> Dict[str, Damage]:
    """Return all damages by their names."""
    made = [damage for maker in MAKERS for damage in maker()]
    by_name = {damage.name: damage for damage in made}
    assert len(by_name) == len(made), "two damages have the same name"
    return by_name
