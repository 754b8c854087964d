"""Inputs of the tests: random, changed and repeated ones, and files that return few bytes."""
from __future__ import annotations

import io
import random
from typing import Callable, Iterable, Iterator

import envelopes
import rules
from envelopes import SMALLEST_FIELDS


def changed(octets: bytes, others: Callable[[int], Iterable[int]]) -> Iterator[bytes]:
    """Yield an input with each of its bytes changed to each of the values given for it."""
    for at, octet in enumerate(octets):
        for other in others(octet):
            yield octets[:at] + bytes([other]) + octets[at + 1 :]


def made(seed: int, count: int) -> Iterator[bytes]:
    """Return random envelopes: valid, invalid and damaged ones."""
    chance = random.Random(seed)
    for at in range(count):
        story = envelopes.wrong_story(chance) if at % 5 == 1 else envelopes.story(chance)
        datasets = envelopes.datasets(chance, story)
        if at % 5 == 2:
            datasets = envelopes.spoiled(chance, datasets)
        octets = envelopes.joined(chance, datasets)
        yield envelopes.damaged(chance, octets) if at % 5 == 3 else octets


def with_id(octets: bytes, service: bytes, number: bytes, date: bytes) -> bytes:
    """Return an envelope with this object and this id."""
    first = [*SMALLEST_FIELDS[:3], (1, 30, service), (1, 40, number), (1, 70, date)]
    packed: bytes = rules.packed([*first, (2, 0, b"\0\4")], octets, 1024)
    return packed


class OnlyRead:
    """A file that has only `read`, which returns at most `most` bytes at a time."""

    def __init__(self, octets: bytes, most: int = 3) -> None:
        self.octets, self.most = io.BytesIO(octets), most

    def read(self, count: int) -> bytes:
        """Read at most `most` bytes."""
        return self.octets.read(min(self.most, count))


class Repeating:
    """A file that repeats the same bytes."""

    def __init__(self, octets: bytes, times: int) -> None:
        self.octets, self.left = octets, len(octets) * times

    def read(self, count: int) -> bytes:
        """Read at most one repetition."""
        count = min(count, self.left, len(self.octets))
        self.left -= count
        return self.octets[:count]
