"""Strategies of hypothesis for saved states, and for tickets that are changed in places."""
from __future__ import annotations

from typing import Any, Callable, Dict, Tuple

import rules
import tickets
from envelopes import SMALLEST, STORY, VARIED
from hypothesis import strategies as st
from hypothesis.strategies import DrawFn
from rules import LIMITS, Envelope, read
from tickets import Place
from vectors.strategies import (
    ANY,
    ENVELOPES,
    choose,
    draw_near,
    draw_octets,
    draw_spoiled,
    up_to,
)

# What is changed of a state; the parts that have most rules are changed most.
PARTS = (
    "section begun begun tag fields numbers numbers total total subfiles part "
    "counter counter flag texts texts"
).split()
# The most of each number of a state.
MOST = {"total": 2**64 - 1, "subfiles": 2**32 - 1}


WORKED = SMALLEST, STORY, VARIED


def draw_begun(draw: DrawFn) -> Envelope:
    """Draw an incomplete envelope, which often ends inside records 7 to 9."""
    whole = choose(draw, [*WORKED, *WORKED, b""]) or draw(ENVELOPES)
    least = choose(draw, [whole.index(b"\x1c\x07"), 0])
    return read(whole[: draw(up_to(len(whole), least))])


def draw_changed(draw: DrawFn, octets: bytes) -> bytes:
    """Draw octets with one changed, or some cut off or added at the end."""
    at, how = draw(up_to(len(octets) - 1)), draw(up_to(7))
    if how >= 6:
        return octets[:at] if how == 6 else octets + b"\0"
    octet = octets[at]
    others = [0, 1, 2, 3, 8, 9, 10, 32, 255, octet ^ 1, octet ^ 128, (octet + 1) % 256]
    octet = choose(draw, [*others, draw(up_to(255))])
    return octets[:at] + bytes([octet]) + octets[at + 1 :]


@st.composite
def changed_tickets(draw: DrawFn) -> bytes:
    """Generate a ticket of either version that is changed in one place or two."""
    envelope = draw_begun(draw)
    octets = tickets.ticket(envelope, choose(draw, [2, 2, 1])) or tickets.ticket(envelope) or b""
    for _ in range(choose(draw, [1, 1, 2])):
        octets = draw_changed(draw, octets) or b"I"
    return octets


def move_counter(draw: DrawFn, place: Place) -> Place:
    """Draw another counter. The total of the object may include the difference."""
    counter = choose(draw, [0, 1, 2, 30, 31, 32, 33, 255])
    more = choose(draw, [counter - place.counter, counter - place.counter, 0])
    return place._replace(counter=counter, total=max(0, place.total + more))


def move_begun(draw: DrawFn, place: Place) -> Place:
    """Draw another partial dataset, or another partial tag if no other exists."""
    if place.begun is None:
        tag = draw_changed(draw, place.tag + b"\x1c")[:12]
        return place._replace(tag=tag) if place.phase == 0 else place
    dataset, count, left, data = place.begun
    left = choose(draw, [left, draw_near(draw, left, 2**63)])
    count = draw_near(draw, count) if place.section == 8 else left + len(data)
    dataset = choose(draw, [dataset, dataset, draw(up_to(255))])
    return place._replace(begun=(dataset, max(count, left), left, data))


def move_tag(draw: DrawFn, place: Place) -> Place:
    """Draw another partial tag."""
    form = choose(draw, [0, 0x7F, 0x80, 0x81])
    tag = bytes([0x1C, place.section, 0, form, draw(up_to(9)), *bytes(8)])[: draw(up_to(12))]
    return place._replace(tag=tag) if place.phase == 0 else place


def move_numbers(draw: DrawFn, place: Place) -> Place:
    """Draw record 7 with a number missing, added or changed."""
    found: Dict[int, int] = dict(place.numbers)
    each = choose(draw, [10, 20, 90, 95])
    if each in found and choose(draw, [False, True]):
        del found[each]
    else:
        found[each] = draw_near(draw, found.get(each, place.total))
    return place._replace(numbers=found)


def move_texts(draw: DrawFn, place: Place) -> Place:
    """Draw another text of the message."""
    found, at = list(place.texts), draw(up_to(6))
    others = found[at][:-1], found[at] + b"1", (found[at] * 2)[:255]
    found[at] = choose(draw, [*others, draw_octets(draw, ANY, 0, 66)])
    return place._replace(texts=found)


def move_fields(draw: DrawFn, place: Place) -> Place:
    """Draw records 1 and 2 with one dataset missing, doubled, moved or changed."""
    return place._replace(fields=draw_spoiled(draw, place.fields))


MOVES: Dict[str, Callable[[DrawFn, Place], Place]] = {
    "counter": move_counter,
    "begun": move_begun,
    "tag": move_tag,
    "numbers": move_numbers,
    "texts": move_texts,
    "fields": move_fields,
}


def draw_moved(draw: DrawFn, place: Place) -> Place:
    """Draw a state with one part changed."""
    how = choose(draw, PARTS)
    if how in MOVES:
        return MOVES[how](draw, place)
    number = draw_near(draw, getattr(place, how), MOST.get(how, 255))
    changes: Dict[str, Any] = {how: choose(draw, [number, draw(up_to(11))])}
    return place._replace(**changes)


@st.composite
def changed_states(draw: DrawFn) -> Tuple[Place, Tuple[int, int]]:
    """Generate a state with one or two parts changed, and limits near its contents."""
    envelope = draw_begun(draw)
    place = tickets.place(envelope)
    for _ in range(choose(draw, [1, 1, 1, 2])):
        place = draw_moved(draw, place)
    kept = max(0, envelope.kept - draw(up_to(1)))
    count = max(0, len(envelope.fields) - draw(up_to(1)))
    return place, choose(draw, [LIMITS, LIMITS, (kept, 512), (65536, count), (kept, count)])


@st.composite
def totals(draw: DrawFn) -> int:
    """Generate a count for a tag of two, four or eight octets."""
    edges = [0, 0x7FFF, 0x8000, 2**32 - 1, 2**32, rules.GREATEST]
    return choose(draw, [*edges, draw(up_to(0xFFFF)), draw(up_to(rules.GREATEST))])
