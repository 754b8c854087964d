"""Read events from a receiver, and save and restore it."""
from __future__ import annotations

from typing import List, Tuple

import iim
import pytest
from envelopes import SMALLEST, STORY
from iim import END_OF_INPUT, NEED_DATA

pytestmark = pytest.mark.usefixtures("way")

TEXT = b"Rates stay.\nNo change."
STREAM = SMALLEST + STORY + SMALLEST


def events_of(receiver: iim.Receiver) -> List[object]:
    """Return the events up to one that is no envelope, with envelopes as their lengths."""
    found: List[object] = []
    while True:
        event = receiver.next_event()
        if not isinstance(event, iim.Envelope):
            return [*found, event]
        found.append((event.nth, event.at, event.length, event.story))


WANTED = [(1, 0, 114, b""), (2, 114, 246, TEXT), (3, 360, 114, b"")]


@pytest.mark.parametrize("size", [1, 7, 100, 113, 114, 115, 360, 474, 1_000])
def test_returns_each_envelope_and_asks_for_more(size: int) -> None:
    receiver, found = iim.Receiver(), []
    for at in range(0, len(STREAM), size):
        receiver.receive_data(STREAM[at : at + size])
        *envelopes, last = events_of(receiver)
        assert last is NEED_DATA
        found += envelopes
    receiver.receive_data(b"")
    assert (found, events_of(receiver), receiver.offset) == (WANTED, [END_OF_INPUT], 474)


def test_reads_chunks_that_were_added_together() -> None:
    receiver = iim.Receiver()
    for at in range(0, len(STREAM), 50):
        receiver.receive_data(memoryview(STREAM)[at : at + 50])
    receiver.receive_data(b"")
    assert events_of(receiver) == [*WANTED, END_OF_INPUT]
    pytest.raises(ValueError, receiver.receive_data, b"x")


def test_returns_a_refusal_after_the_envelopes() -> None:
    receiver = iim.Receiver()
    receiver.receive_data(SMALLEST + STORY[:218] + b"\1" + STORY[219:])
    first, refusal = receiver.next_event(), receiver.next_event()
    assert isinstance(first, iim.Envelope) and first.length == 114
    assert isinstance(refusal, iim.RefusedError)
    assert str(refusal) == "2 refused at octet 218 by layer story on 8:10, cause 41 ControlOctet"
    assert (refusal.story, refusal.octet_in_file) == (b"Rates ", 332)
    again = receiver.next_event()
    assert isinstance(again, iim.RefusedError) and again.cause == 61


def test_returns_a_truncation_at_the_end() -> None:
    receiver = iim.Receiver()
    receiver.receive_data(STORY[:230])
    assert receiver.next_event() is NEED_DATA
    receiver.receive_data(b"")
    event = receiver.next_event()
    assert isinstance(event, iim.TruncatedError)
    assert (event.octet, event.dataset, event.story) == (230, "8:10", b"Rates stay.\nNo ch")


@pytest.mark.parametrize("at", range(0, 361, 3))
def test_continues_where_it_was_saved(at: int) -> None:
    receiver = iim.Receiver(iim.Limits(9_000, 90))
    if at > 0:
        receiver.receive_data(STREAM[:at])
    *before, last = events_of(receiver)
    assert last is NEED_DATA
    saved = receiver.save(story=True)
    restored = iim.Receiver.restore(saved, offset=at)
    assert (restored.offset, restored.save(story=True)) == (at, saved)
    restored.receive_data(STREAM[at:])
    restored.receive_data(b"")
    assert before + events_of(restored) == [*WANTED, END_OF_INPUT]


def test_saves_the_limits() -> None:
    receiver = iim.Receiver.restore(iim.Receiver(iim.Limits(60, 512)).save())
    receiver.receive_data(STORY)
    event = receiver.next_event()
    assert isinstance(event, iim.RefusedError) and event.cause_name == "HeaderFull"


def test_saves_the_story_only_if_asked() -> None:
    receiver = iim.Receiver()
    receiver.receive_data(STORY[:225])
    assert receiver.next_event() is NEED_DATA
    stories: List[Tuple[bool, object]] = []
    for story in False, True:
        restored = iim.Receiver.restore(receiver.save(story=story))
        restored.receive_data(STORY[225:])
        event = restored.next_event()
        assert isinstance(event, iim.Envelope)
        stories.append((story, event.story))
    assert stories == [(False, b"No change."), (True, TEXT)]


def test_detects_a_wrong_offset() -> None:
    receiver = iim.Receiver()
    receiver.receive_data(STREAM[:200])
    events_of(receiver)
    saved = receiver.save()
    assert iim.Receiver.restore(saved, offset=200).offset == 200
    for offset in 199, 201, 86, 0:
        error = pytest.raises(ValueError, iim.Receiver.restore, saved, offset=offset).value
        assert str(error) == f"the receiver continues at offset 200, not {offset}"


def test_detects_changed_bytes() -> None:
    receiver = iim.Receiver()
    receiver.receive_data(STREAM[:200])
    events_of(receiver)
    saved = receiver.save(story=True)
    for at in range(len(saved)):
        changed = saved[:at] + bytes([saved[at] ^ 1]) + saved[at + 1 :]
        pytest.raises(ValueError, iim.Receiver.restore, changed)
        pytest.raises(ValueError, iim.Receiver.restore, saved[:at])
    pytest.raises(ValueError, iim.Receiver.restore, saved + b"\0")


def test_saves_nothing_after_a_refusal() -> None:
    receiver = iim.Receiver()
    pytest.raises(iim.RefusedError, receiver.feed, b"\x1d")
    assert pytest.raises(iim.RefusedError, receiver.save).value.cause == 61
