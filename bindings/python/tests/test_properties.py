"""Properties of the package on inputs that hypothesis chooses and shrinks."""
from __future__ import annotations

import io
from typing import Any, Iterator, List, Optional, Tuple

import iim
import rules
import tickets
from hypothesis import given
from hypothesis import strategies as st
from support.bindings.comparing import by_check, by_rules, verdict
from support.bindings.streams import OnlyRead
from vectors import strategies
from vectors.strategies import Script, examples

# Any envelope: a valid one, or one that is invalid or incomplete.
ANY = st.one_of(strategies.envelopes(), strategies.wrong_envelopes())
# The verdict on an envelope, and its story as far as it was received.
Received = Tuple[str, bytes]


def received(chunks: List[bytes], resumes: bool) -> Received:
    """Feed chunks until the envelope is complete or rejected.

    Args:
        chunks: The chunks of the envelope.
        resumes: Whether each chunk goes to a new receiver, resumed from a saved state.
    """
    receiver, story = iim.Receiver(), b""
    try:
        for chunk in chunks:
            if resumes:
                receiver = iim.Receiver.resume(receiver.current_ticket(), receiver.octets)
            fed = receiver.feed(chunk)
            story += fed.story
            if fed.envelope:
                return f"done {fed.envelope.length}", story
            assert fed.used == len(chunk)
        receiver.end()
    except iim.RefusedError as refusal:
        return str(refusal)[2:], story + refusal.story
    return "nothing", story


def story_of(octets: bytes) -> bytes:
    """Return the story of an envelope as far as the test oracle has read it."""
    return b"\n".join(map(bytes, rules.read(octets).message.lines))


@examples(300)
@given(strategies.splits())
def test_receives_chunks_by_the_rules(chunks: List[bytes]) -> None:
    octets = b"".join(chunks)
    want = by_rules(octets) if octets else "nothing"
    got, story = received(chunks, resumes=False)
    assert got == want
    if got.startswith("done "):
        assert story == story_of(octets)
    assert received([octets], resumes=False) == (got, story)


@examples(300)
@given(strategies.splits())
def test_resumes_from_each_saved_state(chunks: List[bytes]) -> None:
    assert received(chunks, resumes=True) == received(chunks, resumes=False)


@examples(100)
@given(strategies.envelopes(), st.data())
def test_saves_the_state_of_the_rules(octets: bytes, data: st.DataObject) -> None:
    count = data.draw(st.integers(0, len(octets) - 1))
    receiver = iim.Receiver()
    receiver.feed(octets[:count])
    want = tickets.ticket(rules.read(octets[:count]))
    assert (receiver.current_ticket(), receiver.octets) == (want, count)


@examples(300)
@given(ANY)
def test_checks_envelopes_by_the_rules(octets: bytes) -> None:
    assert by_check(octets) == by_rules(octets)


@examples(200)
@given(strategies.envelopes())
def test_reads_the_values_of_the_rules(octets: bytes) -> None:
    want = rules.read(octets)
    (got,) = iim.read(io.BytesIO(octets))
    assert [tuple(field) for field in got.datasets] == want.fields
    assert list(got.header) == want.message.head()
    assert got.trailer == want.message.texts[rules.Message.TAIL]
    assert got.story_lines() == [bytes(line) for line in want.message.lines]
    assert tuple(got.id) == tuple(rules.first(want.fields, 1, n) for n in (30, 40, 70))


def read_by_rules(stream: bytes) -> Iterator[Tuple[int, rules.Envelope]]:
    """Yield the offset and the reading of each envelope of a stream, up to a rejected one."""
    at = 0
    while at < len(stream):
        envelope = rules.read(stream[at:])
        yield at, envelope
        if not envelope.is_done:
            return
        at += envelope.at


def row_by_rules(at: int, envelope: rules.Envelope) -> Tuple[object, ...]:
    """Return what a row of an audit must have, by the test oracle."""
    ids = (rules.first(envelope.fields, 1, number) for number in (30, 40, 70))
    sizes = envelope.total, envelope.subfiles
    words = int(bytes(envelope.message.head()[4])), rules.words_of(envelope.message.lines)
    return (at, envelope.at, *ids, *sizes, *words)


@examples(200)
@given(strategies.streams(), st.integers(1, 64))
def test_audits_concatenated_envelopes(stream: bytes, most: int) -> None:
    found = list(read_by_rules(stream))
    want = [row_by_rules(at, each) for at, each in found if each.is_done]
    refusals = [verdict(each) for _, each in found if not each.is_done]
    file: Any = OnlyRead(stream, most)
    got: List[Tuple[object, ...]] = []
    refused: Optional[str] = None
    try:
        for row in iim.audit(file):
            ids = row.service, row.number, row.date_sent
            sizes = row.size, row.subfiles, row.announced, row.counted
            got.append((row.at, row.length, *ids, *sizes))
    except iim.RefusedError as refusal:
        assert (refusal.nth, refusal.at) == (len(got) + 1, found[-1][0])
        refused = str(refusal).partition(" ")[2]
    assert (got, [refused] if refused else []) == (want, refusals)


@examples(200)
@given(strategies.scripts(), st.integers(1, 1024))
def test_packs_scripts_by_the_rules(script: Script, subfile: int) -> None:
    text = iim.script(script.fields, script.head, script.lines, script.trailer)
    story = rules.object_of(script.head, script.lines, script.trailer)
    assert iim.pack(text, subfile=subfile) == rules.packed(script.fields, story, subfile)
