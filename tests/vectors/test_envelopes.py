"""Check the program on generated envelopes, valid and invalid, split and continued."""
from __future__ import annotations

import collections
from typing import Callable, Iterator, List, Tuple

from hypothesis import assume, event, given
from hypothesis import strategies as st
from rules import CAUSES, Envelope, read
from vectors.asking import Case, Vectors, digits
from vectors.cases import continued, fed
from vectors.strategies import envelopes, examples, splits, wrong_envelopes

CountCases = Callable[[int], None]
SEEDS = st.integers(0, 999)
# The causes that only limits, tickets and the end of the octets have.
ELSEWHERE = {"Truncated", "HeaderFull", "TooManyFields", "TooManySubfiles", "Failed"}


def in_chunks(chunks: List[bytes]) -> Case:
    """Return a case that feeds chunks one after another."""
    case, octets, at = Case(), b"", 0
    for chunk in chunks:
        octets += chunk
        envelope = read(octets)
        is_done = envelope.is_done
        case.ask(
            f"feed {digits(chunk)}", f"done {envelope.at - at}" if is_done else envelope.answer()
        )
        at = envelope.at
        if envelope.refusal:
            break
    return case.ends(read(octets))


def outcome(envelope: Envelope) -> str:
    """Return the result of reading an envelope: the name of a cause, `done` or `more`."""
    return CAUSES[envelope.refusal.cause] if envelope.refusal else envelope.answer().split()[0]


def test_reads_random_envelopes(vectors: Vectors, count_cases: CountCases) -> None:
    """Read valid envelopes in one chunk, octet by octet, and in chunks."""
    count = 0

    @examples(120)
    @given(envelopes(), st.sampled_from([b"", b"\x1c", b"\0"]), SEEDS)
    def check(octets: bytes, more: bytes, seed: int) -> None:
        nonlocal count
        assert read(octets).answer() == f"done {len(octets)}", "the rules reject a valid envelope"
        cases = list(fed(octets + more, seed))
        vectors.check(*cases)
        count += len(cases)

    check()
    count_cases(count)


def test_refuses_random_envelopes(vectors: Vectors, count_cases: CountCases) -> None:
    """Reject invalid envelopes at the same octet, for the same cause, however they are split."""
    count, reached = 0, collections.Counter[str]()

    @examples(450)
    @given(wrong_envelopes(), SEEDS)
    def check(octets: bytes, seed: int) -> None:
        nonlocal count
        reached[outcome(read(octets))] += 1
        event(outcome(read(octets)))
        cases = list(fed(octets, seed))
        vectors.check(*cases)
        count += len(cases)

    check()
    count_cases(count)
    assert sorted({*CAUSES.values()} - ELSEWHERE - {*reached}) == []


def test_reads_chunks_of_any_lengths(vectors: Vectors, count_cases: CountCases) -> None:
    """Feed envelopes in chunks that hypothesis chooses, some of them empty."""
    count = 0

    @examples(100)
    @given(splits())
    def check(chunks: List[bytes]) -> None:
        nonlocal count
        vectors.check(in_chunks(chunks))
        count += 1

    check()
    count_cases(count)


def continuations(octets: bytes, at: int) -> Iterator[Case]:
    """Yield cases that continue from the ticket after some octets, and after each octet."""
    yield from continued(digits(octets[:at]), digits(octets[at:]), octets, at)
    if len(octets) < 600:
        envelope = read(octets)
        yield Case().ask(f"carry {digits(octets)}", envelope.answer()).ends(envelope)


def test_continues_random_envelopes(vectors: Vectors, count_cases: CountCases) -> None:
    """Continue envelopes from tickets of both versions, and from a ticket after each octet."""
    count = 0

    @examples(250)
    @given(st.data(), envelopes() | envelopes() | wrong_envelopes())
    def check(data: st.DataObject, octets: bytes) -> None:
        nonlocal count
        at = data.draw(st.integers(0, len(octets)))
        cases = list(continuations(octets, at))
        vectors.check(*cases)
        count += len(cases)

    check()
    count_cases(count)


def test_holds_limits_at_their_edge(vectors: Vectors, count_cases: CountCases) -> None:
    """Read envelopes with limits that just suffice, and limits that are one too low."""
    count, reached = 0, collections.Counter[str]()

    @examples(100)
    @given(envelopes(), st.sampled_from([(0, 0), (1, 0), (0, 1), (1, 1)]), SEEDS)
    def check(octets: bytes, less: Tuple[int, int], seed: int) -> None:
        nonlocal count
        envelope = read(octets)
        assume(envelope.kept >= less[0])
        limits = envelope.kept - less[0], len(envelope.fields) - less[1]
        reached[outcome(read(octets, limits))] += 1
        cases = list(fed(octets, seed, limits))
        cases += continued(digits(octets[:60]), digits(octets[60:]), octets, 60, limits)
        vectors.check(*cases)
        count += len(cases)

    check()
    count_cases(count)
    assert {*reached} == {"done", "HeaderFull", "TooManyFields"}
