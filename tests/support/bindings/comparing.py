"""The results of the package, as the lines that the command prints."""
from __future__ import annotations

import io
import os
from concurrent.futures import ThreadPoolExecutor
from pathlib import Path
from typing import Callable, Iterable, Iterator, List, Optional, Tuple

import iim
import rules
from support.bindings.running import run

# The status and the lines of `check` and of `show`; and of `story`, with its errors.
Printed = Tuple[Tuple[int, bytes], Tuple[int, bytes], Tuple[int, bytes, bytes]]


def printed_by(command: Path, octets: bytes) -> Printed:
    """Return what `check`, `show` and `story` print for an input."""
    checked, shown, story = (run([command, name], octets) for name in ("check", "show", "story"))
    assert (checked[2], shown[2]) == (b"", b"")
    return checked[:2], shown[:2], story


def printed_for(envelopes: Callable[[], Iterator[iim.Envelope]]) -> Printed:
    """Return the same from the results of the package.

    Args:
        envelopes: A function that yields envelopes, each with its story.
    """
    checked: List[str] = []
    shown: List[str] = []
    story, status = b"", 0
    try:
        for envelope in envelopes():
            assert envelope.story is not None
            checked.append(f"{envelope.nth} accepted {envelope.length} octets\n")
            shown += shown_lines(envelope)
            story += envelope.story + b"\n"
    except iim.RefusedError as refusal:
        assert isinstance(refusal, iim.TruncatedError) == (refusal.cause == 3)
        status = 1
        checked.append(f"{refusal}\n")
        shown.append(f"{refusal}\n")
        story += refusal.story
    lines = "".join(checked).encode()
    return (status, lines), (status, "".join(shown).encode()), (status, story, lines)


def with_space(word: str, octets: bytes) -> str:
    """Return a line of a word, followed by the escaped bytes unless there are none."""
    return f"{word} {rules.shown(octets)}\n" if octets else f"{word}\n"


def or_dash(number: Optional[int]) -> object:
    """Return a number, or a dash for a missing one."""
    return "-" if number is None else number


def shown_lines(envelope: iim.Envelope) -> Iterator[str]:
    """Yield the lines that `show` prints for an envelope."""
    header, sizes = envelope.header, envelope.sizes
    yield f"envelope {envelope.nth}\n"
    for field in envelope.datasets:
        yield with_space(field.dataset, field.octets)
    parts = " ".join(part.text("ascii") for part in header[:5])
    yield with_space(f"message {parts}", header.info)
    yield with_space("trailer", envelope.trailer)
    yield (
        f"object {sizes.total} octets, {sizes.subfiles} subfiles, mode {sizes.mode},"
        f" limit {sizes.subfile}, announced {or_dash(sizes.announced)},"
        f" maximum {or_dash(sizes.maximum)}\n"
    )


def read_whole(octets: bytes) -> Printed:
    """Return what is printed for the envelopes of an input, by `read`."""
    return printed_for(lambda: iim.read(io.BytesIO(octets)))


def compare(command: Path, cases: Iterable[bytes]) -> int:
    """Compare the package with the command on each case, and return their number."""
    cases = list(cases)
    with ThreadPoolExecutor(os.cpu_count()) as pool:
        wanted = pool.map(lambda octets: printed_by(command, octets), cases)
        for octets, want in zip(cases, wanted):
            assert (octets.hex(), read_whole(octets)) == (octets.hex(), want)
    return len(cases)


def in_chunks(octets: bytes, size: int, resumes: bool = False) -> Iterator[iim.Envelope]:
    """Yield the envelopes of an input in chunks, with a receiver resumed for each if `resumes`."""
    receiver = iim.Receiver()
    parts: List[bytes] = []
    for begin in range(0, len(octets), size):
        chunk, start = octets[begin : begin + size], 0
        while start < len(chunk):
            if resumes:
                nth, at = receiver.nth, receiver.at
                resume = iim.Receiver.resume
                receiver = resume(receiver.current_ticket(), receiver.octets, nth=nth, at=at)
            try:
                fed = receiver.feed(chunk, start)
            except iim.RefusedError as refusal:
                refusal.story = iim.Octets(b"".join(parts) + refusal.story)
                raise
            start += fed.used
            parts.append(fed.story)
            if fed.envelope:
                assert fed.envelope.story is None
                fed.envelope.story = iim.Octets(b"".join(parts))
                parts = []
                yield fed.envelope
    try:
        receiver.end()
    except iim.TruncatedError as refusal:
        refusal.story = iim.Octets(b"".join(parts))
        raise


def verdict(envelope: rules.Envelope) -> str:
    """Return the verdict of the test oracle on an envelope: its length, or its refusal."""
    text = envelope.answer() if envelope.answer() != "more" else envelope.end()
    return str(text)


def by_rules(octets: bytes) -> str:
    """Return the verdict of the test oracle on one envelope."""
    return verdict(rules.read(octets))


def by_check(octets: bytes, limits: iim.Limits = iim.WIRE) -> str:
    """Return the verdict of `iim.check`."""
    try:
        return f"done {iim.check(octets, limits)}"
    except iim.RefusedError as refusal:
        assert (refusal.nth, refusal.at, refusal.octet_in_file) == (1, 0, refusal.octet)
        assert isinstance(refusal, iim.TruncatedError) == (refusal.cause == 3)
        return str(refusal)[2:]


def by_feed(octets: bytes, limits: iim.Limits = iim.WIRE) -> str:
    """Return the verdict of a receiver that is fed once."""
    receiver = iim.Receiver(limits)
    try:
        fed = receiver.feed(octets)
        if fed.envelope is None:
            assert fed.used == len(octets)
            receiver.end()
            return "nothing"
        assert fed.used == fed.envelope.length
        return f"done {fed.used}"
    except iim.RefusedError as refusal:
        assert isinstance(refusal, iim.TruncatedError) == (refusal.cause == 3)
        return str(refusal)[2:]
