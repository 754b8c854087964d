"""Read a file of envelopes, and select the envelopes to show."""
from __future__ import annotations

import collections
import functools
import hashlib
from typing import Deque, Iterator, List, NamedTuple, Optional, Tuple

import iim
from iim.auditing import Auditor, RawRow
from iim.explain import charsets, words
from iim.explain.findings import Findings
from iim.explain.progress import Report, silence
from iim.explain.reasons import Reason, ask, reason_of
from iim.explain.tries import Tries
from iim.explain.trying import EPOCH
from iim.explain.walk import Item, Source, Walk, cut
from iim.explain.words import counted
from iim.octets import Octets

# The number of envelopes at each end of a file that are shown byte by byte, and that are listed.
WHOLE, LISTED = 4, 40


class Found(NamedTuple):
    """An envelope of the file, or the prefix of a rejected one.

    Attributes:
        nth: The number of the envelope in the file, from 1.
        at: The offset of its first byte in the file.
        length: The number of its bytes that were accepted.
        id: The parts of its identifier; `None` for each that was not received.
    """

    nth: int
    at: int
    length: int
    id: Tuple[Optional[bytes], ...]


def found_of(nth: int, raw: RawRow) -> Found:
    """Return the envelope of a row of an audit."""
    count, service, number, date = raw[14:]
    return Found(nth, raw[0], raw[1], (Octets(service[:count]), Octets(number), Octets(date)))


class Whole:
    """An envelope that is shown byte by byte."""

    def __init__(
        self,
        source: Source,
        found: Found,
        refusal: Optional[iim.RefusedError],
        limits: iim.Limits,
        encoding: Optional[str] = None,
    ) -> None:
        """Read an envelope.

        Args:
            source: The file.
            found: The envelope.
            refusal: Why it was rejected, or `None`.
            limits: The limits on records 1 and 2.
            encoding: The encoding of its text, or `None` for the one that it declares, or a guess.
        """
        self.found, self.refusal = found, refusal
        self.walk = Walk(source, found.at, found.length, limits)
        self.tries = Tries(source, refusal, self.walk, limits) if refusal else None
        ticket = refusal.ticket if refusal else b""
        partial = iim.Envelope(ticket, nth=found.nth, at=found.at, length=found.length)
        self.view = self.walk.envelope or partial
        texts = (
            # (of a long text only the beginning is stored, and may end inside a character)
            item.text if len(item.text) == item.text_size else charsets.complete(item.text)
            for item in self.walk.items
            if item.text is not None
        )
        self.encoding = charsets.choose(encoding, self.view.first(1, 90), b"\n".join(texts))

    def items(self, most: int, lines: int) -> Iterator[Optional[Item]]:
        """Yield its items, with `None` for those that are left out of a long one."""
        return cut(self.walk.items, most, lines)

    def value(self, item: Item, most: int = 64) -> str:
        """Return the value of an item as text, of which at most about `most` bytes are shown."""
        if item.text is None:
            return item.value
        more = item.text_size > len(item.text) and len(item.text) <= most
        return charsets.decoded(item.text, self.encoding.name, most) + "..." * more

    def sizes(self) -> Iterator[str]:
        """Yield sentences on the sizes of its object, and on whether they agree."""
        sizes = self.view.sizes
        if not self.walk.items or self.walk.items[-1].record not in (7, 8, 9) and not sizes.subfile:
            return
        announced = "no size is announced"
        if sizes.announced is not None:
            announced = f"{sizes.announced:,} announced (7:90)"
        most = "" if sizes.maximum is None else f", at most {sizes.maximum:,} (7:95)"
        total = f"{counted(sizes.total, 'octet')} in {counted(sizes.subfiles, 'subfile')}"
        yield f"Sizes: {announced}{most}; {total} of at most {sizes.subfile:,} (7:20)."
        if self.refusal is None:
            yield "They agree, and 9:10 confirms them."
        elif sizes.announced not in (None, sizes.total) and self.refusal.cause in (24, 25):
            difference = abs((sizes.announced or 0) - sizes.total)
            yield f"The received and the announced size differ by {difference:,}."

    def instants(self) -> Iterator[str]:
        """Yield sentences on when it was sent and when its copy may be used."""
        first = self.view.first
        for what, date, time in (
            ("Sent", first(1, 70), first(1, 80)),
            ("Released at", first(2, 30), first(2, 35) or b"000000+0000"),
            ("Expires after", first(2, 37), first(2, 38) or b"235959+0000"),
        ):
            instant = words.instant_in_words(date, time)
            if instant:
                yield f"{what} {instant}."


class Case:
    """A file and the result of reading it."""

    def __init__(
        self,
        source: Source,
        limits: iim.Limits,
        wanted: Optional[int] = None,
        *,
        shows_all: bool = False,
        encoding: Optional[str] = None,
        report: Report = silence,
    ) -> None:
        """Read a file.

        Args:
            source: The file.
            limits: The limits on records 1 and 2.
            wanted: The number of the envelope to show, or `None` for the rejected one.
            shows_all: Whether to show accepted envelopes byte by byte, and all findings.
            encoding: The encoding of text, or `None` for the one declared, or a guess.
            report: Called with the number of bytes read so far.
        """
        self.source, self.limits, self.wanted = source, limits, wanted
        self.shows_all, self.encoding = shows_all, encoding
        self.count = 0
        self.first: List[Found] = []
        self.last: List[Found] = []
        # Of the envelopes after the first ones, the number of each and its row, for the last ones.
        self._recent: Deque[Tuple[int, RawRow]] = collections.deque(maxlen=LISTED)
        self.refusal: Optional[iim.RefusedError] = None
        try:
            self._read(report)
        except iim.RefusedError as refusal:
            self.refusal = refusal
        self.last += [found_of(*each) for each in self._recent]
        if self.refusal is not None:
            refused = self.refusal
            found = Found(refused.nth, refused.at, refused.octet, refused.id)
            (self.first if len(self.first) < LISTED else self.last).append(found)

    @functools.cached_property
    def wholes(self) -> List[Whole]:
        """The envelopes that are shown byte by byte."""
        return [
            Whole(self.source, found, self._refusal_of(found), self.limits, self.encoding)
            for found in self.selected()
        ]

    @property
    def refused(self) -> Optional[Whole]:
        """The rejected envelope, or `None`."""
        last = self.wholes[-1] if self.refusal and self.wholes else None
        return last if last is not None and last.refusal is not None else None

    @functools.cached_property
    def findings(self) -> Optional[Findings]:
        """What the rejected envelope suffers from, or `None`."""
        refused = self.refused
        return Findings(refused.tries) if refused and refused.tries else None

    @functools.cached_property
    def reason(self) -> Reason:
        """The likely reason of the refusal, and what to do."""
        refused = self.refused
        if refused is None or refused.tries is None or self.findings is None:
            return Reason("", "")
        return reason_of(refused.tries, self.findings)

    @functools.cached_property
    def ask(self) -> str:
        """The sentence on which envelope to ask for again."""
        if self.refusal is None:
            return ""
        listed = self.listed()
        found = self.findings.all[:1] if self.findings else []
        if any(each.kind == "inside" and each.outcome and each.outcome.is_all for each in found):
            return "Nothing has to be sent again."
        return ask(self.refusal, listed[-2].id if len(listed) > 1 else None)

    @functools.cached_property
    def sha_256(self) -> str:
        """The SHA-256 of the file."""
        made, at = hashlib.sha256(), 0
        while piece := self.source.take(at, 1 << 20):
            made.update(piece)
            at += len(piece)
        return made.hexdigest()

    def _read(self, report: Report) -> None:
        """Read the file in blocks, up to the envelope selected, if one is."""
        at = 0

        def fill(buffer: memoryview) -> int:
            """Read the next bytes of the file."""
            nonlocal at
            count = self.source.read_into(at, buffer)
            at += count
            report(at)
            return count

        with Auditor(self.limits, now=EPOCH).raw_blocks(fill) as blocks:
            for rows in blocks:
                if self.wanted is not None and self.count + len(rows) >= self.wanted:
                    rows = rows[: self.wanted - self.count]
                self._add_all(rows)
                if self.count == self.wanted:
                    return

    def _add_all(self, rows: List[RawRow]) -> None:
        """List the envelopes of some rows, of which only those at the ends are kept."""
        before = self.count
        self.count += len(rows)
        in_front = min(len(rows), max(0, LISTED - len(self.first)))
        for nth, raw in enumerate(rows[:in_front]):
            self.first.append(found_of(before + nth + 1, raw))
        start = max(in_front, len(rows) - LISTED)
        self._recent.extend(enumerate(rows[start:], before + start + 1))

    def _refusal_of(self, found: Found) -> Optional[iim.RefusedError]:
        """Return the refusal of an envelope, or `None`."""
        return self.refusal if self.refusal and found.nth == self.refusal.nth else None

    def listed(self) -> List[Found]:
        """Return the envelopes that are listed: those at both ends of the file."""
        return [*self.first, *self.last]

    def selected(self) -> List[Found]:
        """Return the envelopes to show: one selected and the rejected one, or those at the ends."""
        listed = self.listed()
        if self.wanted is not None or not self.shows_all:
            return [
                found for found in listed if found.nth == self.wanted or self._refusal_of(found)
            ]
        return listed if len(listed) <= 2 * WHOLE else [*listed[:WHOLE], *listed[-WHOLE:]]

    def verdict(self) -> str:
        """Return a summary of the file, in a few words."""
        if not self.source.size:
            return "no octets"
        accepted = (
            f"{counted(self.source.size, 'octet')}, {counted(self.count, 'envelope')} accepted"
        )
        if self.refusal is None:
            return accepted + ", and read no further" * (self.count == self.wanted)
        verdict = f"{accepted}, envelope {self.refusal.nth:,} refused"
        if self.findings and self.findings.kind:
            return f"{verdict}: {self.findings.kind.name}, no IIM"
        if self.findings and self.findings.is_message:
            return f"{verdict}: a bare IPTC 7901 message, no IIM"
        return verdict
