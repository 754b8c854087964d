"""Try changed bytes: pass them to the library, and return how far they are accepted."""
from __future__ import annotations

import datetime
from typing import List, NamedTuple, Optional

import iim
from iim.auditing import Auditor, RawRow
from iim.explain.words import counted

# The instant of an audit, whose ages are not used.
EPOCH = datetime.datetime(1970, 1, 1, tzinfo=datetime.timezone.utc)


class Outcome(NamedTuple):
    """How far some bytes are accepted.

    Attributes:
        size: Their number.
        envelopes: The number of envelopes accepted.
        ends: The offset after the last of these.
        reach: The offset up to which all is valid.
        first: The end of the first envelope, or the offset up to which it is valid.
        refusal: Why the rest is rejected, or `None`.
        is_cut: Whether more bytes follow, which were not tried.
    """

    size: int
    envelopes: int
    ends: int
    reach: int
    first: int
    refusal: Optional[iim.RefusedError]
    is_cut: bool = False

    @property
    def is_all(self) -> bool:
        """Whether everything is accepted, and that is not nothing."""
        return self.refusal is None and self.envelopes > 0

    @property
    def tail(self) -> int:
        """The number of bytes after the last envelope, if they do not begin one; otherwise 0."""
        is_between = self.envelopes and self.refusal is not None and not self.refusal.octet
        return self.size - self.ends if is_between else 0

    def sentence(self) -> str:
        """Return the outcome in words."""
        if self.is_all:
            tried = ", as far as was tried" * self.is_cut
            return f"accepted: {counted(self.envelopes, 'envelope')}{tried}"
        if self.envelopes:
            accepted = f"{counted(self.envelopes, 'envelope')} accepted, up to octet {self.ends:,}"
            return f"{accepted} of {self.size:,}"
        return f"valid up to octet {self.reach:,} of {self.size:,}"


def judge(octets: bytes, limits: iim.Limits = iim.WIRE, is_cut: bool = False) -> Outcome:
    """Return how far bytes are accepted.

    Args:
        octets: The bytes.
        limits: The limits on records 1 and 2.
        is_cut: Whether more bytes follow. Then an incomplete envelope at the end is no error.
    """
    count, ends, at, first = 0, 0, 0, 0

    def fill(buffer: memoryview) -> int:
        """Copy the next bytes."""
        nonlocal at
        piece = octets[at : at + len(buffer)]
        buffer[: len(piece)] = piece
        at += len(piece)
        return len(piece)

    refusal: Optional[iim.RefusedError] = None
    try:
        rows: List[RawRow]
        for rows in Auditor(limits, now=EPOCH).raw_blocks(fill):
            first = first or rows[0][1]
            count, ends = count + len(rows), rows[-1][0] + rows[-1][1]
    except iim.RefusedError as fault:
        refusal = fault
    reach = refusal.octet_in_file if refusal else len(octets)
    if is_cut and count and isinstance(refusal, iim.TruncatedError):
        refusal = None
    return Outcome(len(octets), count, ends, reach, first or reach, refusal, is_cut)
