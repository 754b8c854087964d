"""Choose the likely reason of a refusal, and what to do: by what was tried, or by the dataset."""
from __future__ import annotations

from typing import Dict, List, NamedTuple, Optional, Tuple

import iim
from iim.explain import recognition, words
from iim.explain.causes import CAUSES
from iim.explain.findings import BIT, OTHER, Finding, Findings
from iim.explain.tries import Tries
from iim.explain.words import counted, name, titled


class Reason(NamedTuple):
    """The likely reason of a refusal.

    Attributes:
        reason: The reason.
        advice: What to do.
    """

    reason: str
    advice: str


# The formats of an object, by the value of 1:20 (IIM 4, appendix A).
FORMATS = {
    0: "no object",
    1: "an IPTC-NAA digital newsphoto",
    3: "TIFF",
    4: "Illustrator",
    5: "AppleSingle",
    6: "NAA 89-3 (ANPA 1312)",
    7: "MacBinary II",
    8: "UCOFF, text of IPTC",
    9: "ANPA 1312 of UPI",
    10: "a download message of UPI",
    11: "JPEG (JFIF)",
}

# The likely reason of an invalid value, by the kind of its dataset.
OF_KINDS: Dict[int, Reason] = {
    words.LETTERS: Reason(
        "other octets than letters in a code", "ask the sender to send a code of letters"
    ),
    words.DIGITS: Reason(
        "other octets than digits in a number", "ask the sender to send digits alone"
    ),
    words.DATE: Reason(
        "a date that does not exist, or in another form", "ask the sender to send it as CCYYMMDD"
    ),
    words.PART_DATE: Reason(
        "a date that does not exist, or in another form",
        "ask the sender to send it as CCYYMMDD, with 00 for a month or a day that is not known",
    ),
    words.TIME: Reason(
        "a time that does not exist, or without its offset from universal time",
        "ask the sender to send it as HHMMSS, + or -, HHMM",
    ),
    words.BINARY: Reason(
        "a number that is not in binary", "ask the sender to send it in binary, high octet first"
    ),
    words.MODE: Reason("a size mode other than 00 and 01", "set 7:10 to 00 or 01"),
    words.SIZE: Reason(
        "a size above 9,223,372,036,854,775,807", "ask the sender to send the size in four octets"
    ),
    words.SIZE_FROM_ONE: Reason("a size of 0, or above 9,223,372,036,854,775,807", "set 7:20"),
}
OF_TEXTS = Reason(
    "a control character in a text", "ask the sender to send the text without control characters"
)

# What each part of a message may have, and the most of it.
OF_PARTS: Dict[int, str] = {
    0: "filler (NUL, LF, CR, SYN), at most 32 octets, and then SOH (01)",
    1: "the source: letters, at most 8",
    2: "the number: digits, at most 8, and then SP",
    3: "the priority: one digit",
    4: "SP after the priority",
    5: "the category: letters and digits, at most 8, and then SP",
    6: "the words: digits, at most 6, and then SP or a line end",
    7: "the info: printable text, at most 64 octets, and then a line end",
    8: "the gap before STX (02): NUL, LF, CR, SYN, at most 32 octets with an LF",
    10: "the trailer after ETX: printable text and line ends, at most 64 octets, then EOT (04)",
    11: "filler after EOT (04): NUL, LF, CR, SYN, at most 32 octets",
}


def reason_of(tries: Tries, findings: Findings) -> Reason:
    """Return the likely reason of a refusal, and what to do."""
    refusal, best = tries.refusal, best_of(findings)
    own = own_reason(tries, findings)
    is_bit = best is not None and best.likelihood == BIT and own is not None
    if best is not None and best.reason and not is_bit:
        return Reason(
            best.reason, best.advice or (own.advice if own else "") or default(tries).advice
        )
    if own is not None:
        return own
    if (
        refusal.cause == 1
        and not findings.octets[:1] == b"\x1c"
        and not tries.octet
        and not tries.at
    ):
        return Reason(
            "the file is not IIM, and its first octets are of no kind that is known here",
            "find out what the file is, and where it comes from",
        )
    return default(tries)


def best_of(findings: Findings) -> Optional[Finding]:
    """Return the finding that explains a refusal, or `None`."""
    found = findings.all
    for each in found:
        if each.is_whole or each.outcome is None and each.reason:
            return each
    return found[0] if found and found[0].likelihood < OTHER else None


def default(tries: Tries) -> Reason:
    """Return the reason of a cause, as docs/reference/causes.md has it."""
    cause = CAUSES[tries.refusal.cause]
    return Reason(cause.reason, cause.advice)


def own_reason(tries: Tries, findings: Findings) -> Optional[Reason]:
    """Return the reason that a cause has for the dataset at hand, or `None`."""
    cause = tries.refusal.cause
    if tries.ends:
        return of_end(tries)
    if findings.kind is not None:
        return Reason(f"the file is {findings.kind.name}, and no IIM", findings.kind.advice)
    if cause in OF_CAUSES:
        return OF_CAUSES[cause](tries)
    return None


def of_end(tries: Tries) -> Reason:
    """Return the reason of a file that ends early."""
    return Reason(
        "the transfer was interrupted, or the file is still being written",
        "wait until it is complete, or transfer the file again",
    )


def of_value(tries: Tries) -> Optional[Reason]:
    """Return the reason of an invalid value."""
    rule = iim.row(tries.refusal.record, tries.refusal.number)
    if rule is None:
        return None
    return OF_TEXTS if rule.kind in range(1, 4) else OF_KINDS.get(rule.kind)


def of_count(tries: Tries) -> Optional[Reason]:
    """Return the reason of a count that is out of range."""
    here, refusal = tries.here, tries.refusal
    rule = iim.row(refusal.record, refusal.number)
    if rule is None or here is None or here.size is None:
        return None
    title = titled(refusal.record, refusal.number)
    if here.size > rule.greatest:
        return Reason(
            f"{title} is too long: it counts {here.size:,}; at most {rule.greatest:,}, or its count"
            " is damaged",
            "ask the sender to shorten the value",
        )
    return Reason(
        f"{title} is too short: it counts {here.size:,}; at least {rule.least:,}, or its count is"
        " damaged",
        "ask the sender to complete the value",
    )


def of_format(tries: Tries) -> Optional[Reason]:
    """Return the reason of another file format."""
    here = tries.here
    if here is None or not here.size:
        return None
    value = int.from_bytes(tries.take(here.at + here.head, here.size), "big")
    named = f", {FORMATS[value]}" if value in FORMATS else ""
    return Reason(
        f"1:20 is {value:,}{named}: the object is no IPTC 7901 message, which is 2",
        "use a reader for that format; the object is not a wire story",
    )


def of_record(tries: Tries) -> Optional[Reason]:
    """Return the reason of records in another order."""
    before = tries.datasets[-2].record if len(tries.datasets) > 1 else 0
    record = tries.refusal.record
    if 3 <= record <= 6:
        return Reason(
            f"record {record} is not supported, and must not be there",
            "ask the sender for the wire copy without that record",
        )
    missing = [each for each in (1, 2, 7, 8, 9) if before < each < record]
    if missing:
        which = " and ".join(map(str, missing))
        return Reason(f"record {which} is missing", "check which records the sender writes")
    return None


def of_missing(tries: Tries) -> Reason:
    """Return the reason of a missing dataset."""
    missing = titled(tries.refusal.record, tries.refusal.number)
    return Reason(f"the sender omits {missing}", f"ask the sender to set {missing}")


def of_message(tries: Tries) -> Optional[Reason]:
    """Return the reason of an invalid octet of a message."""
    part = OF_PARTS.get(tries.place.part)
    if part is None:
        return None
    if tries.place.part == 0:
        subfile = next((item for item in tries.datasets if item.record == 8), None)
        begin = subfile.at + subfile.head if subfile else tries.octet
        kind = recognition.kind_of(tries.take(begin, recognition.HEAD))
        if kind is not None:
            return Reason(
                f"the object is {kind.name}, not an IPTC 7901 message",
                "use a reader for that format; the object is not a wire story",
            )
    now = name(tries.take(tries.octet, 1)[0])
    return Reason(
        f"{now} is not accepted there: this part of the message is {part}",
        "compare with the parts of a message in `format.md`",
    )


def of_unfinished(tries: Tries) -> Reason:
    """Return the reason of an object that ends inside its message."""
    return Reason(
        f"the object ends in {words.PARTS[tries.place.part]}: ETX (03) or EOT (04) is missing",
        "check whether the last subfile is there",
    )


def of_sizes(tries: Tries) -> Optional[Reason]:
    """Return the reason of sizes that do not agree."""
    cause = tries.refusal.cause
    envelope = iim.Envelope(tries.refusal.ticket, nth=1, at=0, length=tries.octet)
    sizes = envelope.sizes
    if cause == 24 and sizes.announced is not None:
        missing = sizes.announced - sizes.total
        return Reason(
            f"a subfile is missing, or octets of the object: {counted(missing, 'octet')} fewer than"
            " 7:90 announces",
            CAUSES[cause].advice,
        )
    here = tries.here
    if cause in (22, 23) and here is not None and here.size is not None:
        limits: List[Tuple[str, Optional[int]]] = [("7:20", sizes.subfile)]
        if cause == 23:
            limits = [("7:90", sizes.announced), ("7:95", sizes.maximum)]
        total = here.size if cause == 22 else sizes.total
        for which, most in limits:
            if most is not None and (cause == 22 or total + here.size > most):
                size = here.size if cause == 22 else total + here.size
                what = "a subfile" if cause == 22 else "the object"
                return Reason(
                    f"{what} has {size:,} octets, and {which} allows {most:,}", CAUSES[cause].advice
                )
    return None


OF_CAUSES = {
    10: of_record,
    13: of_count,
    14: of_missing,
    15: of_value,
    16: of_format,
    22: of_sizes,
    23: of_sizes,
    24: of_sizes,
    30: of_message,
    32: of_unfinished,
}


def ask(refusal: iim.RefusedError, previous: Optional[Tuple[Optional[bytes], ...]]) -> str:
    """Return the sentence that an operator needs: which envelope to ask for again.

    Args:
        refusal: The refusal.
        previous: The parts of the identifier of the envelope before it, or `None`.
    """
    service, number, date = refusal.id
    if service is None and number is None:
        if previous is not None:
            known = " ".join("?" if part is None else words.shown(part) for part in previous)
            return f"Ask for the envelope after {known} again."
        return "Ask the sender for this file again."
    sender = words.shown(service) if service else "the sender"
    which = words.shown(number) if number else "this envelope"
    of_date = f" of {words.shown(date)}" if date else ""
    return f"Ask {sender} for {which}{of_date} again."
