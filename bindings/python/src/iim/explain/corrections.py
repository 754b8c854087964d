"""Correct an invalid value: other forms of it that its dataset accepts."""
from __future__ import annotations

import datetime
import re
from typing import Iterator, NamedTuple, Optional

import iim
from iim.explain import words

# The forms of dates with names of months.
NAMED_MONTHS = "%d %b %Y", "%d %B %Y", "%b %d %Y", "%B %d %Y", "%d-%b-%Y", "%d%b%Y"


class Correction(NamedTuple):
    """Another form of a value.

    Attributes:
        value: The form.
        how: How it differs, such as "without its hyphens".
        reason: The likely reason of the invalid form.
    """

    value: bytes
    how: str
    reason: str


def corrections(record: int, number: int, value: bytes) -> Iterator[Correction]:
    """Yield the forms of a value that its dataset accepts, the likeliest first."""
    rule = iim.row(record, number)
    if rule is None:
        return
    seen = {value}
    for each in _forms(rule, value):
        if each.value not in seen and iim.admits(record, number, each.value):
            seen.add(each.value)
            yield each


def _forms(rule: iim.Rule, value: bytes) -> Iterator[Correction]:
    """Yield forms of a value, by the kind of its dataset."""
    if rule.kind in (words.DATE, words.PART_DATE):
        yield from _dates(value)
    elif rule.kind == words.TIME:
        yield from _times(value)
    elif rule.kind == words.DIGITS:
        yield from _digits(rule, value)
    elif rule.kind in words.TEXTS:
        yield from _texts(rule, value)
    elif rule.kind in (words.BINARY, words.SIZE, words.SIZE_FROM_ONE, words.MODE):
        yield from _numbers(rule, value)


# --- Dates and times


def _dates(value: bytes) -> Iterator[Correction]:
    """Yield other forms of a date."""
    text = value.decode("latin-1").strip("\0 \t\r\n")
    front = text.partition("T")[0].partition(" ")[0] if len(text) > 10 else text
    digits = re.sub(r"\D", "", front)
    parts = re.findall(r"\d+", front)
    marks = "".join(sorted(set(re.sub(r"\d", "", front))))
    if len(digits) == 8 and digits != text:
        how = f"without '{marks}'" if marks else "without what is beside it"
        yield _date(digits, how, f"the date is written with '{marks}' between its parts"[:80])
    if len(parts) == 3 and len(parts[2]) == 4:
        yield from _orders(parts[0].zfill(2), parts[1].zfill(2), parts[2])
    elif len(parts) == 3 and len(parts[0]) == 4:
        made = parts[0] + parts[1].zfill(2) + parts[2].zfill(2)
        yield _date(made, "with two digits for month and day", "month or day has one digit")
    elif len(digits) == 8:
        yield from _orders(digits[:2], digits[2:4], digits[4:])
    if len(digits) == 6:
        century = "20" if int(digits[:2]) < 70 else "19"
        yield _date(century + digits, "with its century", "the date has no century")
        yield from _orders(digits[:2], digits[2:4], "20" + digits[4:])
    named = re.sub(r"[,.]", "", text)
    for form in NAMED_MONTHS:
        made_of = _parsed(named, form)
        if made_of:
            yield _date(made_of, "in digits", "the date is written with the name of its month")
    if re.fullmatch(r"1[5-9]\d{8}(\.\d+)?", text):
        second = datetime.datetime(1970, 1, 1) + datetime.timedelta(seconds=float(text))
        yield _date(f"{second:%Y%m%d}", "as a day", "the date is written as seconds since 1970")


def _orders(first: str, second: str, year: str) -> Iterator[Correction]:
    """Yield the two orders of a day and a month before a year."""
    reason = "the parts of the date are in another order"
    yield _date(f"{year}{second}{first}", "if it is day, month, year", reason)
    yield _date(f"{year}{first}{second}", "if it is month, day, year", reason)


def _date(value: str, how: str, reason: str) -> Correction:
    """Return the correction of a date."""
    return Correction(value.encode("latin-1"), how, reason)


def _parsed(text: str, form: str) -> Optional[str]:
    """Return the date that a text has in a form, or `None`."""
    try:
        return f"{datetime.datetime.strptime(text, form):%Y%m%d}"
    except ValueError:
        return None


TIME = re.compile(
    r"(?P<hour>\d{1,2})[:.h]?(?P<minute>\d\d)(?:[:.m]?(?P<second>\d\d))?(?:[.,]\d+)?s?\s*"
    r"(?P<offset>Z|UTC|GMT|[+-]\d\d(?::?\d\d)?)?",
    re.I,
)


def _times(value: bytes) -> Iterator[Correction]:
    """Yield other forms of a time."""
    text = value.decode("latin-1").strip("\0 \t\r\n")
    found = TIME.fullmatch(text.rpartition("T")[2].strip())
    if found is None:
        return
    clock = f"{found['hour'].zfill(2)}{found['minute']}{found['second'] or '00'}"
    offset = (found["offset"] or "").upper()
    digits = re.sub(r"\D", "", offset)
    if not offset:
        reason = "the time has no offset from universal time"
        yield Correction(f"{clock}+0000".encode(), "if it is universal time", reason)
    elif not digits:
        reason = f"universal time is written as {offset} in place of +0000"
        yield Correction(f"{clock}+0000".encode(), "with +0000", reason)
    else:
        reason = "the time is written with other marks than its digits and the sign"
        made = f"{clock}{offset[0]}{digits.ljust(4, '0')}"
        yield Correction(made.encode(), "in eleven octets", reason)


# --- Digits, texts and numbers


def _digits(rule: iim.Rule, value: bytes) -> Iterator[Correction]:
    """Yield other forms of digits."""
    digits = re.sub(rb"\D", b"", value)
    if digits and len(digits) <= rule.greatest:
        made = digits.rjust(rule.least, b"0")
        how = "with zeros in front" if len(digits) < rule.least else "with its digits alone"
        what = "has too few digits" if digits == value else "has other octets than digits"
        yield Correction(made, how, f"the number {what}")
    stripped = digits.lstrip(b"0")
    if len(digits) > rule.greatest >= len(stripped):
        made = stripped.rjust(rule.least, b"0")
        yield Correction(made, "without zeros in front", "the number has too many digits")


def _texts(rule: iim.Rule, value: bytes) -> Iterator[Correction]:
    """Yield other forms of a text."""
    if len(value) > rule.greatest:
        end = rule.greatest
        while end and value[end] & 0xC0 == 0x80 and rule.greatest - end < 4:
            # (a character of UTF-8 is not split)
            end -= 1
        how = f"without its last {words.counted(len(value) - end, 'octet')}"
        yield Correction(value[:end], how, "the text is too long for its dataset")
    for put, how in ((b" ", "with a space in place of each"), (b"", "without them")):
        made = b"".join(
            bytes([each]) if _is_graphic(each) or each == 32 and put else put for each in value
        )
        reason = "control characters were pasted into the text"
        if b"\n" in value or b"\r" in value:
            reason = "the text has line ends, which its dataset does not accept"
        if rule.kind == words.LETTERS:
            made = re.sub(rb"[^A-Za-z]", b"", value)
            reason, how = "the code has other octets than letters", "with its letters alone"
        yield Correction(re.sub(b"  +", b" ", made) if put else made, how, reason)
    made = value.replace(b" ", b"")
    yield Correction(made, "without its spaces", "the text has spaces, which are not accepted")


def _is_graphic(octet: int) -> bool:
    """Check whether a byte is graphic."""
    return 0x21 <= octet <= 0x7E or octet >= 0x80


def _numbers(rule: iim.Rule, value: bytes) -> Iterator[Correction]:
    """Yield other forms of a binary number."""
    text = value.strip(b"\0 ")
    if re.fullmatch(rb"\d{1,18}", text):
        size = rule.least if rule.least == rule.greatest else 4
        number = int(text)
        if number < 1 << 8 * max(size, 1):
            reason = "the number is written in digits, not in binary"
            yield Correction(number.to_bytes(max(size, 1), "big"), "in binary", reason)
    number = int.from_bytes(value, "big")
    size = rule.least if rule.least == rule.greatest else 4
    if number < 1 << 8 * size and len(value) != size:
        how = f"in {words.counted(size, 'octet')}"
        yield Correction(number.to_bytes(size, "big"), how, "the number has another size")
