"""Write rows as lines of JSON, which a run and a query print."""
from __future__ import annotations

import datetime
import json
from typing import Callable, List, Optional, Tuple

from iim.archive.rows import EnvelopeRow, FileRows, copy_of, rows_in, seconds

# Return a text as a string of JSON.
quote: Callable[[str], str] = json.JSONEncoder().encode

# A file's name, the id of each envelope and its line up to what it repeats, the line after these,
# the file's state, its size, and the number of held envelopes.
Lines = Tuple[str, List[Tuple[str, str]], Optional[str], str, int, int]


def text_of(path: bytes) -> str:
    """Return the name of a file as text: each byte that is not UTF-8 is `\\x` and two digits."""
    return path.decode("utf-8", "backslashreplace")


def hex_of(path: bytes) -> Optional[str]:
    """Return the bytes of a name in hexadecimal if it is not UTF-8, or else `None`."""
    try:
        path.decode("utf-8")
    except UnicodeDecodeError:
        return path.hex()
    return None


def name_of(path: bytes) -> str:
    """Return the name of a file as a string of JSON.

    If it is not UTF-8, a member `file_hex` with its bytes follows, since JSON has no other bytes.
    """
    octets = hex_of(path)
    text = quote(text_of(path))
    return text if octets is None else f'{text}, "file_hex": "{octets}"'


def file_line(name: str, state: str, reason: Optional[str], target: Optional[bytes] = None) -> str:
    """Return the line of a file that is empty, gone or linked, or that can't be read."""
    if reason is not None:
        return f'{{"file": {name}, "failed": {quote(reason)}}}\n'
    value = quote(text_of(target)) if target is not None else "true"
    return f'{{"file": {name}, "{state}": {value}}}\n'


def refusal_line(name: str, refusal: str) -> str:
    """Return the line of a refusal."""
    return f'{{"file": {name}, {refusal[1:]}\n'


def envelope_front(name: str, row: EnvelopeRow, now: datetime.datetime, second: int) -> str:
    """Return the line of an envelope up to the envelope that it repeats."""
    (
        _,
        nth,
        at,
        length,
        service,
        number,
        date,
        priority,
        size,
        subfiles,
        announced,
        counted,
        sent,
        release,
        expires,
    ) = row
    copy = "free" if release is None and expires is None else copy_of(release, expires, now)
    priority = "null" if priority is None else quote(priority)
    age = "null" if sent is None else second - sent
    return (
        f'{{"file": {name}, "envelope": {nth}, "at": {at}, "length": {length}, '
        f'"service": {quote(service)}, "number": "{number}", "date_sent": "{date}", '
        f'"priority": {priority}, "size": {size}, "subfiles": {subfiles}, '
        f'"announced": {announced}, "counted": {counted}, "age": {age}, "copy": "{copy}", '
        '"repeats": '
    )


def repeats_end(first: Optional[Tuple[str, int]]) -> str:
    """Return the end of an envelope's line: file and number of the envelope that it repeats."""
    return "null}\n" if first is None else f'{{"file": {first[0]}, "envelope": {first[1]}}}}}\n'


def lines_of(rows: FileRows, now: datetime.datetime) -> Lines:
    """Return the lines of a file without the envelopes that its envelopes repeat."""
    name = name_of(rows.path)
    second = seconds(now)
    envelopes = rows_in(rows.envelopes)
    fronts = [
        (row[5] + row[6] + row[4], envelope_front(name, row, now, second)) for row in envelopes
    ]
    held = sum(row[13] is not None and row[13] > second for row in envelopes)
    last = None
    if rows.refusal is not None:
        last = refusal_line(name, rows.refusal[-1])
    elif rows.state != "accepted":
        last = file_line(name, rows.state, rows.reason, rows.target)
    return name, fronts, last, rows.state, rows.size, held
