"""Build envelopes from values."""
from __future__ import annotations

import datetime
import re
from typing import Any, Dict, Iterable, Iterator, List, Mapping, NamedTuple, Optional, Tuple, Union

from iim.datasets import ATTRIBUTES
from iim.errors import IimError, ScriptError
from iim.octets import AnyOctets, as_bytes
from iim.packing import pack, script
from iim.values import cause_name, cause_text, row

# What a dataset is given as: bytes, text, a number of digits, a date, or a time.
Value = Union[AnyOctets, str, int, datetime.date, datetime.time]

# The values of mandatory datasets that are the same for all envelopes of this profile, of `number`
# and `service`, which have shorter names here, and of what declares UTF-8 in 1:90.
_FIXED = {"model_version": b"\x00\x04", "file_format": b"\x00\x02", "record_version": b"\x00\x04"}
_SHORT = {"service": "service_identifier", "number": "envelope_number"}
_UTF_8 = b"\x1b%G"

# The duty of a mandatory dataset, as iim.h numbers it, and the cause if one is missing.
_MANDATORY, _MISSING = 1, 14


class BuildError(IimError, ValueError):
    """Raised by `build` if a value is invalid or missing.

    Attributes:
        field: The name of the argument, such as "headline", or "story" or "header".
        cause: The number of the cause; `iim.cause_text` describes it. `None` if the value has no
            encoding at all.
    """

    def __init__(self, field: str, cause: Optional[int], reason: str) -> None:
        """Create the exception."""
        super().__init__(field, cause, reason)
        self.field, self.cause, self._reason = field, cause, reason

    def __str__(self) -> str:
        """Return the name of the argument and the reason."""
        return f"{self.field}: {self._reason}"


class _Dataset(NamedTuple):
    """A dataset of the envelope, with the name of the argument that gives it."""

    record: int
    number: int
    value: bytes
    field: str


def build(
    *,
    service: Union[str, AnyOctets],
    number: Union[int, str, AnyOctets],
    story: Union[str, Iterable[AnyOctets]] = "",
    encoding: str = "utf-8",
    header: Optional[Mapping[str, Value]] = None,
    trailer: AnyOctets = b"",
    subfile: int = 1_024,
    **datasets: Union[None, Value, Iterable[Value]],
) -> bytes:
    """Return the envelope with these values.

        iim.build(service="TST", number=1, headline="Rates held", keywords=["rates", "bank"],
                  story="Rates stay.\\nNo change.")

    Args:
        service: The service identifier, 1:30.
        number: The envelope number, 1:40. An `int` is written with eight digits.
        story: The story: text with a line feed between two lines, or the lines as bytes.
        encoding: The encoding of text. UTF-8 is declared in 1:90, unless `coded_character_set` is
            given.
        header: Parts of the message's header, by the names of `iim.Header`. By default the source
            is the letters of the service, the number that of the envelope, the priority 1:60 or 5,
            the category that of the envelope or NONE, the words those of the story, and info empty.
        trailer: The trailer of the message.
        subfile: The maximum size of a subfile, in bytes.
        datasets: Other datasets of records 1 and 2, by the names that `iim.Envelope` has for them,
            such as `headline` or `keywords`. A plural name takes an iterable. `None` is no dataset.
            A date is written as CCYYMMDD, and a time with its offset. The date sent is today in
            UTC by default, and the file format version is 1.

    Raises:
        BuildError: A value is invalid, or a mandatory dataset is missing. It names the argument.
        TypeError: There is no dataset of that name, or a value has another type.
        ValueError: `subfile` is out of range.
    """
    lines = _lines_of(story, encoding)
    made = [*_datasets_of({"service": service, "number": number, **datasets}, encoding)]
    _require_mandatory(made)
    parts = _header_of(header or {}, made, lines, encoding)
    try:
        written = script([each[:3] for each in made], parts, lines, trailer)
    except ValueError as error:
        what = "story" if str(error).startswith("a line ") else "header"
        raise BuildError(what, None, str(error)) from None
    try:
        return pack(written, subfile=subfile)
    except ScriptError as error:
        raise _error_of(error, made, bool(as_bytes(trailer))) from None


def _require_mandatory(made: List[_Dataset]) -> None:
    """Raise `BuildError` if a mandatory dataset is missing."""
    there = {(each.record, each.number) for each in made}
    for name, (record, number, _) in ATTRIBUTES.items():
        rule = row(record, number)
        if rule is not None and rule.duty == _MANDATORY and (record, number) not in there:
            field = next((short for short, full in _SHORT.items() if full == name), name)
            raise BuildError(field, _MISSING, _reason_of(_MISSING))


def _reason_of(cause: int) -> str:
    """Return the name and the meaning of a cause."""
    return f"{cause_name(cause)}: {cause_text(cause)}"


def _error_of(error: ScriptError, made: List[_Dataset], has_trailer: bool) -> BuildError:
    """Return the error that names the argument of a line of the script."""
    names = [*(each.field for each in made), "header", *["trailer"] * has_trailer]
    field = names[error.line - 1] if error.line <= len(names) else "story"
    return BuildError(field, error.cause, _reason_of(error.cause))


def _lines_of(story: Union[str, Iterable[AnyOctets]], encoding: str) -> List[bytes]:
    """Return the lines of a story as bytes."""
    if isinstance(story, str):
        return [_encoded("story", line, encoding) for line in story.split("\n")]
    if isinstance(story, (bytes, bytearray, memoryview)):
        return as_bytes(story).split(b"\n")
    return [as_bytes(line) for line in story]


def _datasets_of(given: Dict[str, Any], encoding: str) -> Iterator[_Dataset]:
    """Yield the datasets for the arguments, in the order of their numbers."""
    values: Dict[str, Any] = {
        **_FIXED,
        "file_format_version": b"\x00\x01",
        "date_sent": datetime.datetime.now(datetime.timezone.utc).date(),
    }
    if _is_utf_8(encoding):
        values["coded_character_set"] = _UTF_8
    fields = {_SHORT.get(name, name): name for name in given}
    for name in fields:
        if name not in ATTRIBUTES or name in _SHORT.values() and fields[name] == name:
            raise TypeError(f"build() got an unexpected keyword argument {fields[name]!r}")
        values[name] = given[fields[name]]
    for name, (record, number, repeats) in ATTRIBUTES.items():
        found = values.get(name)
        if found is not None:
            field = fields.get(name, name)
            if repeats and isinstance(found, (str, bytes, bytearray, memoryview)):
                raise TypeError(f"{field}: give a list of values")
            for each in found if repeats else [found]:
                yield _Dataset(record, number, _bytes_of(field, each, encoding), field)


def _is_utf_8(encoding: str) -> bool:
    """Check whether an encoding is UTF-8, by any of its names."""
    return encoding.lower().replace("_", "-") in ("utf-8", "utf8")


def _bytes_of(field: str, value: Any, encoding: str) -> bytes:
    """Return a value as the bytes of a dataset."""
    if isinstance(value, str):
        return _encoded(field, value, encoding)
    if isinstance(value, datetime.datetime):
        raise TypeError(f"{field}: give a date or a time, and not both in one")
    if isinstance(value, datetime.date):
        return b"%04d%02d%02d" % (value.year, value.month, value.day)
    if isinstance(value, datetime.time):
        return _time_of(field, value)
    if isinstance(value, int):
        return b"%08d" % value if field == "number" else b"%d" % value
    return as_bytes(value)


def _time_of(field: str, value: datetime.time) -> bytes:
    """Return a time as HHMMSS and its offset."""
    offset = value.utcoffset()
    if offset is None:
        raise BuildError(field, None, "the time has no offset: give it a time zone")
    minutes = abs(offset) // datetime.timedelta(minutes=1)
    sign = "-" if offset < datetime.timedelta(0) else "+"
    return f"{value:%H%M%S}{sign}{minutes // 60:02}{minutes % 60:02}".encode("ascii")


def _encoded(field: str, text: str, encoding: str) -> bytes:
    """Return text as bytes."""
    try:
        return text.encode(encoding)
    except UnicodeEncodeError as error:
        character = text[error.start]
        raise BuildError(field, None, f"{character!r} can't be written in {encoding}") from None


def _if_matches(form: bytes, value: Optional[bytes], default: bytes) -> bytes:
    """Return a value if it has a form, and a default otherwise: its own dataset reports it."""
    return value if value is not None and re.fullmatch(form, value) else default


def _header_of(
    given: Mapping[str, Value], made: List[_Dataset], lines: List[bytes], encoding: str
) -> Tuple[bytes, ...]:
    """Return the parts of the message's header."""
    first: Dict[Tuple[int, int], bytes] = {}
    for record, number, value, _ in made:
        first.setdefault((record, number), value)
    words = sum(len(re.findall(rb"[^ \t]+", line)) for line in lines)
    parts: Dict[str, Any] = {
        "source": re.sub(rb"[^A-Za-z]", b"", first.get((1, 30), b""))[:8] or b"NONE",
        "number": _if_matches(rb"[0-9]{1,8}", first.get((1, 40)), b"0"),
        "priority": _if_matches(rb"[0-9]", first.get((1, 60)), b"5"),
        "category": _if_matches(rb"[A-Za-z0-9]{1,8}", first.get((2, 15)), b"NONE"),
        "words": min(words, 999_999),
        "info": b"",
    }
    unknown = given.keys() - parts.keys()
    if unknown:
        raise TypeError(f"the header has no {', '.join(sorted(unknown))}")
    parts.update(given)
    return tuple(_bytes_of("header", part, encoding) for part in parts.values())
