"""Values of envelopes, and the standard's tables."""
from __future__ import annotations

import ctypes
import datetime
import functools
import json
import struct
from typing import Any, Callable, Dict, List, NamedTuple, Optional, Tuple

from iim import _library
from iim._deprecated import warn_of_old_name
from iim._library import library
from iim.datasets import ATTRIBUTES, TITLES, NamedDatasets
from iim.designations import encoding_of
from iim.octets import AnyOctets, Octets, as_bytes

# The maximum size of an object, and the maximum of a limit.
GREATEST = 2**63 - 1
GREATEST_LIMIT = 2**32 - 1


# --- The tables ---


def name_of(function: Callable[..., int], *numbers: int) -> Optional[str]:
    """Return the name that a C function writes for some numbers, or `None`."""
    out = ctypes.create_string_buffer(128)
    return out.value.decode("ascii") if function(*numbers, out, len(out)) else None


@functools.lru_cache(maxsize=None)
def dataset_name(record: int, number: int) -> Optional[str]:
    """Return the standard's name of a dataset, such as "Headline" for 2:105, or `None`.

    Args:
        record: The record number, 0 to 255.
        number: The dataset number, 0 to 255.

    Raises:
        ValueError: A number is out of range.
    """
    return name_of(library.iim_dataset_name, *_numbers_of(record, number))


@functools.lru_cache(maxsize=None)
def cause_name(cause: int) -> Optional[str]:
    """Return the name of a cause, such as "CountRange" for 13, or `None` if it does not exist.

    Args:
        cause: The number of the cause, 0 to 255.

    Raises:
        ValueError: The number is out of range.
    """
    return name_of(library.iim_cause_name, *_numbers_of(cause))


@functools.lru_cache(maxsize=None)
def cause_text(cause: int) -> Optional[str]:
    """Return the meaning of a cause, or `None` if there is no such cause.

    The text is that of docs/reference/causes.md, such as "9:10 is not the total" for 25.

    Args:
        cause: The number of the cause, 0 to 255.

    Raises:
        ValueError: The number is out of range.
    """
    return name_of(library.iim_cause_text, *_numbers_of(cause))


@functools.lru_cache(maxsize=None)
def layer_name(layer: int) -> Optional[str]:
    """Return the name of a layer, such as "dataset" for 1, or `None` if there is no such layer.

    Args:
        layer: The number of the layer, 0 to 255.

    Raises:
        ValueError: The number is out of range.
    """
    return name_of(library.iim_layer_name, *_numbers_of(layer))


def _numbers_of(*numbers: int) -> Tuple[int, ...]:
    """Return the numbers. Raise `ValueError` if one does not fit in a byte."""
    for number in numbers:
        if not 0 <= number <= 255:
            raise ValueError(f"{number} is not from 0 to 255")
    return numbers


def row(record: int, number: int) -> Optional[Rule]:
    """Return the rule of the standard's tables for a dataset, or `None` if it has no row.

    Args:
        record: The record number, 0 to 255.
        number: The dataset number, 0 to 255.

    Raises:
        ValueError: A number is out of range.
    """
    rule = _library.Rule()
    if not library.iim_row(*_numbers_of(record, number), rule):
        return None
    return Rule(rule.min, rule.max, rule.kind, rule.duty, rule.repeats)


def admits(record: int, number: int, octets: AnyOctets) -> bool:
    """Check whether a dataset has a row in the tables and accepts these bytes as its value.

    Args:
        record: The record number, 0 to 255.
        number: The dataset number, 0 to 255.
        octets: The value.

    Raises:
        ValueError: A number is out of range.
    """
    octets = as_bytes(octets)
    return bool(library.iim_admits(*_numbers_of(record, number), octets, len(octets)))


# --- Values ---


class Limits(NamedTuple):
    """Limits on records 1 and 2 of an envelope, which protect the receiver's memory.

    Attributes:
        octets: The maximum number of bytes of data in both records together.
        fields: The maximum number of datasets in both records together.
    """

    octets: int = 65_536
    fields: int = 512


# The limits of the command.
WIRE = Limits()


class Rule(NamedTuple):
    """The rule of the standard's tables for one dataset.

    Attributes:
        least: The minimum size, in bytes.
        greatest: The maximum size, in bytes.
        kind: The kind of value, as iim.h numbers it.
        duty: Whether the dataset is mandatory, as iim.h numbers it.
        repeats: Whether the dataset may occur more than once.
    """

    least: int
    greatest: int
    kind: int
    duty: int
    repeats: bool


class Field(NamedTuple):
    """One dataset of record 1 or 2.

    Attributes:
        record: The record number.
        number: The dataset number.
        octets: The value, as bytes.
    """

    record: int
    number: int
    octets: Octets

    @property
    def dataset(self) -> str:
        """The record and dataset number, such as "2:105"."""
        return f"{self.record}:{self.number:02}"

    @property
    def name(self) -> Optional[str]:
        """The standard's name of the dataset, such as "Headline", or `None`."""
        return TITLES.get((self.record, self.number))

    def text(self, encoding: str, errors: str = "strict") -> str:
        """Return the value decoded as text.

        Args:
            encoding: The encoding, such as "latin-1" or "utf-8".
            errors: How to handle bytes that cannot be decoded, as for `bytes.decode`.
        """
        return self.octets.text(encoding, errors)

    def to_dict(self, encoding: Optional[str] = None) -> Dict[str, Any]:
        """Return the dataset as a dictionary for JSON, with its bytes as Latin-1.

        Args:
            encoding: The encoding of text, or `None` for Latin-1.
        """
        octets = decoded(self.record, self.number, self.octets, encoding)
        return {"dataset": self.dataset, "name": self.name, "octets": octets}

    def as_json(self) -> Dict[str, Any]:
        """Return the same as `to_dict`. Deprecated."""
        warn_of_old_name("as_json", "to_dict")
        return self.to_dict()


class Id(NamedTuple):
    """The identifier of an envelope. Envelopes with equal ids are one envelope, sent repeatedly.

    Attributes:
        service: The service identifier, 1:30.
        number: The envelope number, 1:40.
        date_sent: The date sent, 1:70.
    """

    service: Octets
    number: Octets
    date_sent: Octets


class PartialId(NamedTuple):
    """The identifier of a rejected envelope. A part that was not received is `None`.

    Attributes:
        service: The service identifier, 1:30.
        number: The envelope number, 1:40.
        date_sent: The date sent, 1:70.
    """

    service: Optional[Octets]
    number: Optional[Octets]
    date_sent: Optional[Octets]


# The name of release 2.
PartId = PartialId


class Header(NamedTuple):
    """The header of an IPTC 7901 message.

    Attributes:
        source: The identifier of the source.
        number: The message number.
        priority: The priority, one digit.
        category: The category of the subject.
        words: The announced number of words.
        info: The free text at the end of the header.
    """

    source: Octets
    number: Octets
    priority: Octets
    category: Octets
    words: Octets
    info: Octets


class Sizes(NamedTuple):
    """The sizes of an object, from records 7 to 9.

    Attributes:
        mode: The size mode, 7:10: 1 if the size is announced, and 0 otherwise.
        subfile: The maximum size of a subfile, 7:20, in bytes.
        announced: The announced size, 7:90, or `None`.
        maximum: The maximum size, 7:95, or `None`.
        subfiles: The number of subfiles received.
        total: The number of bytes received in all subfiles.
    """

    mode: int
    subfile: int
    announced: Optional[int]
    maximum: Optional[int]
    subfiles: int
    total: int


# --- Envelopes ---


# A dataset as the library writes it: record, number, and its value's offset and size in the ticket.
_DATASET = struct.Struct("BBNN")

# The initial capacity of the array of datasets: more than most envelopes have.
_FIELDS = 64


def datasets_of(ticket: bytes) -> List[Field]:
    """Return the datasets of a ticket, in the order sent. An empty ticket has none."""
    extension = _library.extension()
    if extension is not None:
        found: Optional[List[Field]] = extension.datasets(ticket, Field, Octets)
        return found or []
    answer, capacity = _library.Answer(), _FIELDS
    while True:
        array = ctypes.create_string_buffer(capacity * _DATASET.size)
        library.iim_fields(ticket, len(ticket), 0, array, capacity, answer)
        if answer.status != _library.SHORT:
            break
        capacity = answer.written
    if answer.status != _library.DONE:
        return []
    # (the same as calling the class, in less than half the time)
    made, new = array.raw[: answer.written * _DATASET.size], tuple.__new__
    return [
        new(Field, (record, number, Octets(ticket[at : at + count])))
        for record, number, at, count in _DATASET.iter_unpack(made)
    ]


def instant_of(date: Optional[bytes], time: Optional[bytes]) -> Optional[datetime.datetime]:
    """Return the instant of a date and a time as datasets have them, with the offset of the time.

    Args:
        date: A valid date as CCYYMMDD, or `None`.
        time: A valid time as HHMMSS and an offset such as +0100, or `None`.

    Returns:
        The instant. `None` if one is missing, or if the instant is after 9999-12-30T22:00:00Z, the
        last one that the library knows.
    """
    if date is None or time is None:
        return None
    day = datetime.date(int(date[:4]), int(date[4:6]), int(date[6:]))
    local = datetime.datetime.combine(
        day, datetime.time(int(time[:2]), int(time[2:4]), int(time[4:6]))
    )
    minutes = 60 * int(time[7:9]) + int(time[9:11])
    offset = datetime.timedelta(minutes=-minutes if time[6:7] == b"-" else minutes)
    if local - _FIRST - offset > _LAST - _FIRST:
        return None
    return local.replace(tzinfo=datetime.timezone(offset))


_FIRST, _LAST = datetime.datetime(1, 1, 1), datetime.datetime(9999, 12, 30, 22)


class Envelope(NamedDatasets):
    """A complete envelope.

    Each dataset of records 1 and 2 that the standard names is a property. A dataset that may occur
    once, such as `headline`, `date_sent` or `urgency`, is its value, or `None` if the envelope does
    not have it. A dataset that may repeat has a plural name, such as `bylines`, `keywords` or
    `supplemental_categories`, and is a list. `first` and `all` look a dataset up by its numbers.

    Attributes:
        nth: The number of the envelope in the input, from 1.
        at: The offset of its first byte in the input.
        length: Its size, in bytes.
        story: The lines of the story joined by LF, or `None` if `read` passed them to `on_text` or
            a `Receiver` returned them chunk by chunk.
    """

    def __init__(
        self, ticket: bytes, nth: int, at: int, length: int, story: Optional[bytes] = None
    ) -> None:
        """Create an envelope.

        Args:
            ticket: The ticket of the complete envelope.
            nth: The number of the envelope in the input, from 1.
            at: The offset of its first byte in the input.
            length: Its size, in bytes.
            story: The lines of the story joined by LF, or `None`.
        """
        # The ticket of the complete envelope, which has all of it but the story.
        self._ticket = as_bytes(ticket)
        self.nth, self.at, self.length = nth, at, length
        self.story: Optional[Octets] = None if story is None else Octets(story)

    def _octets(self, span: _library.Span) -> Octets:
        """Return the bytes of a span of the ticket."""
        return Octets(self._ticket[span.offset : span.offset + span.count])

    @functools.cached_property
    def datasets(self) -> List[Field]:
        """All datasets of records 1 and 2, in the order in which they were sent."""
        return datasets_of(self._ticket)

    @property
    def fields(self) -> List[Field]:
        """The `datasets`. Deprecated."""
        warn_of_old_name("fields", "datasets")
        return self.datasets

    @functools.cached_property
    def _by_number(self) -> Dict[Tuple[int, int], List[Octets]]:
        """The values of each dataset, by its record number and its number."""
        found: Dict[Tuple[int, int], List[Octets]] = {}
        for record, number, octets in self.datasets:
            found.setdefault((record, number), []).append(octets)
        return found

    def all(self, record: int, number: int) -> List[Octets]:
        """Return the values of all datasets with these numbers, in the order sent."""
        return list(self._by_number.get((record, number), ()))

    def first(self, record: int, number: int) -> Optional[Octets]:
        """Return the value of the first dataset with these numbers, or `None` if missing."""
        return next(iter(self._by_number.get((record, number), ())), None)

    def __repr__(self) -> str:
        """Return the number, the id and the size as text."""
        name = " ".join(part.text("latin-1") for part in self.id)
        return f"<envelope {self.nth} {name}, {self.length} octets>"

    @property
    def id(self) -> Id:
        """The identifier: the service, the envelope number and the date sent."""
        return Id(self.service_identifier, self.envelope_number, self.date_sent)

    @property
    def sent(self) -> Optional[datetime.datetime]:
        """When it was sent, 1:70 and 1:80, or `None` without a valid time or instant."""
        return instant_of(self.date_sent, self.time_sent)

    @property
    def release(self) -> Optional[datetime.datetime]:
        """When its copy may be used first, 2:30 and 2:35, or `None`.

        Without a time it is the beginning of the day in UTC.
        """
        return instant_of(self.release_date, self.release_time or b"000000+0000")

    @property
    def expires(self) -> Optional[datetime.datetime]:
        """When its copy may be used last, 2:37 and 2:38, or `None`.

        Without a time it is the last second of the day in UTC.
        """
        return instant_of(self.expiration_date, self.expiration_time or b"235959+0000")

    @property
    def encoding(self) -> Optional[str]:
        """The encoding that 1:90 declares, by its name in Python such as "utf-8", or `None`.

        It is `None` if 1:90 is missing, or declares a set that is not in the table of this package.
        """
        return encoding_of(self.coded_character_set or b"")

    @functools.cached_property
    def _message(self) -> _library.Message:
        """The parts of the message, as spans of the ticket."""
        message = _library.Message()
        library.iim_header(self._ticket, len(self._ticket), message, _library.Answer())
        return message

    @property
    def header(self) -> Header:
        """The header of the message."""
        return Header(*(self._octets(getattr(self._message, name)) for name in Header._fields))

    @property
    def trailer(self) -> Octets:
        """The trailer of the message: the bytes after the story."""
        return self._octets(self._message.trailer)

    @functools.cached_property
    def sizes(self) -> Sizes:
        """The sizes of the object, from records 7 to 9."""
        found = _library.Object()
        library.iim_sizes(self._ticket, len(self._ticket), found, _library.Answer())
        announced = found.announced if found.has_announced else None
        maximum = found.maximum if found.has_maximum else None
        return Sizes(found.mode, found.subfile, announced, maximum, found.subfiles, found.octets)

    def story_lines(self) -> List[Octets]:
        """Return the lines of the story, without line ends.

        Raises:
            ValueError: The envelope has no `story`.
        """
        if self.story is None:
            raise ValueError("the envelope has no story: it was passed on while it was received")
        return [Octets(line) for line in self.story.split(b"\n")]

    @property
    def lines(self) -> List[Octets]:
        """The same as `story_lines()`. Deprecated."""
        warn_of_old_name("lines", "story_lines()")
        return self.story_lines()

    def text(self, encoding: str, errors: str = "strict") -> str:
        """Return the story decoded as text, with a line feed between two lines.

        Args:
            encoding: The encoding, such as "latin-1" or "utf-8".
            errors: How to handle bytes that cannot be decoded, as for `bytes.decode`.

        Raises:
            ValueError: The envelope has no `story`.
        """
        return "\n".join(line.text(encoding, errors) for line in self.story_lines())

    def to_json(self, encoding: Optional[str] = None) -> str:
        """Return the envelope as a line of JSON, with bytes as Latin-1.

        Args:
            encoding: The encoding of text, or `None` for Latin-1.
        """
        return json.dumps(self.to_dict(encoding))

    def as_json(self) -> Dict[str, Any]:
        """Return the same as `to_dict`. Deprecated."""
        warn_of_old_name("as_json", "to_dict")
        return self.to_dict()

    def to_dict(self, encoding: Optional[str] = None) -> Dict[str, Any]:
        """Return the envelope as a dictionary for JSON, with bytes as Latin-1.

        Args:
            encoding: The encoding of text, or `None` for Latin-1. Bytes that are not of it are
                written as `\\x` and two digits.
        """

        def text(octets: bytes) -> str:
            """Return text of the message."""
            return as_text(octets, encoding)

        named: Dict[str, Any] = {}
        for name, (record, number, repeats) in ATTRIBUTES.items():
            values = self.all(record, number)
            found = [decoded(record, number, octets, encoding) for octets in values]
            if found:
                named[name] = found if repeats else found[0]
        lines = None if self.story is None else [text(line) for line in self.story_lines()]
        return {
            "envelope": self.nth,
            "at": self.at,
            "length": self.length,
            "named": named,
            "fields": [field.to_dict(encoding) for field in self.datasets],
            "header": {name: text(octets) for name, octets in self.header._asdict().items()},
            "trailer": text(self.trailer),
            "sizes": self.sizes._asdict(),
            "lines": lines,
        }


def as_latin(octets: bytes) -> str:
    """Return bytes decoded as Latin-1."""
    return octets.decode("latin-1")


def as_text(octets: bytes, encoding: Optional[str]) -> str:
    """Return text decoded from an encoding, or from Latin-1 if it is `None`."""
    return octets.decode(encoding or "latin-1", "backslashreplace")


# The kinds of values that are text, by their numbers in the tables.
_TEXTS = range(1, 6)


def decoded(record: int, number: int, octets: bytes, encoding: Optional[str]) -> str:
    """Return a value decoded from an encoding if it is text, and otherwise from Latin-1."""
    if encoding is None:
        return as_latin(octets)
    rule = row(record, number)
    is_text = rule is not None and rule.kind in _TEXTS
    return as_text(octets, encoding if is_text else None)
