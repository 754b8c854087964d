"""The exceptions that report invalid input."""
from __future__ import annotations

import json
from dataclasses import dataclass
from typing import Any, Dict, List, Optional, Tuple

from iim._deprecated import warn_of_old_name
from iim.octets import Octets
from iim.values import Field, PartialId, as_latin, cause_name, datasets_of, dataset_name


class IimError(Exception):
    """Base class of the exceptions that report invalid input."""


@dataclass(frozen=True)
class Refusal:
    """Where and why input was rejected. `str()` is the line that `iimwire check` prints.

    Attributes:
        nth: The number of the envelope in the input, from 1.
        at: The offset of its first byte in the input.
        layer: The layer that rejected it, such as "dataset" or "message".
        record: The record number of the dataset named.
        number: The dataset number of the dataset named.
        octet: The offset of the rejected byte from the envelope's first byte.
        cause: The number of the cause; `iim.cause_text` describes it.
        cause_name: The name of the cause, such as "BadValue".
    """

    nth: int
    at: int
    layer: str
    record: int
    number: int
    octet: int
    cause: int
    cause_name: str

    @property
    def dataset(self) -> str:
        """The record and dataset number of the dataset named, such as "8:10"."""
        return f"{self.record}:{self.number:02}"

    @property
    def octet_in_file(self) -> int:
        """The offset of the rejected byte from the first byte of the input."""
        return self.at + self.octet

    def __str__(self) -> str:
        """Return the line that `iimwire check` prints."""
        where = f"{self.nth} refused at octet {self.octet} by layer {self.layer} on {self.dataset}"
        return f"{where}, cause {self.cause} {self.cause_name}"


class RefusedError(IimError):
    """Raised if input is invalid. `str()` is the line that `iimwire check` prints.

    Attributes:
        refusal: Where and why the input was rejected, as one value.
        nth: The number of the envelope in the input, from 1.
        at: The offset of its first byte in the input.
        layer: The layer that rejected it, such as "dataset" or "message".
        record: The record number of the dataset named.
        number: The dataset number of the dataset named.
        dataset: Both numbers, such as "8:10".
        octet: The offset of the rejected byte from the envelope's first byte.
        octet_in_file: The offset of the rejected byte from the first byte of the input.
        cause: The number of the cause; `iim.cause_text` describes it.
        cause_name: The name of the cause, such as "BadValue".
        story: The story that was received before the error: from `Receiver.feed`, the part in the
            last chunk; from `read` without `on_text`, all of it.
        ticket: The saved state before the rejected byte; `Receiver.resume` continues from it. It is
            empty if `check` raised the error.
        datasets: The datasets of records 1 and 2 received before the error, in the order sent. The
            list is empty if `check` raised the error.
    """

    def __init__(self, *parts: Any, story: bytes = b"", ticket: bytes = b"", **old: Any) -> None:
        """Create the exception.

        Args:
            parts: The `Refusal`. The parts of a refusal, followed by the story, are deprecated.
            story: The story that was received before the error.
            ticket: The saved state before the rejected byte.
            old: The parts of a refusal by their names, which are deprecated.
        """
        if len(parts) == 1 and isinstance(parts[0], Refusal) and not old:
            refusal = parts[0]
        else:
            warn_of_old_name(f"{type(self).__name__} of single values", "that of a Refusal")
            story = parts[7] if len(parts) == 8 else story
            refusal = refusal_of(*parts[:7], **old)
        super().__init__(refusal)
        self.refusal = refusal
        self.nth, self.at = refusal.nth, refusal.at
        self.layer, self.record, self.number = refusal.layer, refusal.record, refusal.number
        self.octet, self.octet_in_file = refusal.octet, refusal.octet_in_file
        self.cause, self.cause_name = refusal.cause, refusal.cause_name
        self.dataset = refusal.dataset
        self.story, self.ticket = Octets(story), ticket
        self.datasets: List[Field] = datasets_of(ticket) if ticket else []

    @property
    def fields(self) -> List[Field]:
        """The `datasets`. Deprecated."""
        warn_of_old_name("fields", "datasets")
        return self.datasets

    @property
    def id(self) -> PartialId:
        """The identifier of the envelope; parts that were not received are `None`."""
        first: Dict[Tuple[int, int], Octets] = {}
        for record, number, octets in self.datasets:
            first.setdefault((record, number), octets)
        return PartialId(first.get((1, 30)), first.get((1, 40)), first.get((1, 70)))

    def to_dict(self, encoding: Optional[str] = None) -> Dict[str, Any]:
        """Return the error as a dictionary for JSON, with bytes as Latin-1.

        Args:
            encoding: The encoding of text, or `None` for Latin-1.
        """
        names = "layer", "dataset", "octet", "octet_in_file", "cause", "cause_name"
        refused = {name: getattr(self, name) for name in names}
        parts = self.id._asdict().items()
        return {
            "envelope": self.nth,
            "at": self.at,
            "refused": {**refused, "name": dataset_name(self.record, self.number)},
            "id": {name: None if octets is None else as_latin(octets) for name, octets in parts},
            "fields": [field.to_dict(encoding) for field in self.datasets],
        }

    def to_json(self, encoding: Optional[str] = None) -> str:
        """Return the error as a line of JSON, with bytes as Latin-1.

        Args:
            encoding: The encoding of text, or `None` for Latin-1.
        """
        return json.dumps(self.to_dict(encoding))

    def as_json(self) -> Dict[str, Any]:
        """Return the same as `to_dict`. Deprecated."""
        warn_of_old_name("as_json", "to_dict")
        return self.to_dict()


class TruncatedError(RefusedError):
    """Raised if the input ends inside an envelope. More bytes may complete it."""


class TicketError(IimError):
    """Raised if bytes are not a valid ticket, so that no receiver can resume from them.

    Attributes:
        cause: The number of the cause.
    """

    def __init__(self, cause: int) -> None:
        """Create the exception for the number of a cause."""
        super().__init__(cause)
        self.cause = cause

    def __str__(self) -> str:
        """Return the cause as text."""
        return f"no ticket: cause {self.cause} {cause_name(self.cause)}"


class ScriptError(IimError):
    """Raised if a script is invalid. `str()` is the line that `iimwire pack` prints.

    Attributes:
        line: The number of the invalid line, from 1.
        cause: The number of the cause.
    """

    def __init__(self, line: int, cause: int) -> None:
        """Create the exception for a line and the number of a cause."""
        super().__init__(line, cause)
        self.line, self.cause = line, cause

    def __str__(self) -> str:
        """Return the line that `iimwire pack` prints."""
        return f"refused: script line {self.line} cause {self.cause} {cause_name(self.cause)}"


def refusal_of(
    nth: int, at: int, layer: str, record: int, number: int, octet: int, cause: int
) -> Refusal:
    """Return a refusal, with the name of its cause."""
    return Refusal(nth, at, layer, record, number, octet, cause, cause_name(cause) or "")


# The names of release 2.
Refused = RefusedError
Truncated = TruncatedError
TicketRefused = TicketError
ScriptRefused = ScriptError
