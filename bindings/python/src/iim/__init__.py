"""Read, check, audit and pack IIM envelopes that carry wire copy.

IIM is the Information Interchange Model, version 4. The work is done by the C library libiim.so.

    import iim

    for envelope in iim.read("copy.iim"):
        print(envelope.id.service, envelope.headline, envelope.bylines, envelope.story_lines())

    $ python3 -m iim FILE..           prints one line of JSON per envelope
    $ python3 -m iim explain FILE     shows what a file contains and why it was rejected

Memory: `read` and `audit` read a file in blocks and never hold all of it.

Text: values are `Octets`, a subclass of `bytes`. IIM does not state the character set, so you pass
an encoding to `text(encoding)`.

Errors: invalid input raises `RefusedError`, which has the layer, the dataset, the offset of the
byte and the cause. Input that ends inside an envelope raises its subclass `TruncatedError`. Both
are `IimError`. docs/reference/causes.md lists all causes, docs/reference/format.md describes the
format, and docs/guide/python.md has complete programs; the package python3-iim has all three in
/usr/share/doc/python3-iim.

Threads: any number of threads may call the functions of this module and read the same `Envelope` or
error at the same time. Give each thread its own `Receiver` and `Auditor`: a call on one that
another thread is using raises `RuntimeError` and changes nothing.

Library: at the first call libiim.so is loaded from the path in the environment variable
IIM_LIBRARY; otherwise from the directory of this package; otherwise, in a clone, from bindings/out,
where bindings/build writes it; otherwise from the system's library path.

Names of release 2: `Refused`, `Truncated`, `TicketRefused`, `ScriptRefused`, `Fed`, `Place` and
`PartId` are other names of the same classes. `fields`, `lines`, `as_json`, and of a receiver
`ticket`, `place`, `next` and `tries` give a `DeprecationWarning`, which names what to use instead.
"""
from __future__ import annotations

import importlib
from typing import TYPE_CHECKING, Any

from iim import auditing, octets, receiver, values
from iim._deprecated import warn_of_old_name
from iim.auditing import Auditor, AuditRow, audit, audit_blocks
from iim.building import BuildError, build
from iim.errors import (
    IimError,
    Refusal,
    Refused,
    RefusedError,
    ScriptError,
    ScriptRefused,
    TicketError,
    TicketRefused,
    Truncated,
    TruncatedError,
)
from iim.octets import Octets
from iim.packing import pack, script
from iim.reader import check, read
from iim.receiver import Fed, FeedResult, Place, Position, Receiver
from iim.streams import Stream
from iim.values import (
    WIRE,
    Envelope,
    Field,
    Header,
    Id,
    Limits,
    PartialId,
    PartId,
    Rule,
    Sizes,
    admits,
    cause_name,
    cause_text,
    dataset_name,
    layer_name,
    row,
)

__all__ = [
    "AuditRow",
    "Auditor",
    "BuildError",
    "Envelope",
    "Error",
    "Fed",
    "FeedResult",
    "Field",
    "Header",
    "Id",
    "IimError",
    "Limits",
    "Octets",
    "PartId",
    "PartialId",
    "Place",
    "Position",
    "Receiver",
    "Refusal",
    "Refused",
    "RefusedError",
    "Rule",
    "ScriptError",
    "ScriptRefused",
    "Sizes",
    "Stream",
    "TicketError",
    "TicketRefused",
    "Truncated",
    "TruncatedError",
    "WIRE",
    "admits",
    "audit",
    "audit_blocks",
    "build",
    "cause_name",
    "cause_text",
    "check",
    "dataset_name",
    "layer_name",
    "pack",
    "read",
    "row",
    "script",
]

# The release: that of the command and of the library.
__version__ = "2"

# Another name of the base class of the exceptions.
Error = IimError

# Types and constants. `pydoc` has nothing to show of them, so they are not in the list.
AnyFile = octets.AnyFile
AnyOctets = octets.AnyOctets
AnySource = octets.AnySource
Event = receiver.Event
RawRow = auditing.RawRow
BLOCK = receiver.BLOCK
NEED_DATA = receiver.NEED_DATA
END_OF_INPUT = receiver.END_OF_INPUT
GREATEST = values.GREATEST
GREATEST_LIMIT = values.GREATEST_LIMIT
LAST_SECOND = auditing.LAST_SECOND

# The names of release 2 that are those of `iim.program` now.
_OF_PROGRAM = frozenset(
    "FAILED STOPPED CannotWrite Failed Terminated complain main naming print_line print_text"
    " program_name".split()
)

if not TYPE_CHECKING:

    def __getattr__(name: str) -> Any:
        """Return a name of release 2 that is not of the library, but of the command."""
        if name not in _OF_PROGRAM:
            raise AttributeError(f"module {__name__!r} has no attribute {name!r}")
        warn_of_old_name(f"iim.{name}", f"iim.program.{name}")
        return getattr(importlib.import_module("iim.program"), name)
