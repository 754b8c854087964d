"""Feed receivers: types of bytes, refusals, limits and saved states."""
from __future__ import annotations
from typing import Any, Callable, Iterable, List, Sequence, Tuple

import array
import io
import pickle

import iim
import pytest
import rules
from envelopes import SMALLEST, STORY, STORY_FIELDS, STORY_HEAD, STORY_LINES
from iim import _library
from support.bindings.comparing import by_check, by_feed
from support.bindings.running import samples
from support.bindings.streams import OnlyRead

pytestmark = pytest.mark.usefixtures("way")


def test_feeds_each_bytes_type() -> None:
    fed: Any
    kinds: List[Callable[[bytes], Any]] = [bytes, bytearray, memoryview]
    for kind in kinds:
        fed = iim.Receiver().feed(kind(STORY + SMALLEST))
        assert (fed.used, fed.story, fed.envelope.headline) == (
            246,
            b"Rates stay.\nNo change.",
            b"Rates held",
        )
    fed = iim.Receiver().feed(memoryview(b"--" + STORY), 2)
    assert (fed.used, fed.envelope.length) == (246, 246)
    receiver = iim.Receiver()
    assert receiver.feed(b"") == (0, b"", None)
    assert receiver.end() is None
    assert receiver.feed(SMALLEST, 114) == (0, b"", None)
    for start in -1, 115:
        pytest.raises(ValueError, receiver.feed, SMALLEST, start)


Fields = Sequence[Tuple[int, int, bytes]]
# Each type of bytes; the last one is not contiguous.
KINDS: List[Callable[[bytes], Any]] = [
    bytes,
    bytearray,
    memoryview,
    iim.Octets,
    lambda octets: array.array("B", octets),
    lambda octets: memoryview(spread(octets))[::2],
]


def spread(octets: bytes) -> bytes:
    """Return bytes, each followed by a zero."""
    return bytes(each for octet in octets for each in (octet, 0))


def made_with(
    fields: Fields,
    head: Sequence[bytes],
    lines: Sequence[bytes],
    trailer: bytes,
    kind: Callable[[bytes], Any] = bytes,
    how: Callable[[Iterable[Any]], Any] = list,
) -> bytes:
    """Return the script of these values, each converted to one type of bytes."""
    fields = how((record, number, kind(octets)) for record, number, octets in fields)
    return iim.script(fields, how(map(kind, head)), how(map(kind, lines)), kind(trailer))


def test_accepts_each_bytes_type_everywhere() -> None:
    text = made_with(STORY_FIELDS, STORY_HEAD, STORY_LINES, b"tail \\")
    receiver = iim.Receiver()
    receiver.feed(STORY[:200])
    for kind in KINDS:
        assert (
            iim.check(kind(SMALLEST)),
            iim.admits(2, 105, kind(b"a")),
            iim.admits(2, 105, kind(b"\0")),
        ) == (114, True, False)
        fed: Any = iim.Receiver().feed(kind(STORY + SMALLEST))
        assert (fed.used, fed.story, fed.envelope.headline) == (
            246,
            b"Rates stay.\nNo change.",
            b"Rates held",
        )
        resumed: Any = iim.Receiver.resume(kind(receiver.current_ticket()), 200).feed(
            kind(STORY[200:])
        )
        assert resumed.envelope.headline == b"Rates held"
        ways: List[Callable[[Iterable[Any]], Any]] = [list, iter]
        for how in ways:
            assert made_with(STORY_FIELDS, STORY_HEAD, STORY_LINES, b"tail \\", kind, how) == text
        assert iim.pack(kind(text)) == iim.pack(text)


def test_rejects_text_and_numbers_as_bytes() -> None:
    receiver = iim.Receiver()
    others: List[Any] = ["", "a", "中文", 0, 5, None, [1, 2]]
    for other in others:
        for call in [
            lambda: iim.check(other),
            lambda: iim.admits(2, 105, other),
            lambda: receiver.feed(other),
            lambda: iim.Receiver.resume(other, 0),
            lambda: iim.pack(other),
            lambda: iim.script([(2, 105, other)], STORY_HEAD, []),
            lambda: iim.script([], [*STORY_HEAD[:5], other], []),
            lambda: iim.script([], [other, *STORY_HEAD[1:]], []),
            lambda: iim.script([], STORY_HEAD, [other]),
            lambda: iim.script([], STORY_HEAD, [], other),
        ]:
            pytest.raises(TypeError, call)
    for head in b"X14N0i", "X14N0i":
        pytest.raises(TypeError, iim.script, [], head, [])
    assert (receiver.octets, receiver.feed(SMALLEST).used) == (0, 114)


def test_reports_the_position_in_the_file() -> None:
    names = [
        "nth",
        "at",
        "layer",
        "record",
        "number",
        "dataset",
        "octet",
        "octet_in_file",
        "cause",
        "cause_name",
        "story",
    ]
    stream = SMALLEST + STORY
    for octets, kind, want in [
        (
            samples()["damaged/bad_value.iim"],
            iim.RefusedError,
            [3, 360, "record", 1, 70, "1:70", 54, 414, 15, "BadValue", b""],
        ),
        (
            STORY[:218],
            iim.TruncatedError,
            [3, 360, "dataset", 8, 10, "8:10", 218, 578, 3, "Truncated", b"Rates "],
        ),
        (b"\x1d", iim.RefusedError, [3, 360, "dataset", 0, 0, "0:00", 0, 360, 1, "Marker", b""]),
    ]:
        given: List[iim.Envelope] = []
        refusal = pytest.raises(
            iim.RefusedError, lambda: given.extend(iim.read(io.BytesIO(stream + octets)))
        ).value
        assert (type(refusal), [getattr(refusal, name) for name in names]) == (kind, want)
        assert [(envelope.nth, envelope.at, envelope.length) for envelope in given] == [
            (1, 0, 114),
            (2, 114, 246),
        ]
        assert [getattr(pickle.loads(pickle.dumps(refusal)), name) for name in names] == want


def test_rejects_calls_after_a_refusal() -> None:
    receiver = iim.Receiver()
    receiver.feed(SMALLEST)
    assert (
        str(pytest.raises(iim.RefusedError, receiver.feed, b"\x1c\x01\0\x81").value)
        == "2 refused at octet 3 by layer dataset on 1:00, cause 2 CountForm"
    )
    for call in (lambda: receiver.feed(b""), receiver.end, lambda: receiver.current_ticket()):
        assert (
            str(pytest.raises(iim.RefusedError, call).value)
            == "2 refused at octet 3 by layer outside on 0:00, cause 61 Failed"
        )


def test_keeps_datasets_before_a_refusal() -> None:
    named = 0
    for name, octets in samples().items():
        for size in 7, 65_536:
            try:
                file: Any = OnlyRead(octets, size)
                list(iim.read(file))
                continue
            except iim.RefusedError as caught:
                refused = pickle.loads(pickle.dumps(caught))
            # (the datasets that are complete before the rejected byte)
            before = rules.read(octets[refused.at : refused.octet_in_file])
            assert (name, [tuple(field) for field in refused.datasets]) == (
                name,
                [tuple(field) for field in before.fields],
            )
            firsts = [rules.first(before.fields, 1, number) for number in (30, 40, 70)]
            assert (name, list(refused.id)) == (name, firsts)
            named += None not in firsts
    # (of 30, each in two ways)
    assert named == 2 * 22
    try:
        iim.check(SMALLEST[:90])
    except iim.RefusedError as refused:
        assert (refused.datasets, refused.id) == ([], (None, None, None))


def test_keeps_the_first_of_each_dataset_of_an_id() -> None:
    with pytest.raises(iim.TruncatedError) as caught:
        list(iim.read(STORY[:100]))
    refused = caught.value
    other = [iim.Field(1, number, iim.Octets(b"OTHER")) for number in (30, 40, 70)]
    known = refused.id
    refused.datasets = [*refused.datasets, *other]
    assert known == refused.id == (b"TST", b"00000002", b"20240301")


def test_accepts_more_after_a_truncation() -> None:
    receiver = iim.Receiver()
    receiver.feed(STORY[:200])
    for _ in range(2):
        assert (
            str(pytest.raises(iim.TruncatedError, receiver.end).value)
            == "1 refused at octet 200 by layer dataset on 8:10, cause 3 Truncated"
        )
    envelope = receiver.feed(STORY[200:]).envelope
    assert envelope and envelope.length == 246
    assert receiver.end() is None


def read_under(limits: Tuple[int, int]) -> str:
    """Return the result of `read` for the worked story under limits."""
    try:
        (envelope,) = iim.read(io.BytesIO(STORY), iim.Limits(*limits))
        return f"done {envelope.length}"
    except iim.RefusedError as refusal:
        return str(refusal)[2:]


def test_enforces_limits() -> None:
    # The worked story has 78 octets in 16 datasets.
    for limits, want in [
        ((78, 16), "done 246"),
        ((77, 16), "refused at octet 155 by layer limits on 2:250, cause 50 HeaderFull"),
        ((78, 15), "refused at octet 155 by layer limits on 2:250, cause 51 TooManyFields"),
        ((77, 15), "refused at octet 155 by layer limits on 2:250, cause 50 HeaderFull"),
    ]:
        assert by_check(STORY, iim.Limits(*limits)) == want
        assert by_feed(STORY, iim.Limits(*limits)) == want
        assert read_under(limits) == want
    for limits in (0, 1), (1, 0), (-1, 1), (2**32, 1), (1, 2**32):
        pytest.raises(ValueError, iim.Receiver, iim.Limits(*limits))
        pytest.raises(ValueError, iim.check, STORY, iim.Limits(*limits))
    assert iim.WIRE == (65536, 512)
    many = (
        SMALLEST[:62]
        + b"".join(rules.dataset_of(2, 25, b"%05d" % at) for at in range(600))
        + SMALLEST[62:]
    )
    assert by_feed(many)[-20:] == "cause 51 TooManyFields"[-20:]
    (envelope,) = iim.read(io.BytesIO(many), iim.Limits(65536, 607))
    assert envelope.keywords == [b"%05d" % at for at in range(600)]


def test_rejects_invalid_tickets() -> None:
    new = iim.Receiver().current_ticket()
    for ticket, cause in [
        (b"X" + new[1:], "100 TicketForm"),
        (new[:4] + b"\x09" + new[5:], "101 TicketVersion"),
        (new + b"\0", "100 TicketForm"),
        (new[:-1], "100 TicketForm"),
        (new[:5] + b"\x02" + new[6:], "102 Impossible"),
    ]:
        assert (
            str(pytest.raises(iim.TicketError, iim.Receiver.resume, ticket, 0).value)
            == f"no ticket: cause {cause}"
        )
    receiver = iim.Receiver()
    receiver.feed(STORY[:180])
    for limits, number in ((77, 16), 50), ((78, 15), 51):
        fault = pytest.raises(
            iim.TicketError,
            iim.Receiver.resume,
            receiver.current_ticket(),
            180,
            iim.Limits(*limits),
        ).value
        assert (fault.cause, pickle.loads(pickle.dumps(fault)).cause) == (number, number)
    later = iim.Receiver.resume(receiver.current_ticket(), 180, iim.Limits(78, 16), nth=7, at=1000)
    envelope = later.feed(STORY[180:]).envelope
    assert envelope
    assert (envelope.nth, envelope.at, envelope.length, later.nth, later.at) == (
        7,
        1000,
        246,
        8,
        1246,
    )
    # The ticket of a complete envelope yields it again.
    again = iim.Receiver.resume(envelope._ticket, 246)
    assert again.end() is None
    fed: Any = again.feed(SMALLEST)
    assert (fed.used, fed.envelope.headline, again.feed(SMALLEST).used) == (0, b"Rates held", 114)
    for octets in -1, 2**64:
        pytest.raises(ValueError, iim.Receiver.resume, new, octets)


def test_lists_the_bytes_accepted_next() -> None:
    for whole in (SMALLEST, STORY):
        for count in range(0, len(whole), 7):
            receiver, next_ones, answer = iim.Receiver(), _library.OctetSet(), _library.Answer()
            receiver.feed(whole[:count])
            ticket = receiver.current_ticket() if count else b""
            _library.library.iim_next(receiver._limits, ticket, len(ticket), next_ones, answer)
            printed = [octet for octet in range(256) if next_ones.bits[octet // 8] >> octet % 8 & 1]
            fits = [
                octet
                for octet in range(256)
                if rules.read(whole[:count] + bytes([octet])).refusal is None
            ]
            assert (count, answer.status, printed) == (count, _library.MORE, fits)


def test_locates_the_rejected_token() -> None:
    # A byte in the tag of 1:70 at 42, in its value, in the text and in the tag of 9:10 at 105.
    for octet, bad, kind, began in [
        (42, 0x1D, 0, 42),
        (44, 0x14, 1, 42),
        (50, 0x41, 2, 47),
        (54, 0x41, 2, 47),
        (103, 0x04, 2, 103),
        (107, 0x0B, 1, 105),
    ]:
        front, rest = iim.Receiver(), SMALLEST[:octet] + bytes([bad]) + SMALLEST[octet + 1 :]
        refused = pytest.raises(iim.RefusedError, lambda: list(iim.read(io.BytesIO(rest)))).value
        front.feed(rest[: refused.octet])
        begun, answer, ticket = _library.Begun(), _library.Answer(), front.current_ticket()
        _library.library.iim_place(ticket, len(ticket), front.octets, begun, answer)
        assert (octet, answer.status, begun.kind, begun.token) == (
            octet,
            _library.DONE,
            kind if refused.octet == octet else begun.kind,
            began,
        )
