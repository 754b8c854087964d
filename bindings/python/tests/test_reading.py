"""Read envelopes as the command and the test oracle do, whole and in chunks."""
from __future__ import annotations
from iim import _library
from iim import values
from typing import Any, Callable, List, Optional, Tuple

import collections
import io
import itertools
import os
import tracemalloc
from pathlib import Path

import envelopes
import iim
import pytest
import rules
import tickets
from envelopes import SMALLEST, STORY, STORY_FIELDS, STORY_HEAD, VARIED
from support.bindings.comparing import (
    by_check,
    by_feed,
    by_rules,
    compare,
    in_chunks,
    printed_for,
    read_whole,
    verdict,
)
from support.bindings.running import samples, write_file
from support.bindings.streams import changed, made, OnlyRead, Repeating

pytestmark = pytest.mark.usefixtures("way")


def test_reads_each_sample_as_the_command(command: Path) -> None:
    compare(
        command,
        [
            *samples().values(),
            b"",
            VARIED,
            VARIED + STORY + SMALLEST,
            SMALLEST * 40 + b"\x1d",
            STORY + SMALLEST[:-1],
        ],
    )


def test_reads_each_prefix_as_the_command(command: Path) -> None:
    for whole in SMALLEST, STORY:
        compare(command, (whole[:count] for count in range(len(whole) + 1)))


def test_reads_each_flipped_bit_as_the_command(command: Path) -> None:
    compare(command, changed(SMALLEST, lambda octet: [octet ^ 1 << bit for bit in range(8)]))


def test_reads_random_envelopes_as_the_command(command: Path) -> None:
    compare(command, made(1, 400))


def test_checks_each_changed_byte_by_the_rules() -> None:
    count = 0
    for octets, envelope in rules.read_changes(SMALLEST):
        count += 1
        want = verdict(envelope)
        assert (octets.hex(), by_check(octets)) == (octets.hex(), want)
        assert (octets.hex(), by_feed(octets)) == (octets.hex(), want)
    assert count == 114 * 256


def test_checks_random_bytes_by_the_rules() -> None:
    for octets in made(2, 2000):
        want = by_rules(octets)
        assert (octets.hex(), by_check(octets), by_feed(octets)) == (octets.hex(), want, want)


def test_returns_the_values_that_the_rules_read() -> None:
    count = 0
    for octets in itertools.chain([SMALLEST, STORY, VARIED], made(3, 800)):
        want = rules.read(octets)
        if not want.is_done:
            continue
        (got,) = iim.read(io.BytesIO(octets[: want.at]))
        count += 1
        assert [tuple(field) for field in got.datasets] == want.fields
        assert list(got.header) == want.message.head()
        assert got.trailer == want.message.texts[rules.Message.TAIL]
        assert got.story_lines() == [bytes(line) for line in want.message.lines]
        numbers = [want.numbers.get(number) for number in (10, 20, 90, 95)]
        assert tuple(got.sizes) == (*numbers, want.subfiles, want.total)
        assert tuple(got.id) == tuple(
            rules.first(want.fields, 1, number) for number in (30, 40, 70)
        )
    assert count > 200, f"only {count} envelopes"


def test_saves_the_states_of_the_rules() -> None:
    for octets in SMALLEST, STORY, VARIED:
        receiver = iim.Receiver()
        assert receiver.current_ticket() == tickets.ticket(rules.read(b""))
        for count in range(len(octets) - 1):
            assert (receiver.feed(octets[count : count + 1]).used, receiver.octets) == (
                1,
                count + 1,
            )
            assert receiver.current_ticket() == tickets.ticket(rules.read(octets[: count + 1]))
        fed = receiver.feed(octets[-1:])
        assert fed.envelope and fed.envelope._ticket == tickets.ticket(rules.read(octets))
        assert (receiver.current_ticket(), receiver.octets) == (iim.Receiver().current_ticket(), 0)


def test_accepts_chunks_of_any_length() -> None:
    for octets in (STORY + SMALLEST + VARIED, *samples().values()):
        want = read_whole(octets)
        for size in range(1, 65):
            assert (size, printed_for(lambda: in_chunks(octets, size))) == (size, want)


def test_resumes_from_a_ticket_after_each_chunk() -> None:
    for octets in (
        SMALLEST + STORY,
        VARIED,
        samples()["subfiles.iim"],
        samples()["damaged/lone_return.iim"],
        STORY[:-1],
    ):
        want = read_whole(octets)
        for size in range(1, 65):
            assert (size, printed_for(lambda: in_chunks(octets, size, resumes=True))) == (
                size,
                want,
            )


def test_reads_files_of_each_kind(folder: str) -> None:
    path = write_file(folder, "a.iim", SMALLEST + STORY)
    with open(path, "rb") as buffered, open(path, "rb", buffering=0) as raw:
        files: Tuple[Any, ...] = (
            path,
            Path(path),
            buffered,
            raw,
            io.BytesIO(SMALLEST + STORY),
            OnlyRead(SMALLEST + STORY),
            SMALLEST + STORY,
            bytearray(SMALLEST + STORY),
            memoryview(SMALLEST + STORY),
        )
        for each in files:
            assert [envelope.length for envelope in iim.read(each)] == [114, 246]
    pytest.raises(FileNotFoundError, list, iim.read(f"{folder}/absent"))
    pytest.raises(IsADirectoryError, list, iim.read(folder))
    text: Any = io.StringIO("text")
    pytest.raises(TypeError, list, iim.read(text))
    reader, writer = os.pipe()
    os.set_blocking(reader, False)
    with open(reader, "rb", buffering=0) as pipe, open(writer, "wb"):
        pytest.raises(BlockingIOError, list, iim.read(pipe))


def test_closes_the_file_of_a_path(folder: str) -> None:
    path = write_file(folder, "a.iim", SMALLEST * 3)

    if not os.path.exists("/proc/self/fd"):
        pytest.skip("/proc is not there")

    def opened() -> List[str]:
        return [name for name in os.listdir("/proc/self/fd") if opened_as(name) == path]

    given: Any = iim.read(path)
    next(given)
    assert len(opened()) == 1
    given.close()
    assert opened() == []


def opened_as(name: str) -> Optional[str]:
    """Return the path of an open file of this process, or `None`."""
    try:
        return os.readlink(f"/proc/self/fd/{name}")
    except OSError:
        return None


def test_yields_each_envelope_once_complete() -> None:
    reader, writer = os.pipe()
    with open(reader, "rb") as pipe, open(writer, "wb", buffering=0) as to:
        given = iim.read(pipe)
        for octets in SMALLEST, STORY, VARIED:
            to.write(octets)
            assert next(given).length == len(octets)
        to.write(SMALLEST[:9])
        to.close()
        pytest.raises(iim.TruncatedError, next, given)


def test_forwards_story_text_as_it_arrives() -> None:
    parts: List[bytes] = []
    octets = rules.packed(
        STORY_FIELDS,
        rules.object_of(STORY_HEAD, [b"line %d" % at for at in range(50_000)], b""),
        1000,
    )
    (envelope,) = iim.read(io.BytesIO(octets), on_text=parts.append)
    assert b"".join(parts) == b"\n".join(b"line %d" % at for at in range(50_000))
    assert len(parts) > 5, f"{len(parts)} parts"
    assert envelope.story is None
    pytest.raises(ValueError, lambda: envelope.story_lines())
    assert envelope.to_dict()["lines"] is None
    parts.clear()
    refusal = pytest.raises(
        iim.RefusedError, list, iim.read(io.BytesIO(SMALLEST + STORY[:218]), on_text=parts.append)
    ).value
    assert (b"".join(parts), refusal.cause) == (b"Rates ", 3)
    (envelope,) = iim.read(io.BytesIO(octets))
    assert envelope.story_lines() == [b"line %d" % at for at in range(50_000)]


def most_held(function: Callable[[], object]) -> int:
    """Return the peak of the memory that Python allocates in a function, in bytes."""
    tracemalloc.start()
    try:
        before = tracemalloc.get_traced_memory()[0]
        function()
        return tracemalloc.get_traced_memory()[1] - before
    finally:
        tracemalloc.stop()


def test_buffers_no_input(folder: str) -> None:
    many: Any = Repeating(STORY * 200, 50)
    read: List[int] = []
    peak = most_held(lambda: read.append(sum(1 for _ in iim.read(many))))
    assert read == [10_000]
    assert peak < 500_000, f"{peak} octets were held of {len(STORY) * 10_000}"
    path = write_file(
        folder,
        "long.iim",
        rules.packed(STORY_FIELDS, rules.object_of(STORY_HEAD, [b"a" * 8_000_000], b""), 2**20),
    )
    counts: List[int] = []

    def read_long() -> None:
        (envelope,) = iim.read(path, on_text=lambda text: counts.append(len(text)))
        assert envelope.length > 8_000_000

    peak = most_held(read_long)
    assert sum(counts) == 8_000_000
    assert peak < 500_000, f"{peak} octets were held of 8,000,000"


class Counting:
    """The library, with a count of the calls of each function."""

    def __init__(self, library: Any) -> None:
        self.library = library
        self.calls: collections.Counter[str] = collections.Counter()

    def __getattr__(self, name: str) -> Any:
        function = getattr(self.library, name)

        def counted(*words: Any) -> Any:
            self.calls[name] += 1
            return function(*words)

        return counted


def many_fields(count: int) -> Tuple[bytes, List[Any]]:
    """Return the smallest envelope with `count` keywords more, and its datasets."""
    fields = [*envelopes.SMALLEST_FIELDS, *((2, 25, b"%08d" % at) for at in range(count))]
    return rules.packed(fields, rules.object_of(envelopes.SMALLEST_HEAD, [b""], b""), 1024), fields


def test_reads_all_datasets_in_two_calls_at_most(monkeypatch: pytest.MonkeyPatch) -> None:
    limits = iim.Limits(200_000, 20_000)
    # (the first call has capacity for 64 datasets)
    for count, calls in (0, 1), (57, 1), (58, 2), (16_000, 2):
        octets, want = many_fields(count)
        (envelope,) = iim.read(io.BytesIO(octets), limits)
        counting = Counting(_library.library)
        with monkeypatch.context() as patch:
            patch.setattr(values, "library", counting)
            # (the extension module makes these calls itself)
            patch.setattr(_library, "extension", lambda: None)
            assert [tuple(field) for field in envelope.datasets] == want
        assert (count, dict(counting.calls)) == (count, {"iim_fields": calls})
        assert {(type(field), type(field.octets)) for field in envelope.datasets} == {
            (iim.Field, iim.Octets)
        }
