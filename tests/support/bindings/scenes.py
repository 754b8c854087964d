"""Scenes of threads that share objects of the package, each run in a separate process.

    python3 -m support.bindings.scenes NAME

with bindings/python/src, tests and bindings/python/tests on PYTHONPATH. A scene prints
its result. It could crash, so no test runs it in its own process.
"""
from __future__ import annotations

import contextlib
import ctypes
import datetime
import importlib
import inspect
import io
import random
import sys
import tempfile
import threading
import time
from typing import Any, Callable, Dict, Iterable, List, Optional, Sequence, Tuple, TypeVar

import envelopes
import iim
import rules
from envelopes import STORY
from iim import _library
from support.bindings.streams import OnlyRead

T = TypeVar("T")
# The threads that use one object, the seconds that they run, and the seconds between switches of
# threads.
THREADS, BUSY, TURN = 4, 4.0, 1e-6
NOW = datetime.datetime(2024, 3, 1, 12, tzinfo=datetime.timezone.utc)
IN_USE = "is in use by another thread, or by a call that has not returned"
# The tests that run no other program, without those that are slow or measure the whole process.
ON_THREADS = {
    "test_reading": """saves_the_states_of_the_rules reads_files_of_each_kind
        yields_each_envelope_once_complete""",
    "test_receiver": """feeds_each_bytes_type accepts_each_bytes_type_everywhere
        rejects_text_and_numbers_as_bytes reports_the_position_in_the_file
        rejects_calls_after_a_refusal keeps_datasets_before_a_refusal
        accepts_more_after_a_truncation enforces_limits rejects_invalid_tickets
        locates_the_rejected_token""",
    "test_values": """returns_the_values_of_the_worked_story decodes_bytes_as_text
        names_causes_and_layers_as_the_rules admits_values_by_the_rules
        has_an_attribute_per_named_dataset""",
    "test_packing": "packs_the_worked_envelopes packs_what_was_read",
}


def on_threads(function: Callable[[Any], T], arguments: Iterable[Any]) -> List[T]:
    """Return a function's result for each argument, each on a separate thread.

    Raise an exception of one of them.
    """
    results: Dict[int, T] = {}
    faults: List[BaseException] = []

    def call(nth: int, argument: Any) -> None:
        try:
            results[nth] = function(argument)
        except BaseException as fault:
            faults.append(fault)

    threads = [threading.Thread(target=call, args=pair) for pair in enumerate(arguments)]
    before = sys.getswitchinterval()
    sys.setswitchinterval(TURN)
    try:
        for each in threads:
            each.start()
        for each in threads:
            each.join()
    finally:
        sys.setswitchinterval(before)
    for fault in faults:
        raise fault
    return [results[nth] for nth in range(len(threads))]


def made(nth: int) -> bytes:
    """Return a different envelope for each thread.

    The sizes of stories and datasets differ, so that buffers grow.
    """
    story = rules.object_of(envelopes.STORY_HEAD, [b"%d " % nth * (2_000 * 5**nth)], b"")
    keywords = [(2, 25, b"%d" % nth * 60)] * (40 * nth)
    fields = [*envelopes.SMALLEST_FIELDS, (2, 105, b"thread %d" % nth), *keywords]
    packed: bytes = rules.packed(fields, story, 1 << 20)
    return packed


def share_a_receiver() -> None:
    """Feed one receiver on several threads, each with complete envelopes that differ."""
    receiver, end = iim.Receiver(), time.monotonic() + BUSY
    fresh = iim.Receiver().current_ticket()

    def feed(nth: int) -> Tuple[int, int]:
        octets, right, refused = made(nth), 0, 0
        want = iim.Receiver().feed(octets)
        assert want.envelope
        parts = len(octets), want.story, b"thread %d" % nth, want.envelope.datasets
        while time.monotonic() < end:
            try:
                fed = receiver.feed(octets)
                assert fed.envelope
                got = fed.used, fed.story, fed.envelope.headline, fed.envelope.datasets
                assert got == parts
                place = (
                    receiver.current_ticket(),
                    receiver.current_position().begun,
                    receiver.next_bytes(),
                )
                assert place == (fresh, "nothing", frozenset({0x1C}))
                assert receiver.try_bytes(octets) == (len(octets), True)
                receiver.end()
                right += 1
            except RuntimeError as fault:
                assert str(fault) == f"the Receiver {IN_USE}"
                refused += 1
        return right, refused

    print_counts(on_threads(feed, range(THREADS)))


def share_an_auditor() -> None:
    """Audit with one auditor on several threads, each with its own input."""
    auditor, end = iim.Auditor(now=NOW), time.monotonic() + BUSY

    def audit(nth: int) -> Tuple[int, int]:
        octets = made(nth) * (4 - nth) + STORY * (nth + 1) + b"\x1d" * (nth % 2)
        right = refused = 0
        want = audited(iim.Auditor(now=NOW), octets)
        while time.monotonic() < end:
            try:
                assert audited(auditor, octets) == want
                right += 1
            except RuntimeError as fault:
                assert str(fault) == f"the Auditor {IN_USE}"
                refused += 1
        return right, refused

    print_counts(on_threads(audit, range(THREADS)))


def audited(auditor: iim.Auditor, octets: bytes) -> Tuple[List[Any], Optional[str], Any]:
    """Return the rows of an input, and its refusal."""
    rows: List[Any] = []
    try:
        for block in auditor.blocks(io.BytesIO(octets).readinto):
            rows += block
    except iim.RefusedError as refusal:
        return rows, str(refusal), refusal.datasets
    return rows, None, None


def print_counts(counts: Sequence[Tuple[int, int]]) -> None:
    """Print how many calls returned right results, and how many raised RuntimeError.

    Neither must be 0.
    """
    right, refused = (sum(column) for column in zip(*counts))
    print("right", right > 10, "in use", refused > 10)


def use_blindly() -> None:
    """Use a receiver that is often replaced by a new one, with small buffers, on several threads.

    No result is checked: only that the process survives.
    """
    shared, end = [iim.Receiver()], time.monotonic() + BUSY
    pieces = [made(nth) for nth in range(THREADS)]

    def use(nth: int) -> None:
        while time.monotonic() < end:
            shared[0] = iim.Receiver()
            for octets in pieces[nth:] + pieces[:nth]:
                with contextlib.suppress(Exception):
                    shared[0].feed(octets)
                    shared[0].feed(octets[: 50 + nth])

    on_threads(use, range(THREADS))
    print("alive")


def load_on_threads() -> None:
    """Load the library by the first calls on several threads at once."""
    rows = on_threads(lambda _: iim.row(2, 105), range(16))
    assert [row and tuple(row) for row in rows] == [(0, 256, 2, 2, False)] * 16
    print("loaded")


def count_words() -> None:
    """Audit random stories in chunks of a few bytes, as `counts_words_in_chunks` does."""
    chance = random.Random(7)
    for _ in range(100):
        lines = bytes(chance.choices(b"ab\xff \t\n", k=chance.randrange(12))).split(b"\n")
        story = rules.object_of(envelopes.STORY_HEAD, lines, b"")
        octets = rules.packed(envelopes.STORY_FIELDS, story, chance.randrange(1, 9)) * 2
        file: Any = OnlyRead(octets, chance.randrange(1, 9))
        rows = iim.audit(file)
        assert [row.counted for row in rows] == 2 * [rules.words_of(lines)]


def run_test(test: Callable[..., None]) -> None:
    """Run a test, with a directory if it takes one."""
    if not inspect.signature(test).parameters:
        return test()
    with tempfile.TemporaryDirectory() as folder:
        return test(folder)


def count() -> int:
    """Return the number of tests that run on threads."""
    return 1 + sum(len(names.split()) for names in ON_THREADS.values())


def tests() -> List[Callable[..., None]]:
    """Return the tests that run on threads."""
    found = [count_words]
    for module, names in ON_THREADS.items():
        imported = importlib.import_module(module)
        found += [getattr(imported, f"test_{name}") for name in names.split()]
    return found


def run_tests_on_threads() -> None:
    """Run each test of the list on several threads at once."""
    for test in tests():
        on_threads(lambda _: run_test(test), range(THREADS))
    print(count(), "tests on", THREADS, "threads")


def write_past_the_end() -> None:
    """Pass the library a length that is not the buffer's, as two threads did."""
    octets, text = made(0), ctypes.create_string_buffer(64)
    room, answer = ctypes.create_string_buffer(1 << 20), _library.Answer()
    limits = _library.Limits(*iim.WIRE)
    buffers = text, 1 << 20, room, len(room)
    _library.library.iim_feed(limits, b"", 0, 0, octets, len(octets), *buffers, answer)


SCENES: Dict[str, Callable[[], None]] = {
    scene.__name__: scene
    for scene in (
        share_a_receiver,
        share_an_auditor,
        use_blindly,
        load_on_threads,
        run_tests_on_threads,
        write_past_the_end,
    )
}

if __name__ == "__main__":
    SCENES[sys.argv[1]]()
