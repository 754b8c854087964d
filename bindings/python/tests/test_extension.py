"""The extension module has the results of ctypes, frees its memory, and is used by one thread."""
from __future__ import annotations

import contextlib
import ctypes
import gc
import random
import shutil
import sys
import threading
from pathlib import Path
from typing import Any, Callable, Dict, Iterator, List, Tuple

import iim
import pytest
import rules
from envelopes import SMALLEST, SMALLEST_FIELDS, SMALLEST_HEAD, STORY, STORY_FIELDS, VARIED
from iim import _library
from support.bindings.paths import HEADER, TOP, unmeasured
from support.bindings.running import run_text, samples

SOURCE = TOP / "bindings" / "python" / "extension" / "_iim.c"
STREAM = SMALLEST + STORY + VARIED
DONE, MORE, REFUSED, NO_MEMORY, FAILED = 0, 1, 2, 6, 11


@pytest.fixture(scope="module")
def module() -> Any:
    """Return the extension module."""
    found = _library.extension()
    return found or pytest.skip("bindings/build has not made _iim.abi3.so")


def addresses(module: Any) -> Dict[str, int]:
    """Return the address of each function of the library that the module calls."""
    loaded = _library.library.loaded
    return {
        name: ctypes.cast(getattr(loaded, name), ctypes.c_void_p).value or 0
        for name in module.NAMES
    }


@contextlib.contextmanager
def bound(module: Any, **functions: Any) -> Iterator[None]:
    """Let the module call other functions in place of some of the library."""
    own = {name: ctypes.cast(each, ctypes.c_void_p).value or 0 for name, each in functions.items()}
    module.bind({**addresses(module), **own})
    try:
        yield
    finally:
        module.bind(addresses(module))


def described(error: iim.RefusedError) -> Tuple[object, ...]:
    """Return all that an error has."""
    return type(error), error.refusal, error.story, error.ticket, error.datasets


def read(octets: bytes) -> List[object]:
    """Return the envelopes of some bytes, and the error."""
    found: List[object] = []
    try:
        for each in iim.read(octets):
            found.append((each.nth, each.at, each.length, each.story, each.datasets, each._ticket))
    except iim.RefusedError as error:
        found.append(described(error))
    return found


def fed(octets: bytes, size: int) -> List[object]:
    """Return the results of a receiver for chunks of a size, and its tickets."""
    receiver = iim.Receiver()
    found: List[object] = []
    try:
        for at in range(0, len(octets), size):
            chunk, start = octets[at : at + size], 0
            while start < len(chunk):
                used, story, envelope = receiver.feed(chunk, start)
                start += used
                ticket = envelope._ticket if envelope else receiver.current_ticket()
                found.append((used, story, receiver.octets, receiver.nth, receiver.at, ticket))
        receiver.end()
    except iim.RefusedError as error:
        found.append(described(error))
    return found


def by_ctypes(monkeypatch: pytest.MonkeyPatch, call: Callable[[], Any]) -> Any:
    """Return what a call returns without the extension module."""
    with monkeypatch.context() as patch:
        patch.setattr(_library, "extension", lambda: None)
        return call()


def test_reads_what_ctypes_reads(module: Any, monkeypatch: pytest.MonkeyPatch) -> None:
    for name, octets in {**samples(), "stream": STREAM * 3}.items():
        want = by_ctypes(monkeypatch, lambda: read(octets))
        assert (name, read(octets)) == (name, want)
        assert want


@pytest.mark.parametrize("size", [1, 2, 31, 4_095, 4_096, 70_000])
def test_feeds_as_ctypes_feeds(module: Any, monkeypatch: pytest.MonkeyPatch, size: int) -> None:
    for name, octets in {**samples(), "stream": STREAM * 3}.items():
        want = by_ctypes(monkeypatch, lambda: fed(octets, size))
        assert (name, fed(octets, size)) == (name, want)


def test_rejects_each_damaged_byte_as_ctypes(module: Any, monkeypatch: pytest.MonkeyPatch) -> None:
    for at in range(len(STORY)):
        octets = SMALLEST + STORY[:at] + bytes([STORY[at] ^ 0x81]) + STORY[at + 1 :]
        assert read(octets) == by_ctypes(monkeypatch, lambda: read(octets))
        assert fed(octets, 77) == by_ctypes(monkeypatch, lambda: fed(octets, 77))


def test_returns_rows_as_ctypes_returns_them(module: Any, monkeypatch: pytest.MonkeyPatch) -> None:
    now = iim.auditing._EPOCH.replace(year=2024, month=3, day=1, hour=12)
    for name, octets in {**samples(), "stream": STREAM * 50}.items():

        def rows() -> List[object]:
            found: List[object] = []
            with contextlib.suppress(iim.RefusedError):
                found.extend(iim.audit(octets, now=now))
            return found

        got = rows()
        assert (name, got) == (name, by_ctypes(monkeypatch, rows))
        assert all(type(row) is iim.AuditRow and type(row.service) is iim.Octets for row in got)


def test_makes_fields_of_the_right_types(module: Any) -> None:
    (envelope,) = iim.read(STORY)
    assert {type(each) for each in envelope.datasets} == {iim.Field}
    assert {type(each.octets) for each in envelope.datasets} == {iim.Octets}
    assert hash(envelope.datasets[7]) == hash(iim.Field(2, 105, iim.Octets(b"Rates held")))
    # (more datasets than those for which no memory is allocated)
    many = iim.build(service="TST", number=1, keywords=["k%d" % n for n in range(200)])
    assert len(next(iim.read(many)).keywords) == 200
    for wrong in int, 3, None:
        pytest.raises(TypeError, module.datasets, envelope._ticket, wrong, iim.Octets)
    assert module.datasets(b"no ticket", iim.Field, iim.Octets) is None


def sent_with(fields: List[Tuple[int, int, bytes]]) -> bytes:
    """Return an envelope of these datasets."""
    return rules.packed(fields, rules.object_of(SMALLEST_HEAD, [b""], b""), 1_024)


def test_shares_equal_datasets_that_are_immutable(module: Any) -> None:
    first, second = iim.read(STORY * 2)
    assert all(one is other for one, other in zip(first.datasets, second.datasets))
    assert first.datasets is not second.datasets
    for value in first.datasets[0], first.datasets[0].octets:
        assert not hasattr(value, "__dict__")


def test_distinguishes_datasets(module: Any) -> None:
    chance = random.Random(7)
    # Sizes at both sides of those that are shared, equal values of several datasets, more values
    # than there are slots, and many that differ in the last byte alone.
    values = [b"x" * size + end for size in (0, 30, 31) for end in (b"a", b"b")]
    values += [b"keyword %d" % number for number in range(1_000)]
    numbers = [20, 25, 80, 85, 250]
    rows = [(2, number, value) for number in numbers for value in values]
    rows += [(2, 25, b"x" * size + end) for size in (38, 39, 40, 41) for end in (b"a", b"b")]
    rows += [(2, 250, b"some" + bytes([octet])) for octet in range(256)] * 20
    sent = [[*SMALLEST_FIELDS, *chance.choices(rows, k=100)] for _ in range(150)]
    # Equal numbers and values in both records.
    both = [(b"%d" % number, SMALLEST_FIELDS[:-1], SMALLEST_FIELDS[-1]) for number in range(5_000)]
    sent += [[*first, (1, 5, value), second, (2, 5, value)] for value, first, second in both]
    for fields, envelope in zip(sent, iim.read(b"".join(map(sent_with, sent)))):
        assert envelope.datasets == fields


def test_makes_datasets_of_the_types_of_each_call(module: Any) -> None:
    class Row(Tuple[int, int, bytes]):
        """A tuple."""

    class Value(bytes):
        """Bytes whose creation makes datasets of other types."""

        def __new__(cls, octets: bytes) -> "Value":
            """Create them."""
            module.datasets(ticket, iim.Field, iim.Octets)
            return super().__new__(cls, octets)

    ticket = next(iim.read(STORY))._ticket
    kinds: List[Tuple[type, type]] = [(Row, Value), (iim.Field, iim.Octets), (Row, iim.Octets)]
    for row, octets in kinds * 3:
        found = module.datasets(ticket, row, octets)
        assert found == STORY_FIELDS
        assert {(type(it), type(it[2])) for it in found} == {(row, octets)}


def test_rejects_a_call_while_another_thread_reads(module: Any) -> None:
    prototype = ctypes.CFUNCTYPE(
        None, *[ctypes.c_void_p] * 2, *[ctypes.c_size_t] * 3, ctypes.c_void_p
    )
    feed = prototype(addresses(module)["iim_unpacker_feed"])
    inside, proceed = threading.Event(), threading.Event()

    def wait(*arguments: Any) -> None:
        inside.set()
        assert proceed.wait(60)
        feed(*arguments)

    unpacker = module.Unpacker(0, 0)
    results: List[Any] = []
    # (long enough that the interpreter's lock is released)
    reader = threading.Thread(target=lambda: results.append(unpacker.read(SMALLEST * 50, 0, False)))
    waiting = prototype(wait)
    with bound(module, iim_unpacker_feed=waiting):
        reader.start()
        assert inside.wait(60)
        for call in unpacker.save, lambda: unpacker.read(b"", 0, True):
            assert "in use" in str(pytest.raises(RuntimeError, call).value)
        pytest.raises(RuntimeError, unpacker.restore, b"", 0)
        proceed.set()
        reader.join()
    assert len(results[0][0]) == 50


def test_reports_that_memory_is_refused(module: Any) -> None:
    never = ctypes.CFUNCTYPE(ctypes.c_uint8, ctypes.c_uint64, ctypes.c_void_p)(lambda *_: NO_MEMORY)
    with bound(module, iim_unpacker_open=never):
        pytest.raises(MemoryError, iim.Receiver().feed, STORY)
        pytest.raises(MemoryError, module.Unpacker, 0, 0)


@pytest.mark.parametrize("at", [0, 100, 240])
def test_consumes_nothing_if_memory_is_refused(module: Any, at: int) -> None:
    kind = ctypes.CFUNCTYPE(
        None, *[ctypes.c_void_p] * 2, ctypes.c_size_t, ctypes.POINTER(_library.Answer)
    )
    save = kind(addresses(module)["iim_unpacker_save"])
    refusals = [0]

    def refuse(unpacker: int, out: int, size: int, answer: Any) -> None:
        save(unpacker, out, size, answer)
        refusals[0] -= 1
        if refusals[0] == 0:
            answer.contents.status = FAILED

    receiver, refusing = iim.Receiver(), kind(refuse)
    receiver.feed(STORY[:at])
    with bound(module, iim_unpacker_save=refusing):
        # (the ticket before the chunk, unless it begins an envelope, and the one after it; each is
        # asked for again if the buffer is too small)
        for nth in range(1, 10):
            refusals[0] = nth
            try:
                receiver.feed(STORY[at:])
                break
            except MemoryError:
                assert (receiver.octets, receiver.nth) == (at, 1)
    assert 1 < nth < 6 and (receiver.octets, receiver.nth, receiver.at) == (0, 2, 246)


def test_frees_what_it_allocates(module: Any) -> None:
    def size() -> int:
        gc.collect()
        return int(Path("/proc/self/statm").read_text().split()[1])

    def use() -> None:
        for _ in range(2_000):
            receiver = iim.Receiver()
            receiver.feed(STREAM * 4)
            with contextlib.suppress(iim.RefusedError):
                receiver.feed(b"\x1d")

    use()
    before = size()
    use()
    use()
    # (in pages of 4 KB; a leak of one unpacker each would be 100 times as many)
    assert size() - before < 2_000


def sanitized(folder: Path, *words: str) -> str:
    """Compile the module with sanitizers, and return its path."""
    compiler = shutil.which("cc")
    include = run_text(
        ["/usr/bin/python3", "-c", "import sysconfig as s; print(s.get_path('include'))"]
    )[1].strip()
    if compiler is None or not Path(include, "Python.h").exists():
        pytest.skip("no C compiler or no Python.h is installed")
    made = folder / "_iim.abi3.so"
    options = ["-std=c11", "-g", "-O1", "-fPIC", "-shared", "-Wall", "-Wextra", "-Werror", *words]
    folders = [f"-I{include}", f"-I{HEADER.parent}"]
    assert run_text([compiler, *options, *folders, "-o", made, SOURCE]) == (0, "", "")
    return str(made)


PROGRAM = """
import iim, sys
from iim import _library
assert _library.extension().__file__ == sys.argv[1]
total = 0
for path in sys.argv[2:]:
    octets = open(path, "rb").read()
    for size in 1, 5, 64, 5_000:
        receiver = iim.Receiver()
        try:
            for at in range(0, len(octets), size):
                chunk, start = octets[at : at + size], 0
                while start < len(chunk):
                    fed = receiver.feed(chunk, start)
                    start += fed.used
                    total += len(fed.envelope.datasets) if fed.envelope else 0
            receiver.end()
        except iim.RefusedError as error:
            total += len(error.datasets)
    try:
        total += sum(len(row.number) for row in iim.audit(octets))
    except iim.RefusedError:
        pass
print(total > 1_000)
"""


def test_runs_with_sanitizers(tmp_path: Path) -> None:
    flags = ["-fsanitize=address,undefined", "-fno-sanitize-recover=all"]
    path = sanitized(tmp_path, *flags)
    libraries = [
        run_text(["cc", f"-print-file-name={it}.so"])[1].strip() for it in ("libasan", "libubsan")
    ]
    env = unmeasured(
        IIM_EXTENSION=path,
        LD_PRELOAD=" ".join(libraries),
        ASAN_OPTIONS="detect_leaks=0",
        PYTHONMALLOC="malloc",
    )
    files = [str(it) for it in sorted((TOP / "samples").rglob("*.iim"))]
    program = tmp_path / "program.py"
    program.write_text(PROGRAM, encoding="utf-8")
    assert run_text([sys.executable, program, path, *files], env=env) == (0, "True\n", "")


def test_is_optional(tmp_path: Path) -> None:
    program = (
        "from iim import _library, check; "
        "print(_library.extension(), check(open(r'{}', 'rb').read()))"
    )
    words = [sys.executable, "-c", program.format(TOP / "samples" / "story.iim")]
    nothing = tmp_path / "no_module.so"
    nothing.write_bytes(b"no module")
    for value in "0", str(tmp_path / "absent.so"), str(nothing):
        assert run_text(words, env=unmeasured(IIM_EXTENSION=value)) == (0, "None 246\n", "")
