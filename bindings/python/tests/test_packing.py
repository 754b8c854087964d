"""Pack scripts as the command and the test oracle do."""
from __future__ import annotations
from typing import Any, Dict, List, Sequence, Tuple, Union

import io
import itertools
import pickle
from pathlib import Path

import iim
import pytest
import rules
from envelopes import SMALLEST, STORY, STORY_FIELDS, STORY_HEAD, STORY_LINES, VARIED
from support.bindings.paths import SAMPLES
from support.bindings.running import octets_of, run, samples
from support.bindings.streams import made


def packs(command: Path, words: Sequence[str], script: bytes) -> Union[bytes, str]:
    """Return the envelope that the command packs, or the line that it prints."""
    status, output, errors = run([command, "pack", *words], script)
    return output if status == 0 else errors.decode().rstrip("\n")


def packs_here(script: bytes, **options: Any) -> Union[bytes, str]:
    """Return what the package packs, or the line of its refusal."""
    try:
        return iim.pack(script, **options)
    except iim.ScriptError as refusal:
        assert str(pickle.loads(pickle.dumps(refusal))) == str(refusal)
        return str(refusal)


SCRIPTS = [f"{SAMPLES}/smallest.script", f"{SAMPLES}/story.script"]


def test_packs_the_worked_envelopes() -> None:
    for path, want in zip(SCRIPTS, (SMALLEST, STORY)):
        assert iim.pack(octets_of(path)) == want
    text = iim.script(STORY_FIELDS, STORY_HEAD, STORY_LINES)
    assert iim.pack(text) == STORY
    assert iim.pack(text, subfile=7) == samples()["subfiles.iim"]


def test_packs_as_the_command(command: Path) -> None:
    texts = []
    for path in SCRIPTS:
        texts.append(octets_of(path))
    head = iim.script(STORY_FIELDS, STORY_HEAD, [])
    texts += [
        b"",
        b"text\n",
        head,
        head + b"a\rb\n",
        head + b"\x01\n",
        texts[0].replace(b"1:30 TST", b"1:30 TSTTSTTSTTS"),
    ]
    texts += [texts[1].replace(b"2:105", b"1:70"), texts[1].replace(b"message", b"massage")]
    texts += [head + b"long line " * 9000, head + b"\n" * 500]
    for text in texts:
        ways: List[Tuple[List[str], Dict[str, Any]]] = [
            ([], {}),
            (["--subfile", "1"], {"subfile": 1}),
            (["--subfile", "7", "--unknown"], {"subfile": 7, "unknown": True}),
            (["--unknown", "--max", "40"], {"unknown": True, "maximum": 40}),
            (["--unknown", "--max", "0"], {"unknown": True, "maximum": 0}),
            (
                ["--unknown", "--max", "9223372036854775807"],
                {"unknown": True, "maximum": 2**63 - 1},
            ),
        ]
        for words, options in ways:
            assert (text[:300], words, packs_here(text, **options)) == (
                text[:300],
                words,
                packs(command, words, text),
            )
    for options in {"subfile": 0}, {"subfile": 2**63}, {"maximum": 1}:
        pytest.raises(ValueError, iim.pack, texts[0], **options)
    for maximum in 2**63, -1:
        pytest.raises(ValueError, iim.pack, texts[0], unknown=True, maximum=maximum)
    assert (
        str(pytest.raises(iim.ScriptError, iim.pack, bytes(16_777_217)).value)
        == "refused: script line 0 cause 92 ScriptTooLong"
    )


def test_packs_what_was_read() -> None:
    count = 0
    for octets in itertools.chain([VARIED], made(5, 400)):
        want = rules.read(octets)
        if not want.is_done:
            continue
        (envelope,) = iim.read(io.BytesIO(octets[: want.at]))
        text = iim.script(
            envelope.datasets, envelope.header, envelope.story_lines(), envelope.trailer
        )
        story = rules.object_of(envelope.header, envelope.story_lines(), envelope.trailer)
        assert iim.pack(text, subfile=50) == rules.packed(want.fields, story, 50)
        count += 1
    assert count > 100, f"only {count} envelopes"
    for line in b"a\n", b"a\rb", b"a\r":
        pytest.raises(ValueError, iim.script, STORY_FIELDS, STORY_HEAD, [line])


def is_header(head: Sequence[bytes]) -> bool:
    """Check by the test oracle whether a message has exactly this header."""
    message = rules.Message()
    causes = {message.take(octet) for octet in rules.object_of(head, [b""], b"")}
    return causes == {0} and message.part == rules.Message.AFTER and message.head() == head


def test_rejects_scripts_with_invalid_headers() -> None:
    names = "source", "number", "priority", "category", "words", "info"
    # (an additional line, a story in place of another, and parts that move)
    for name, part in (
        ("words", b"0\ntext\nforged"),
        ("category", b"N 7 info"),
        ("source", b"X\nmessage Y"),
        ("info", b"a\ntext\nb"),
    ):
        head = [part if each == name else octets for each, octets in zip(names, STORY_HEAD)]
        assert (
            str(pytest.raises(ValueError, iim.script, [], head, []).value)
            == f"{name} of the header can't be {part!r}"
        )
    heads: List[List[bytes]] = [STORY_HEAD[:5], [*STORY_HEAD, b""], []]
    for head in heads:
        assert (
            str(pytest.raises(ValueError, iim.script, [], head, []).value)
            == f"a header has 6 parts, and not {len(head)}"
        )
    parts = [bytes([octet]) for octet in range(256)] + [
        octet * count for octet in (b"a", b"1", b" ", b"\xff") for count in (2, 6, 7, 8, 9, 64, 65)
    ]
    parts += [b"", b"a1", b"1a", b"a\n", b"1\n", b"\na", b"a b", b"1 2"]
    taken = dict.fromkeys(names, 0)
    for at, part in itertools.product(range(6), parts):
        head = [*STORY_HEAD[:at], part, *STORY_HEAD[at + 1 :]]
        if is_header(head):
            taken[names[at]] += 1
            assert iim.pack(iim.script(STORY_FIELDS, head, [b"a"])) == rules.packed(
                STORY_FIELDS, rules.object_of(head, [b"a"], b""), 1024
            )
        else:
            pytest.raises(ValueError, iim.script, STORY_FIELDS, head, [b"a"])
    assert list(taken.values()) == [52 + 4, 10 + 4, 10, 62 + 10, 10 + 2, 223 + 29]
