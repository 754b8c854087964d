"""`show`: the lines of an envelope, and how each octet is printed."""
from __future__ import annotations

from pathlib import Path

from support.running import Command, write
from support.streams import SCRIPT, SHOWN, SMALLEST, STORY, STORY_LINES, STORY_MESSAGE
from support.streams import dataset, put, sized, with_fields


def test_shows_envelopes_up_to_a_refusal(run: Command, tmp_path: Path) -> None:
    assert run(["show", write(tmp_path / "a.iim", SMALLEST)]) == (0, SHOWN, b"")
    assert run(["show"]) == (0, b"", b"")
    second = SHOWN.replace(b"envelope 1", b"envelope 2")
    assert run(["show"], SMALLEST + SMALLEST) == (0, SHOWN + second, b"")
    line = b"2 refused at octet 113 by layer dataset on 9:10, cause 3 Truncated\n"
    assert run(["show"], SMALLEST + SMALLEST[:113]) == (1, SHOWN + line, b"")


# The octets that are printed as they are: 20 to 7E without 5C, the backslash.
PLAIN = b" !\"#$%&'()*+,-./0123456789:;<=>?@ABCDEFGHIJKLMNOPQRSTUVWXYZ[]^_`abcdefghijklm"
PLAIN += b"nopqrstuvwxyz{|}~"


def printed(octets: bytes) -> str:
    """Return octets as `show` prints them."""
    return "".join(chr(octet) if octet in PLAIN else f"\\x{octet:02X}" for octet in octets)


def test_shows_each_octet(run: Command) -> None:
    text = printed(bytes(range(256)))
    assert (len(PLAIN), text[:8], text[31 * 4 :][:6]) == (94, "\\x00\\x01", "\\x1F !")
    assert text.partition("~")[2][:8] == "\\x7F\\x80"
    sent = with_fields((200, bytes(range(256))))
    lines = f"2:200 {text}\nmessage".encode()
    assert run(["show"], sent) == (0, SHOWN.replace(b"message", lines), b"")
    # A script accepts what is printed.
    assert run(["pack"], SCRIPT.replace(b"message", lines)) == (0, sent, b"")


def test_shows_each_octet_of_info_and_trailer(run: Command) -> None:
    # (64 octets at a time; the header has ten octets before the info)
    allowed = [*range(0x20, 0x7F), *range(0x80, 0x100)]
    for at in range(0, len(allowed), 64):
        part = bytes(allowed[at : at + 64])
        text = printed(part).encode()
        story = b"\x01X1 4 N 0 " + part + b"\r\n\x02\x03" + part + b"\x04"
        shown = SHOWN.replace(b"N 0\ntrailer", b"N 0 " + text + b"\ntrailer " + text)
        status, output, errors = run(["show"], SMALLEST[:62] + sized(story))
        assert (status, errors) == (0, b"")
        assert output.splitlines()[:-1] == shown.splitlines()[:-1]


def test_shows_rare_parts(run: Command) -> None:
    rare = put(
        (6, dataset(2, 0, b"\0\4") + dataset(2, 5, b"")),
        (7, dataset(7, 10, b"\0")),
        (9, dataset(7, 95, b"\0\0\0\x18")),
        (10, dataset(8, 10, b"\x01X1 4 N 0 a\\b\xe9\r\n\x02\x03!\r\x04")),
        (11, dataset(9, 10, b"\0\0\0\x15")),
    )
    shown = SHOWN.partition(b"message")[0] + (
        b"2:05\nmessage X 1 4 N 0 a\\x5Cb\\xE9\ntrailer !\\x0D\n"
        b"object 21 octets, 1 subfiles, mode 0, limit 1024, announced -, maximum 24\n"
    )
    assert run(["show"], rare) == (0, shown, b"")


def test_shows_worked_envelopes(run: Command) -> None:
    second = (
        b"envelope 2\n1:00 \\x00\\x04\n1:20 \\x00\\x02\n1:22 \\x00\\x01\n1:30 TST\n"
        b"1:40 00000002\n1:70 20240301\n2:00 \\x00\\x04\n"
        + STORY_LINES
        + STORY_MESSAGE
        + b"trailer\n"
        b"object 50 octets, 1 subfiles, mode 1, limit 1024, announced 50, maximum -\n"
    )
    assert run(["show"]) == (0, b"", b"")
    assert run(["show"], SMALLEST) == (0, SHOWN, b"")
    assert run(["show"], SMALLEST + STORY) == (0, SHOWN + second, b"")
    line = b"1 refused at octet 113 by layer dataset on 9:10, cause 3 Truncated\n"
    assert run(["show"], SMALLEST[:113]) == (1, line, b"")
    line = b"2 refused at octet 100 by layer dataset on 8:10, cause 3 Truncated\n"
    assert run(["show"], SMALLEST + SMALLEST[:100]) == (1, SHOWN + line, b"")
