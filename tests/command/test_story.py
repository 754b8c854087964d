"""`story`: the text of each envelope, up to a refusal."""
from __future__ import annotations

from pathlib import Path

from support.running import Command, write
from support.streams import ACCEPTED, SMALLEST, STORY, STORY_ACCEPTED, TEXT, dataset, put

TRUNCATED = b"2 refused at octet %d by layer dataset on 8:10, cause 3 Truncated\n"


def test_prints_stories_up_to_a_refusal(run: Command, tmp_path: Path) -> None:
    lines = STORY_ACCEPTED
    assert run(["story", write(tmp_path / "a.iim", STORY)]) == (0, TEXT, lines)
    assert run(["story"]) == (0, b"", b"")
    lines += b"2 accepted 114 octets\n3 accepted 246 octets\n"
    assert run(["story"], STORY + SMALLEST + STORY) == (0, TEXT + b"\n" + TEXT, lines)
    lines = STORY_ACCEPTED + TRUNCATED % 218
    assert run(["story"], STORY + STORY[:218]) == (1, TEXT + b"Rates ", lines)


# Texts, with the line of `story`. Each is refused after the letter a.
TEXTS = [
    (b"a\r\r\r\nb", "octet 106 by layer story on 8:10, cause 40 LoneReturn"),
    (b"a\x02", "octet 104 by layer story on 8:10, cause 41 ControlOctet"),
    (b"a\r\x03", "octet 105 by layer story on 8:10, cause 40 LoneReturn"),
    (b"a\r\x01", "octet 105 by layer story on 8:10, cause 40 LoneReturn"),
]


def test_prints_the_text_before_a_refusal(run: Command) -> None:
    for octets, text in (
        (211, b"\n"),
        (218, b"\nRates "),
        (224, b"\nRates stay."),
        (225, b"\nRates stay.\n"),
    ):
        lines = ACCEPTED + TRUNCATED % octets
        assert run(["story"], SMALLEST + STORY[:octets]) == (1, text, lines)
    wrong = b"1 refused at octet 245 by layer object on 9:10, cause 25 ConfirmedWrong\n"
    assert run(["story"], STORY[:-1] + b"\x31") == (1, TEXT[:-1], wrong)
    for text, where in TEXTS:
        message = b"\x1c\x08\x0a\x00\x18\x01X1 4 N 0\r\n\x02" + text
        sent = put((9, dataset(7, 90, b"\0\0\0\x18")), (10, message))
        assert run(["story"], sent) == (1, b"a", f"1 refused at {where}\n".encode())
    assert run(["story"], SMALLEST) == (0, b"\n", ACCEPTED)
