"""The example `resume`: an envelope in several runs, with its state saved between them."""
from __future__ import annotations

from pathlib import Path
from typing import Sequence

import pytest

from support.running import Command, Ran, write
from support.streams import SMALLEST, STORY, TEXT, with_fields

FORM = "the octets have not the form of a ticket"
VERSION = "the ticket is of another version"
IMPOSSIBLE = "the ticket tells a place where no envelope can be"


class Receiver:
    """The example, with the file in which it saves its state."""

    def __init__(self, program: Command, file: Path) -> None:
        """Begin without a saved state."""
        self.program, self.file = program, file

    def __call__(self, octets: bytes) -> Ran:
        """Run it on these bytes, from its saved state."""
        return self.program(["resume", self.file], octets)

    def saved(self) -> bytes:
        """Return the saved state."""
        return self.file.read_bytes()

    def rejects(self, octets: bytes, why: str, rest: bytes) -> None:
        """Check that it rejects a saved state, and leaves it as it was."""
        write(self.file, octets)
        assert self(rest) == (1, b"", f"Error: {why}\n".encode()), octets
        assert self.saved() == octets


@pytest.fixture()
def resumed(examples: Command, tmp_path: Path) -> Receiver:
    """Return a receiver that has not run yet."""
    return Receiver(examples, tmp_path / "place")


def test_resumes_in_a_second_run(resumed: Receiver) -> None:
    assert resumed(STORY) == (0, TEXT, b"")
    for at in range(len(STORY)):
        status, first, errors = resumed(STORY[:at])
        assert (status, errors) == (4, b"")
        status, last, errors = resumed(STORY[at:])
        assert (status, first + last, errors) == (0, TEXT, b"")
        assert not resumed.file.exists()


def test_resumes_after_each_octet(resumed: Receiver) -> None:
    text = b""
    for at, octet in enumerate(STORY, 1):
        status, more, errors = resumed(bytes([octet]))
        text += more
        assert (status, errors) == (0 if at == len(STORY) else 4, b"")
    assert text == TEXT


def test_keeps_saved_state_after_a_refusal(resumed: Receiver) -> None:
    resumed(SMALLEST[:86])
    before = resumed.saved()
    refused = b"Error: refused at octet 86 by layer dataset on 0:00, cause 1 Marker\n"
    assert resumed(b"\x1d") == (1, b"", refused)
    assert resumed(SMALLEST[86:] + b"\0").status == 1
    assert resumed.saved() == before
    assert resumed(SMALLEST[86:]) == (0, b"\n", b"")


def test_repeats_the_text_of_a_rejected_part(resumed: Receiver) -> None:
    assert resumed(STORY[:218]) == (4, b"Rates ", b"")
    refused = b"Error: refused at octet 228 by layer story on 8:10, cause 41 ControlOctet\n"
    assert resumed(STORY[218:228] + b"\x02") == (1, b"stay.\nNo ", refused)
    assert resumed(STORY[218:]) == (0, b"stay.\nNo change.\n", b"")


# The most datasets that are allowed before 8:10, with the most octets: 505 beside the seven of the
# smallest envelope, with 65,509 octets.
MOST_FIELDS = [(200, b"x" * 8192)] * 7 + [(200, b"y" * 8165)] + [(200, b"")] * 497


def test_saves_the_largest_state(resumed: Receiver) -> None:
    most = with_fields(*MOST_FIELDS)
    for at in len(most) - 52, len(most) - 20:
        assert resumed(most[:at]) == (4, b"", b"")
        assert len(resumed.saved()) > 65536 + 6 * 512
        assert resumed(most[at:]) == (0, b"\n", b"")


def test_rejects_a_damaged_saved_state(resumed: Receiver) -> None:
    resumed(SMALLEST[:86])
    saved = resumed.saved()
    for octets, why in (
        (saved[:7], "the place is cut short"),
        (saved[:8], FORM),
        (saved + b"\0", FORM),
        (saved[:12] + b"\x03" + saved[13:], VERSION),
        (saved[:13] + b"\x03" + saved[14:], IMPOSSIBLE),
    ):
        resumed.rejects(octets, why, SMALLEST[86:])


Field = tuple[int, int, bytes]
# The datasets of the records 1 and 2 of the smallest envelope.
FIELDS: list[Field] = [
    (1, 0, b"\0\4"),
    (1, 20, b"\0\2"),
    (1, 22, b"\0\1"),
    (1, 30, b"TST"),
    (1, 40, b"00000001"),
    (1, 70, b"20240301"),
    (2, 0, b"\0\4"),
]


def version_1(octets: int, partial: bytes, fields: Sequence[Field], sizes: bytes) -> bytes:
    """Return the state that an earlier release saved after these octets of an envelope.

    `partial` is the part of a dataset, and `sizes` are those of the object.
    """
    stored = b"".join(
        bytes([record, number]) + len(data).to_bytes(4, "big") + data
        for record, number, data in fields
    )
    count = len(fields).to_bytes(4, "big")
    rest = bytes(8) + bytes(3) + bytes(7)
    return octets.to_bytes(8, "big") + b"IIMT\1" + partial + count + stored + sizes + rest


def version_1_after_record_7(tag: bytes = b"", fields: Sequence[Field] = FIELDS) -> bytes:
    """Return the state of an earlier release after record 7, and these octets of a tag."""
    octets = sum(5 + len(data) for _, _, data in fields) + 24 + len(tag)
    sizes = b"\1\0\0\0\1" + b"\1\0\0\4\0" + b"\1\0\0\0\x0e" + b"\0"
    return version_1(octets, b"\7\0" + bytes([len(tag)]) + tag, fields, sizes)


# After 27 octets of an envelope: of the three octets of 1:30 one was received.
PARTIAL = b"\1" + b"\1\x1e" + (3).to_bytes(4, "big") + (2).to_bytes(4, "big") + b"T"
PARTIAL_VERSION_1 = version_1(27, PARTIAL, FIELDS[:3], bytes(4))
# The tickets of no octets.
NEW, OLD = b"IIMT\2" + bytes(33), b"IIMT\1" + bytes(29)
INVALID = [
    (b"\x48" + NEW[1:], FORM),
    (b"IIMT\x09" + NEW[5:], VERSION),
    (b"IIMT\x09", VERSION),
    (b"IIMT", FORM),
    (NEW + b"\0", FORM),
    (NEW[:-1], FORM),
    # One octet of the object was received.
    (NEW[:23] + b"\1" + NEW[24:], IMPOSSIBLE),
    # The octets of the other version.
    (b"IIMT\2" + bytes(29), FORM),
    (b"IIMT\1" + bytes(33), FORM),
]


def test_saves_the_state_of_no_octets(resumed: Receiver) -> None:
    assert resumed(b"").status == 4
    assert resumed.saved() == bytes(8) + NEW
    # A state of version 1 is accepted, and saved as one of version 2.
    write(resumed.file, bytes(8) + OLD)
    assert resumed(b"").status == 4
    assert resumed.saved() == bytes(8) + NEW
    for ticket, why in INVALID:
        resumed.rejects(bytes(8) + ticket, why, SMALLEST)


def test_counts_the_subfiles_of_a_saved_state(resumed: Receiver) -> None:
    resumed(SMALLEST[:86])
    saved = resumed.saved()
    # Before the ten octets of the message are four that count the heads, and before these eight
    # that count the octets of the object.
    heads = len(saved) - 14
    assert saved[heads - 8 : heads + 4] == bytes(12)
    too_many = "refused at octet 90 by layer limits on 8:10, cause 52 TooManySubfiles"
    for count, why in (b"\xff" * 4, too_many), (bytes(4), IMPOSSIBLE):
        octets = saved[:13] + b"\x08" + saved[14:heads] + count + saved[heads + 4 :]
        resumed.rejects(octets, why, b"\x1c\x08\x0a\x00\x00")


def test_resumes_from_version_1(resumed: Receiver, examples: Command, tmp_path: Path) -> None:
    rest = SMALLEST[86:]
    for received in range(5):
        write(resumed.file, version_1_after_record_7(rest[:received]))
        assert resumed(rest[received:]) == (0, b"\n", b"")
    write(resumed.file, PARTIAL_VERSION_1)
    assert resumed(STORY[27:]) == (0, TEXT, b"")
    assert not resumed.file.exists()
    # It continues with sizes of eight octets.
    write(resumed.file, version_1_after_record_7())
    eight = rest[:3] + b"\x80\x08" + (14).to_bytes(8, "big") + rest[5:]
    assert resumed(eight) == (0, b"\n", b"")
    # The next saved state is of version 2, and that of the same octets.
    write(resumed.file, version_1_after_record_7())
    assert resumed(b"").status == 4
    other = Receiver(examples, tmp_path / "other")
    assert other(SMALLEST[:86]).status == 4
    assert resumed.saved() == other.saved()
    assert other.saved()[8:13] == b"IIMT\2"


def test_rejects_version_1_by_its_size_limits(resumed: Receiver) -> None:
    tag, rest = b"\x1c\x08\x0a\x80\x05", (14).to_bytes(5, "big") + SMALLEST[91:]
    no_leap_year: list[Field] = [*FIELDS, (2, 30, b"20230229")]
    for octets, why in (
        (version_1_after_record_7(tag), IMPOSSIBLE),
        (version_1_after_record_7(tag + bytes(3)), IMPOSSIBLE),
        # Version 1 cannot store more octets of a tag.
        (version_1_after_record_7(tag + bytes(4)), FORM),
        (version_1_after_record_7(fields=no_leap_year), IMPOSSIBLE),
    ):
        resumed.rejects(octets, why, b"")
    write(resumed.file, version_1_after_record_7(fields=[*FIELDS, (2, 30, b"20240229")]))
    assert resumed(SMALLEST[86:]) == (0, b"\n", b"")
    # Version 2 accepts such a tag.
    assert resumed(SMALLEST[:86] + tag).status == 4
    assert resumed(rest) == (0, b"\n", b"")


def test_other_compiler_resumes(examples_by_rattle: Command, tmp_path: Path) -> None:
    # (`rt ci` runs what both compilers built, but of this program only `json`)
    resumed = Receiver(examples_by_rattle, tmp_path / "place")
    write(resumed.file, PARTIAL_VERSION_1)
    assert resumed(STORY[27:]) == (0, TEXT, b"")
    assert not resumed.file.exists()
