"""`pack`: the envelope of a script, its options, and packing what `show` and `story` print."""
from __future__ import annotations

from pathlib import Path
from typing import Iterator

import pytest

from support.running import TOP, Command, write
from support.streams import MESSAGE, SCRIPT, SHOWN, SMALLEST, STORY, WORKED, Worked
from support.streams import checked, dataset, head, size_of, sized, split

MOST = "9223372036854775807"
PAST = b"refused: script line 9 cause 80 PastAnnounced\n"


def last_line(run: Command, packed: bytes) -> str:
    """Return the line with the sizes that `show` prints of an envelope."""
    return run(["show"], packed).output.decode().splitlines()[-1]


def test_packs_a_script(run: Command, tmp_path: Path) -> None:
    file = write(tmp_path / "a.script", SCRIPT)
    assert run(["pack", file]) == (0, SMALLEST, b"")
    assert run(["pack", "--subfile", "1024"], SCRIPT) == (0, SMALLEST, b"")
    status, packed, errors = run(["pack", file, "--subfile", "7"])
    assert (status, errors, len(packed)) == (0, b"", 119)
    assert run(["check"], packed) == (0, b"1 accepted 119 octets\n", b"")
    status, packed, errors = run(["pack", "--unknown", "--max", "14"], SCRIPT)
    assert (status, errors) == (0, b"")
    sizes = "object 14 octets, 1 subfiles, mode 0, limit 1024, announced -, maximum 14"
    assert last_line(run, packed) == sizes


# Options, with the size of a subfile and the datasets 7:90 and 7:95 of the envelope.
SMALL, LARGEST = b"\0\0\4\0", b"\x7f" + b"\xff" * 7
BEYOND = b"\0\0\0\1" + bytes(4)
SIZES = [
    (["--subfile", "4294967295"], b"\xff" * 4, None),
    (["--subfile", "4294967296"], BEYOND, None),
    (["--subfile", MOST], LARGEST, None),
    (["--unknown"], SMALL, b""),
    (["--unknown", "--max", "4294967295"], SMALL, dataset(7, 95, b"\xff" * 4)),
    (["--unknown", "--max", "4294967296"], SMALL, dataset(7, 95, BEYOND)),
    (["--unknown", "--max", MOST], SMALL, dataset(7, 95, LARGEST)),
    (["--unknown", "--max", "14", "--subfile", MOST], LARGEST, dataset(7, 95, b"\0\0\0\x0e")),
]


def test_packs_large_sizes_in_eight_octets(run: Command) -> None:
    for options, subfile, maximum in SIZES:
        known = maximum is None
        size = dataset(7, 90, b"\0\0\0\x0e") if maximum is None else maximum
        sizes = dataset(7, 10, b"\1" if known else b"\0") + dataset(7, 20, subfile) + size
        story = dataset(8, 10, MESSAGE) + dataset(9, 10, b"\0\0\0\x0e")
        packed = head(b"00000001") + sizes + story
        assert run(["pack", *options], SCRIPT) == (0, packed, b""), options
        assert run(["check"], packed) == checked(f"accepted {len(packed)} octets")


def test_reports_a_subfile_too_large_to_allocate(run: Command) -> None:
    options = ["--unknown", "--subfile", MOST]
    assert run(["pack", *options], SCRIPT) == (3, b"", b"out of memory\n")
    assert run(["pack", *options, "--max", MOST], SCRIPT) == (3, b"", b"out of memory\n")


def test_accepts_numbers_with_plus_and_zeros(run: Command) -> None:
    want = run(["pack", "--subfile", "5"], SCRIPT)
    assert (want.status, len(want.output), want.errors) == (0, 124, b"")
    for number in "+5", "05", "+005", "0" * 30 + "5":
        assert run(["pack", "--subfile", number], SCRIPT) == want
    want = run(["pack", "--unknown", "--max", "14"], SCRIPT)
    assert run(["pack", "--unknown", "--max", "+0014"], SCRIPT) == want
    assert run(["pack", "--unknown", "--max", "0"], SCRIPT) == (1, b"", PAST)


def test_packs_the_sample_scripts(run: Command) -> None:
    for name, want in ("smallest", SMALLEST), ("story", STORY):
        assert (TOP / f"samples/{name}.iim").read_bytes() == want
        assert run(["pack", TOP / f"samples/{name}.script"]) == (0, want, b"")


def as_script(run: Command, envelope: bytes) -> bytes:
    """Return the script of an envelope: what `show` prints, and then what `story` prints."""
    lines = run(["show"], envelope).output.splitlines(keepends=True)[1:-1]
    return b"".join(lines) + b"text\n" + run(["story"], envelope).output


def test_repacks_what_show_and_story_print(run: Command) -> None:
    assert run(["pack"], as_script(run, STORY)) == (0, STORY, b"")


def awkward(text: bytes) -> bytes:
    """Return an envelope with this text, and with octets that are printed as escapes elsewhere."""
    return (
        head(b"00000003")
        + dataset(2, 3, bytes(range(256)))
        + dataset(2, 120, b" a \\x41 b\r\n ")
        + dataset(2, 200, b"")
        + sized(b"\x01AB12 4 A1 05  \\x5c\xff \r\n\x02" + text + b"\x03 \r\n\\\x80\x04")
    )


def test_repacks_octets_of_every_kind(run: Command) -> None:
    lines = b"\r\ntext\r\n\\x41 \x00\xff"
    sent = awkward(lines + b"\r\n")
    script = as_script(run, sent)
    assert run(["pack"], script) == (0, sent, b"")
    # The last of several lines must end with an LF if it is empty.
    assert run(["pack"], script[:-1]) == (0, awkward(lines), b"")
    assert run(["pack"], script[:-2]) == (0, awkward(lines), b"")


OPTIONS: list[tuple[list[str], str]] = [
    ([], "1 subfiles, mode 1, limit 1024, announced 14, maximum -"),
    (["--subfile", "1"], "14 subfiles, mode 1, limit 1, announced 14, maximum -"),
    (["--subfile=4294967295"], "1 subfiles, mode 1, limit 4294967295, announced 14, maximum -"),
    (["--unknown"], "1 subfiles, mode 0, limit 1024, announced -, maximum -"),
    (
        ["--max", "14", "--subfile", "7", "--unknown"],
        "2 subfiles, mode 0, limit 7, announced -, maximum 14",
    ),
]


def test_packs_with_each_option(run: Command) -> None:
    for options, sizes in OPTIONS:
        status, packed, errors = run(["pack", *options], SCRIPT)
        assert (status, errors) == (0, b"")
        assert last_line(run, packed) == f"object 14 octets, {sizes}"
    for most in "0", "5", "13":
        assert run(["pack", "--unknown", "--max", most], SCRIPT) == (1, b"", PAST)


def packed_in_small_subfiles(run: Command, worked: Worked) -> Iterator[tuple[bytes, bytes]]:
    """Pack a worked script in each small size of subfiles.

    Yields each envelope, and the line with its sizes that `show` prints.
    """
    size = len(worked.story)
    for subfile in (*range(1, 61), 1024):
        for options, known, most in (
            ("", True, None),
            ("--unknown", False, None),
            (f"--unknown --max {size}", False, size),
            ("--unknown --max 1000", False, 1000),
        ):
            want = split(worked.fields, worked.story, subfile, known, most)
            words = ["pack", "--subfile", str(subfile), *options.split()]
            assert run(words, worked.script) == (0, want, b"")
            counts = f"{-(-size // subfile)} subfiles, mode {int(known)}, limit {subfile}"
            announced = f"announced {size if known else '-'}"
            maximum = f"maximum {'-' if most is None else most}"
            yield want, f"object {size} octets, {counts}, {announced}, {maximum}".encode()


@pytest.mark.parametrize("worked", WORKED, ids=["smallest", "story"])
def test_packs_with_every_small_subfile_size(run: Command, worked: Worked) -> None:
    packed = [*enumerate(packed_in_small_subfiles(run, worked), 1)]
    stream = b"".join(octets for _, (octets, _) in packed)
    accepted = (b"%d accepted %d octets\n" % (at, len(octets)) for at, (octets, _) in packed)
    lines = b"".join(accepted)
    refused = b"%d refused at octet 0 by layer dataset on 0:00, cause 1 Marker\n"
    want = lines + refused % (len(packed) + 1)
    assert run(["check"], stream + b"\x1d and more") == (1, want, b"")
    assert run(["story"], stream) == (0, worked.text * len(packed), lines)
    shown = [[b"envelope %d" % at, *worked.shown, sizes] for at, (_, sizes) in packed]
    want = b"".join(line + b"\n" for lines_of_one in shown for line in lines_of_one)
    assert run(["show"], stream) == (0, want, b"")


def test_packs_a_long_line(run: Command) -> None:
    script, fields, letters = SCRIPT + b"a" * 32754, SMALLEST[:62], b"a" * 32754
    story = SMALLEST[91:103] + letters + b"\3\4"
    size = size_of(32768)
    sizes = dataset(7, 10, b"\1") + dataset(7, 20, size) + dataset(7, 90, size)
    extended = b"\x1c\x08\x0a\x80\x04\0\0\x80\0"
    want = fields + sizes + extended + story + dataset(9, 10, size)
    assert (len(want), want[86:95]) == (32872, extended)
    assert run(["pack", "--subfile", "32768"], script) == (0, want, b"")
    assert run(["check"], want) == (0, b"1 accepted 32872 octets\n", b"")
    want = split(fields, story, 32767, True)
    assert len(want) == 32873
    assert want[86:91] == b"\x1c\x08\x0a\x7f\xff"
    assert want[32858:32864] == b"\x1c\x08\x0a\x00\x01\x04"
    assert run(["pack", "--subfile", "32767"], script) == (0, want, b"")
    assert run(["story"], want) == (0, letters + b"\n", b"1 accepted 32873 octets\n")


def test_packs_extended_counts_as_standard_ones(run: Command) -> None:
    extended = SMALLEST[:24] + b"\x80\x04\0\0\0\3" + SMALLEST[26:]
    assert run(["check"], extended) == (0, b"1 accepted 118 octets\n", b"")
    assert run(["show"], extended) == (0, SHOWN, b"")
    script = as_script(run, extended)
    assert run(["pack", "--subfile", "1024"], script) == (0, SMALLEST, b"")
