"""`check`: the line of each envelope, and the limits of the format and of the command."""
from __future__ import annotations

import pytest

from support.running import Command
from support.streams import ACCEPTED, MARKER, SMALLEST, STORY
from support.streams import checked, dataset, put, with_fields


def replaced(at: int, end: int, octets: bytes) -> bytes:
    """Return the smallest envelope with other octets between two offsets."""
    return SMALLEST[:at] + octets + SMALLEST[end:]


def test_reports_a_refusal_after_envelopes(run: Command) -> None:
    lines = ACCEPTED + b"2 accepted 246 octets\n"
    assert run(["check"], SMALLEST + STORY) == (0, lines, b"")
    lines += b"3 refused at octet 100 by layer dataset on 8:10, cause 3 Truncated\n"
    assert run(["check"], SMALLEST + STORY + SMALLEST[:100]) == (1, lines, b"")


COUNTS = [
    (b"\x81\x01", "refused at octet 3 by layer dataset on 1:00, cause 2 CountForm"),
    (b"\x80\x00", "refused at octet 4 by layer dataset on 1:00, cause 2 CountForm"),
    (b"\x80\x09", "refused at octet 4 by layer dataset on 1:00, cause 2 CountForm"),
    # The octets that follow are the count: more than two, which the row does not allow.
    (b"\x80\x05", "refused at octet 9 by layer record on 1:00, cause 13 CountRange"),
    (b"\x80\x08", "refused at octet 12 by layer record on 1:00, cause 13 CountRange"),
]


def test_accepts_counts_of_up_to_eight_octets(run: Command) -> None:
    for count, line in COUNTS:
        assert run(["check"], replaced(3, 5, count)) == checked(line)
    for octets in range(1, 9):
        count = bytes([0x80, octets]) + (3).to_bytes(octets, "big")
        want = checked(f"accepted {114 + octets} octets")
        assert run(["check"], replaced(24, 26, count)) == want


# Sizes of eight octets at 7:95 and 7:20, with the lines of `check`.
MAXIMA = [
    (b"\xff" * 8, "refused at octet 98 by layer record on 7:95, cause 15 BadValue"),
    (b"\x80" + bytes(7), "refused at octet 98 by layer record on 7:95, cause 15 BadValue"),
    (b"\x7f" + b"\xff" * 7, "accepted 127 octets"),
]
SUBFILES = [
    (bytes(8), "refused at octet 80 by layer record on 7:20, cause 15 BadValue"),
    (b"\x80" + bytes(7), "refused at octet 80 by layer record on 7:20, cause 15 BadValue"),
    (b"\x7f" + b"\xff" * 7, "accepted 118 octets"),
]


def test_accepts_sizes_of_up_to_eight_octets(run: Command) -> None:
    for octets in range(1, 9):
        size, want = (14).to_bytes(octets, "big"), checked(f"accepted {110 + octets} octets")
        assert run(["check"], replaced(77, 86, dataset(7, 90, size))) == want
        assert run(["check"], replaced(105, 114, dataset(9, 10, size))) == want
    nine = dataset(7, 90, (14).to_bytes(9, "big"))
    line = "refused at octet 81 by layer record on 7:90, cause 13 CountRange"
    assert run(["check"], replaced(77, 86, nine)) == checked(line)
    for maximum, line in MAXIMA:
        assert run(["check"], replaced(86, 86, dataset(7, 95, maximum))) == checked(line)
    for subfile, line in SUBFILES:
        assert run(["check"], replaced(68, 77, dataset(7, 20, subfile))) == checked(line)


def test_accepts_subfile_counts_of_eight_octets(run: Command) -> None:
    too_long = "refused at octet 98 by layer object on 8:10, cause 22 SubfileTooLong"
    too_large = "refused at octet 98 by layer record on 8:10, cause 13 CountRange"
    for count, line in [
        ((14).to_bytes(8, "big"), "accepted 122 octets"),
        (b"\x7f" + b"\xff" * 7, too_long),
        (b"\x80" + bytes(7), too_large),
    ]:
        assert run(["check"], replaced(89, 91, b"\x80\x08" + count)) == checked(line)


# Dates and times of record 2, with the octet and the cause of the refusal.
DATES = [
    *((date, 74, "15 BadValue") for date in (b"20230229", b"20240300", b"2024030a", b"00000301")),
    *((date, 66, "13 CountRange") for date in (b"2024030", b"202403010", b"")),
]
TIMES = [
    *((time, 77, "15 BadValue") for time in (b"240000+0000", b"000060+0000")),
    *((time, 77, "15 BadValue") for time in (b"120000+0060", b"120000 0000")),
    *((time, 66, "13 CountRange") for time in (b"120000+000", b"120000", b"120000+00000")),
]


@pytest.mark.parametrize("number", [30, 37, 35, 38])
def test_checks_release_and_expiration(run: Command, number: int) -> None:
    is_date = number in (30, 37)
    valid = b"20240229" if is_date else b"235959-2359"
    line = f"accepted {119 + len(valid)} octets"
    assert run(["check"], with_fields((number, valid))) == checked(line)
    for octets, at, cause in DATES if is_date else TIMES:
        refused = f"refused at octet {at} by layer record on 2:{number}, cause {cause}"
        assert run(["check"], with_fields((number, octets))) == checked(refused), octets
    repeated = f"by layer record on 2:{number}, cause 12 Repeated"
    refused = f"refused at octet {71 + len(valid)} {repeated}"
    twice = b"20240301" if is_date else b"120000+0000"
    assert run(["check"], with_fields((number, twice), (number, twice))) == checked(refused)


# Changes of the smallest envelope's datasets, with the line of `check`.
CHANGES = [
    ([(5, b"")], "octet 46 by layer record on 1:70, cause 14 Missing"),
    ([(3, b""), (5, b"")], "octet 38 by layer record on 1:30, cause 14 Missing"),
    ([(6, dataset(3, 0, b"\0\4"))], "octet 59 by layer record on 3:00, cause 10 RecordOrder"),
    ([(7, dataset(7, 30, b"\1"))], "octet 66 by layer record on 7:30, cause 11 UnknownDataset"),
    ([(1, dataset(1, 20, b"\0\1"))], "octet 13 by layer record on 1:20, cause 16 FileFormat"),
    ([(3, b"\x1c\x01\x1e\0\x0bTST")], "octet 25 by layer record on 1:30, cause 13 CountRange"),
    ([(5, dataset(1, 70, b"20230229"))], "octet 54 by layer record on 1:70, cause 15 BadValue"),
    ([(7, dataset(7, 10, b"\0"))], "octet 85 by layer object on 7:90, cause 20 ModeClash"),
    (
        [(11, dataset(9, 10, b"\0\0\0\x0d"))],
        "octet 113 by layer object on 9:10, cause 25 ConfirmedWrong",
    ),
    ([(0, b"\x1d\x01\0\0\x02\0\4")], "octet 0 by layer dataset on 0:00, cause 1 Marker"),
    ([(0, b"\x1c\x01\0\x81\x01\0\4")], "octet 3 by layer dataset on 1:00, cause 2 CountForm"),
]


def test_checks_worked_envelopes(run: Command) -> None:
    assert run(["check"], b"\x1d") == (1, MARKER, b"")
    lines = ACCEPTED + b"2 accepted 246 octets\n"
    assert run(["check"], SMALLEST + STORY) == (0, lines, b"")
    lines += b"3 refused at octet 8 by layer dataset on 0:00, cause 3 Truncated\n"
    assert run(["check"], SMALLEST + STORY + SMALLEST[:8]) == (1, lines, b"")
    for changes, where in CHANGES:
        assert run(["check"], put(*changes)) == (1, f"1 refused at {where}\n".encode(), b"")
    line = b"1 refused at octet 100 by layer dataset on 8:10, cause 3 Truncated\n"
    assert run(["check"], SMALLEST[:100]) == (1, line, b"")


def filled(record: int, last: int) -> bytes:
    """Return datasets of 57,344 octets, and one more of this length."""
    return dataset(record, 200, b"x" * 8192) * 7 + dataset(record, 200, b"x" * last)


# The smallest envelope has 7 datasets in records 1 and 2, with 27 octets. The limits are 65,536
# octets, 65,509 more, and 512 datasets, 505 more. Octets of a tag do not count, empty datasets do.
EMPTY_1, EMPTY_2 = dataset(1, 200, b""), dataset(2, 200, b"")
FULL = "refused at octet {} by layer limits on {}, cause 50 HeaderFull"
LIMITS = [
    (filled(2, 8165), "accepted 65663 octets"),
    (filled(2, 8166), FULL.format(57445, "2:200")),
    (filled(2, 8165) + dataset(2, 201, b""), "accepted 65668 octets"),
    (filled(2, 8165) + dataset(2, 201, b"x"), FULL.format(65615, "2:201")),
    (filled(2, 8192), FULL.format(57445, "2:200")),
    (EMPTY_2 * 505, "accepted 2639 octets"),
    (EMPTY_2 * 506, "refused at octet 2591 by layer limits on 2:200, cause 51 TooManyFields"),
]
# Datasets of record 1 count too: then 2:00 is past the limit.
LIMITS_1 = [
    (filled(1, 8165), "accepted 65663 octets"),
    (filled(1, 8166), FULL.format(65609, "2:00")),
    (EMPTY_1 * 505, "accepted 2639 octets"),
    (EMPTY_1 * 506, "refused at octet 2589 by layer limits on 2:00, cause 51 TooManyFields"),
]


def test_limits_records_one_and_two(run: Command) -> None:
    for fields, line in LIMITS:
        assert run(["check"], replaced(62, 62, fields)) == checked(line)
    for fields, line in LIMITS_1:
        assert run(["check"], replaced(55, 55, fields)) == checked(line)
