"""`audit`: the report of a stream, the state of copy, and the instant of `--now`."""
from __future__ import annotations

from pathlib import Path

import pytest

from support.running import TOP, Command, write
from support.streams import NOON, SMALLEST, STORY, dataset, split, with_fields

PRIORITY, SENT = dataset(1, 60, b"5"), dataset(1, 80, b"120000+0100")
# The smallest envelope with a priority and a time, the second one, and the smallest.
URGENT = SMALLEST[:42] + PRIORITY + SMALLEST[42:55] + SENT + SMALLEST[55:]
STREAM = URGENT + STORY + SMALLEST
ROW = "{} TST {} 20240301 priority {} size {} subfiles 1 words {} age {} repeats {} copy {}\n"
REPORT = "".join(
    [
        ROW.format(1, "00000001", "5", 14, "0/0", "3600", "-", "free"),
        ROW.format(2, "00000002", "-", 50, "5/4", "-", "-", "free"),
        ROW.format(3, "00000001", "-", 14, "0/0", "-", "1", "free"),
        "3 envelopes, 1 repeated, 0 held\n",
    ]
).encode()
NO_ENVELOPES = 0, b"0 envelopes, 0 repeated, 0 held\n", b""


def test_audits_a_stream(run: Command, tmp_path: Path) -> None:
    assert len(STREAM) == 136 + 246 + 114
    file = write(tmp_path / "a.iim", STREAM)
    assert run(["audit", file, *NOON]) == (0, REPORT, b"")
    assert run(["audit", *NOON]) == NO_ENVELOPES
    line = b"2 refused at octet 0 by layer dataset on 0:00, cause 1 Marker\n"
    assert run(["audit", *NOON], SMALLEST + b"?") == (1, line, b"")


def test_audits_the_samples(run: Command) -> None:
    text = (TOP / "samples/README.md").read_text()
    for name, before in ("audit", "\nprints"), ("release", "`audit` prints"):
        report = text.split(f"{before}\n\n```\n")[1].split("```")[0]
        got = run(["audit", TOP / f"samples/{name}.iim", *NOON])
        assert got == (0, report.encode(), b"")


def test_audits_only_complete_streams(run: Command) -> None:
    words = ["audit", *NOON]
    assert run(words, STREAM) == (0, REPORT, b"")
    assert run(words) == NO_ENVELOPES
    line = b"2 refused at octet 100 by layer dataset on 8:10, cause 3 Truncated\n"
    assert run(words, SMALLEST + SMALLEST[:100]) == (1, line, b"")
    for octets in STREAM[:200], STREAM:
        assert run.until_read_fails(words, octets) == (3, b"", b"cannot read\n")
    for capacity in 0, 10, len(REPORT) - 1:
        want = 3, REPORT[:capacity], b"cannot write\n"
        assert run.into_full_file(capacity, words, STREAM) == want
    assert run.into_full_file(len(REPORT), words, STREAM) == (0, REPORT, b"")


LONG = [
    (b"a b c d e " * 40_000, 200_000),
    (b"x" * 1_000_000, 1),
    (b"a\r\n" * 200_000 + b"b", 200_001),
]


@pytest.mark.parametrize("text, words", LONG, ids=["words", "one word", "lines"])
def test_audits_a_long_story(run: Command, text: bytes, words: int) -> None:
    story = SMALLEST[91:103] + text + b"\3\4"
    status, output, errors = run(["audit", *NOON], split(SMALLEST[:62], story, 32_767, True))
    subfiles = -(-len(story) // 32_767)
    sizes = b"size %d subfiles %d words 0/%d age" % (len(story), subfiles, words)
    assert (status, errors, sizes in output) == (0, b"", True)


# Datasets after 2:00, with instants and the state of copy at each.
Copy = tuple[list[tuple[int, bytes]], list[tuple[str, str]]]
EMBARGOED: list[Copy] = [
    # Noon of a clock that is an hour behind.
    (
        [(30, b"20240301"), (35, b"120000-0100")],
        [
            ("2024-03-01T12:00:00Z", "held"),
            ("2024-03-01T12:59:59.999999999Z", "held"),
            ("2024-03-01T13:00:00Z", "free"),
            ("2024-03-01T13:00:00.000000001Z", "free"),
        ],
    ),
    # Without a time: the beginning of the day in universal time.
    (
        [(30, b"20240301")],
        [
            ("2024-02-29T23:59:59.999999999Z", "held"),
            ("2024-03-01T00:00:00Z", "free"),
            ("2024-03-01T00:00:00.000000001Z", "free"),
        ],
    ),
    # A time without a date specifies no instant, and neither does a date after the last instant.
    (
        [(35, b"120000+0000")],
        [
            ("0000-01-01T00:00:00Z", "free"),
            ("9999-12-30T22:00:00Z", "free"),
        ],
    ),
    (
        [(30, b"99991231")],
        [
            ("2024-03-01T12:00:00Z", "free"),
            ("0000-01-01T00:00:00Z", "free"),
        ],
    ),
    (
        [(30, b"99991231"), (35, b"000000+2359")],
        [
            ("9999-12-30T00:00:59Z", "held"),
            ("9999-12-30T00:01:00Z", "free"),
        ],
    ),
]
EXPIRED: list[Copy] = [
    (
        [(37, b"20240301"), (38, b"115959+0000")],
        [
            ("2024-03-01T11:59:58.999999999Z", "free"),
            ("2024-03-01T11:59:59Z", "free"),
            ("2024-03-01T11:59:59.000000001Z", "expired"),
            ("2024-03-01T12:00:00Z", "expired"),
        ],
    ),
    # Without a time: the last second of the day in universal time.
    (
        [(37, b"20240301")],
        [
            ("2024-03-01T12:00:00Z", "free"),
            ("2024-03-01T23:59:59Z", "free"),
            ("2024-03-01T23:59:59.000000001Z", "expired"),
        ],
    ),
    ([(38, b"115959+0000")], [("9999-12-30T22:00:00Z", "free")]),
    ([(37, b"99991231")], [("9999-12-30T22:00:00.999999999Z", "free")]),
    # Copy that expired before its release is embargoed until then.
    (
        [(30, b"20240302"), (37, b"20240229")],
        [
            ("2024-03-01T23:59:59Z", "held"),
            ("2024-03-02T00:00:00Z", "expired"),
        ],
    ),
    (
        [(37, b"20240229"), (30, b"20240302")],
        [
            ("2024-03-01T23:59:59Z", "held"),
            ("2024-03-02T00:00:00Z", "expired"),
        ],
    ),
]


def expect_copy(run: Command, fields: list[tuple[int, bytes]], now: str, copy: str) -> None:
    """Check the state of copy of the smallest envelope with these datasets after 2:00."""
    row = ROW.format(1, "00000001", "-", 14, "0/0", "-", "-", copy)
    sums = f"1 envelopes, 0 repeated, {1 if copy == 'held' else 0} held\n"
    got = run(["audit", "--now", now], with_fields(*fields))
    assert got == (0, (row + sums).encode(), b""), now


def test_reports_embargoed_copy(run: Command) -> None:
    for fields, states in EMBARGOED:
        for now, copy in states:
            expect_copy(run, fields, now, copy)


def test_reports_expired_copy(run: Command) -> None:
    for fields, states in EXPIRED:
        for now, copy in states:
            expect_copy(run, fields, now, copy)


def copies(output: bytes) -> list[bytes]:
    """Return the state of copy of each row of a report."""
    return [line.rpartition(b" ")[2] for line in output.splitlines()[:-1]]


def test_counts_embargoed_copies(run: Command) -> None:
    first, last = with_fields((30, b"20240302")), with_fields((30, b"99991230"))
    sent = first + SMALLEST + STORY + with_fields((37, b"20240229")) + last
    status, output, errors = run(["audit", *NOON], sent)
    assert (status, errors) == (0, b"")
    assert copies(output) == [b"held", b"free", b"free", b"expired", b"held"]
    assert output.splitlines()[-1] == b"5 envelopes, 3 repeated, 2 held"


# Instants, with the age of copy that was sent at noon on 1 March 2024.
AGES = [
    ("2024-03-01T12:00:00.5Z", 0),
    ("2024-03-01T11:59:59.5Z", -1),
    ("2024-03-01T13:00:00+01:00", 0),
    ("2024-03-01T13:00Z", 3600),
    ("2024-03-01T13Z", 3600),
    # Second 60 is read as 59.
    ("2024-03-01T12:00:60Z", 59),
    # 2,024 years before: five times 400 years of 146,097 days, and 24 years of 8,766 days.
    ("0000-03-01T12:00:00Z", -739251 * 86400),
    # A year before that, with 29 February of the year 0000.
    ("-000001-03-01T12:00:00Z", -(739251 + 366) * 86400),
]


def test_accepts_the_instants_that_jiff_parses(run: Command) -> None:
    sent = SMALLEST[:55] + dataset(1, 80, b"120000+0000") + SMALLEST[55:]
    for now, age in AGES:
        status, output, errors = run(["audit", f"--now={now}"], sent)
        got = output.split(b" age ")[1].split(b" ")[0]
        assert (status, got, errors) == (0, b"%d" % age, b""), now
    for now in "2024-03-01T12:00:00", "2024-03-01", "9999-12-30T22:00:01Z", "":
        assert run(["audit", "--now", now], sent) == (2, b"", b"bad --now\n")


# Forms of one instant that docs/reference/format.md lists for `--now`, and texts that are none.
VALID = [
    "2024-03-01 12:00:00Z",
    "2024-03-01t12:00:00z",
    "20240301T120000Z",
    "2024-03-01T12Z",
    "2024-03-01T12:00Z",
    "2024-03-01T12:00:00,0Z",
    "2024-03-01T12:00:00.000000000Z",
    "2024-03-01T13:00:00+01",
    "2024-03-01T13:00:00+0100",
    "2024-03-01T13:00:30+01:00:30",
    "2024-03-01T13:00:00+01:00[Europe/Paris]",
    "2024-03-02T13:59:00+25:59",
    "+002024-03-01T12:00:00Z",
    "2024-03-01T12:00:00-00:00",
]
INVALID = [
    "2024-03-01T12:00:00",
    "2024-03-01T12:00:00[Europe/Paris]",
    "2024-03-01T12:00:00.1234567891Z",
    "2024-03-01T24:00:00Z",
    "2024-03-01Z",
    "2024-03-01T12:00:61Z",
    " 2024-03-01T12:00:00Z",
    "2024-03-01T12:00:00+26:00",
    "2024-3-1T12:00:00Z",
    "9999-12-30T22:00:01Z",
    "12:00:00Z",
]


def test_accepts_each_form_of_an_instant(run: Command) -> None:
    sent = with_fields((30, b"20240301"), (35, b"120000+0000"))
    want = run(["audit", *NOON], sent)
    assert copies(want.output) == [b"free"]
    for now in VALID:
        assert run(["audit", f"--now={now}"], sent) == want, now
    for now in INVALID:
        assert run(["audit", f"--now={now}"]) == (2, b"", b"bad --now\n"), now
