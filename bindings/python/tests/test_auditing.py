"""Audit streams and trees as the command does."""
from __future__ import annotations
from support.bindings.archive import Row
from support.bindings.running import NO_ARGUMENTS
from typing import Any, List, Optional, Tuple

import datetime
import io
import itertools
import os
import random
import re
import tempfile
from pathlib import Path

import envelopes
import iim
import pytest
import rules
from envelopes import SMALLEST, STORY, STORY_FIELDS, STORY_HEAD
from support.bindings.archive import archive, audit_line, expect_audit, random_tree, stored
from support.bindings.comparing import or_dash
from support.bindings.paths import NOW
from support.bindings.running import run, samples, write_file
from support.bindings.streams import made, OnlyRead

pytestmark = pytest.mark.usefixtures("way")
UTC = datetime.timezone.utc


def audited(command: Path, octets: bytes, now: str = NOW) -> Tuple[List[str], Optional[str]]:
    """Return the rows of `audit` without repeats, and the line of the refusal, or `None`."""
    at, refused = 0, None
    for line in run([command, "check"], octets)[1].decode("latin-1").splitlines():
        accepted = re.fullmatch(r"\d+ accepted (\d+) octets", line)
        if accepted:
            at += int(accepted[1])
        else:
            refused = line
    status, output, errors = run([command, "audit", "--now", now], octets[:at])
    assert (status, errors) == (0, b"")
    return [
        re.sub(" repeats \\S+", "", line) for line in output.decode("latin-1").splitlines()[:-1]
    ], refused


def audit_text(nth: int, row: iim.AuditRow) -> str:
    """Return the same line for a row of `iim.audit`."""

    def text(octets: Optional[bytes]) -> str:
        return "-" if octets is None else octets.decode("latin-1")

    return (
        f"{nth} {rules.shown(row.service)} {text(row.number)} {text(row.date_sent)}"
        f" priority {text(row.priority)} size {row.size} subfiles {row.subfiles}"
        f" words {row.announced}/{row.counted} age {or_dash(row.age)} copy {row.copy}"
    )


def audit_lines(file: Any) -> Tuple[List[str], Optional[str]]:
    """Return the lines of the rows, and the line of the refusal, or `None`."""
    lines: List[str] = []
    at = 0
    try:
        for row in iim.audit(file, now=datetime.datetime.fromisoformat(NOW.replace("Z", "+00:00"))):
            assert row.at == at
            at += row.length
            lines.append(audit_text(len(lines) + 1, row))
    except iim.RefusedError as refused:
        assert (refused.at, refused.nth) == (at, len(lines) + 1)
        return lines, str(refused)
    return lines, None


def test_audits_chunked_samples_as_the_command(command: Path) -> None:
    for name, octets in samples().items():
        want = audited(command, octets)
        for size in (*range(1, 65), 4096):
            assert (name, size, audit_lines(OnlyRead(octets, size))) == (name, size, want)


def test_audits_random_streams_as_the_command(command: Path) -> None:
    chance = random.Random(11)
    streams = list(made(12, 2000))
    for at in range(0, 2000, 4):
        octets = b"".join(streams[at : at + 4])
        assert (octets.hex(), audit_lines(io.BytesIO(octets))) == (
            octets.hex(),
            audited(command, octets),
        )
        assert (octets.hex(), audit_lines(OnlyRead(octets, chance.randrange(1, 65)))) == (
            octets.hex(),
            audited(command, octets),
        )


def test_audits_blocks_with_more_envelopes_than_rows(folder: str) -> None:
    path = write_file(folder, "many.iim", SMALLEST * 30_000 + STORY[:200])
    blocks = []
    try:
        for block in iim.audit_blocks(path):
            blocks.append(len(block))
            last = block[-1]
        raise AssertionError("not refused")
    except iim.TruncatedError as refused:
        assert (refused.nth, refused.at, refused.id) == (
            30_001,
            30_000 * 114,
            (b"TST", b"00000002", b"20240301"),
        )
    assert (sum(blocks), last.at, last.length) == (30_000, 29_999 * 114, 114)
    assert len(blocks) > 3, f"only {blocks} blocks"
    assert [row.at for row in iim.audit(io.BytesIO(SMALLEST * 2))] == [0, 114]
    for now in (
        datetime.datetime(2024, 3, 1),
        "2024",
        datetime.datetime(9999, 12, 30, 22, 0, 1, tzinfo=datetime.timezone.utc),
    ):
        assert isinstance(
            pytest.raises(
                (TypeError, ValueError), lambda now: list(iim.audit(path, now=now)), now
            ).value,
            Exception,
        ), "taken"
    assert (
        pytest.raises(
            iim.RefusedError, lambda: list(iim.audit(path, iim.Limits(20, 512)))
        ).value.cause_name
        == "HeaderFull"
    )


def test_audits_a_tree_as_the_command(command: Path, folder: str) -> None:
    status, rows, sums, errors = archive([random_tree(folder)])
    assert (status, errors) == (1, "")
    expect_audit(command, rows, sums, folder)
    for words in (
        ["--workers", "1"],
        ["--workers", "2"],
        ["--workers", "2", "--batch", "1"],
        ["--batch", "7"],
    ):
        assert (words, archive([*words, folder])) == (words, (status, rows, sums, errors))


def test_computes_release_and_age_as_the_command(command: Path, folder: str) -> None:
    dates = [b"20240301", b"00010101", b"99991231", b"20240229"]
    times = [
        None,
        b"120000+0000",
        b"115959+0000",
        b"120001+0000",
        b"000000-2359",
        b"235959+2359",
        b"130000+0100",
        b"235959-2359",
    ]
    stream = b""
    of_copy = [((30, 35), None), (None, (37, 38)), ((30, 35), (37, 38))]
    for at, (date, time, (release, expiration)) in enumerate(
        itertools.product(dates, times, of_copy)
    ):
        fields = [field for field in envelopes.SMALLEST_FIELDS[:6] if field[:2] != (1, 70)] + [
            (1, 70, date)
        ]
        fields += [(1, 80, time)] if time else []
        fields.append((2, 0, b"\0\4"))
        for numbers in release, expiration:
            if numbers:
                fields += [(2, numbers[0], date), *([(2, numbers[1], time)] if time else [])]
        octets = rules.packed(fields, rules.object_of(envelopes.SMALLEST_HEAD, [b""], b""), 1024)
        write_file(folder, f"{at:04}.iim", octets)
        stream += octets
    near = "2024-03-01T12:00:00.500000Z", "2024-03-01T11:59:59.999999Z", "2024-03-01T13:00:00+01:00"
    for now in (NOW, *near, "9999-12-30T22:00:00Z", "0001-01-01T00:00:00Z"):
        status, output, _ = run([command, "audit", "--now", now], stream)
        got = archive(["--now", now, folder])
        first = {}
        lines = []
        for number, row in enumerate(got[1], 1):
            first[row["file"]] = number
            lines.append(audit_line(number, row, row["repeats"] and first[row["repeats"]["file"]]))
        assert (now, got[0], lines) == (now, status, output.decode().splitlines()[:-1])


def test_counts_words_in_chunks(folder: str) -> None:
    chance = random.Random(7)
    for _ in range(300):
        lines = bytes(chance.choices(b"ab\xff \t\n", k=chance.randrange(12))).split(b"\n")
        octets = (
            rules.packed(
                STORY_FIELDS, rules.object_of(STORY_HEAD, lines, b""), chance.randrange(1, 9)
            )
            * 2
        )
        file: Any = OnlyRead(octets, chance.randrange(1, 9))
        rows = list(iim.audit(file))
        assert (lines, [row.counted for row in rows]) == (lines, 2 * [rules.words_of(lines)])
    # (far more than a block)
    lines = [b"a word of copy " * 20_000, b"b" * 200_000, b"", b"\tc \t" * 50_000]
    write_file(
        folder,
        "long.iim",
        rules.packed(STORY_FIELDS, rules.object_of(STORY_HEAD, lines, b""), 70_000),
    )
    assert [row["counted"] for row in archive([folder])[1]] == [rules.words_of(lines)]


def outcome(row: Row) -> object:
    """Return why a file failed, or why an envelope was rejected, or its length."""
    return row.get("failed") or row.get("refused", {}).get("cause_name") or row["length"]


def test_reports_unreadable_files_and_continues(folder: str) -> None:
    write_file(folder, "a/one.iim", SMALLEST)
    write_file(folder, "a/one.txt", b"no envelope")
    write_file(folder, "b/two.iim", SMALLEST[:9])
    write_file(folder, "z.iim", SMALLEST + b"\x1d")
    os.mkfifo(f"{folder}/b/pipe.iim")
    os.symlink("nowhere", f"{folder}/b/lost.iim")
    os.symlink("..", f"{folder}/b/up.iim")
    for words in NO_ARGUMENTS, ["--workers", "2"]:
        status, rows, sums, errors = archive(
            [*words, "--name", "*.iim", folder, f"{folder}/absent"]
        )
        assert (status, errors) == (3, "")
        assert sums == {
            "files": 6,
            "envelopes": 2,
            "repeated": 1,
            "held": 0,
            "refused": 2,
            "empty": 0,
            "failed": 3,
            "linked": 0,
        }
        printed = [(os.path.relpath(row["file"], folder), outcome(row)) for row in rows]
        missing = "No such file or directory"
        want = [
            ("a/one.iim", 114),
            ("b/lost.iim", missing),
            ("b/pipe.iim", "not a regular file"),
            ("b/two.iim", "Truncated"),
        ]
        assert printed == [*want, ("z.iim", 114), ("z.iim", "Marker"), ("absent", missing)]
        assert rows[4]["repeats"] == {"file": f"{folder}/a/one.iim", "envelope": 1}
    assert archive([f"{folder}/a/one.iim"])[0] == 0
    assert (
        archive(["--limits", "20", "512", f"{folder}/a/one.iim"])[1][0]["refused"]["cause_name"]
        == "HeaderFull"
    )


def test_checks_the_arguments_of_the_archive(folder: str) -> None:
    wrong = [
        ["--workers", "0"],
        ["--workers", "2", "--scheduler", "x"],
        ["--batch", "0"],
        ["--now", "soon"],
        ["--now", "2024-03-01"],
        ["--now", "9999-12-30T22:00:01Z"],
    ]
    assert archive([])[:2] == (2, [])
    for words in wrong:
        assert (words, archive([*words, folder])[:2]) == (words, (2, []))
    counts = "files", "envelopes", "repeated", "held", "refused", "empty", "failed", "linked"
    assert archive([folder]) == (0, [], dict.fromkeys(counts, 0), "")


def test_reads_trees_of_any_depth() -> None:
    for name, depth in ("d", 1_500), ("of a folder with a long name", 400):
        with tempfile.TemporaryDirectory() as folder:
            here, at = os.open(folder, os.O_RDONLY), folder
            for nth in range(depth):
                os.mkdir(name, dir_fd=here)
                below = os.open(name, os.O_RDONLY, dir_fd=here)
                os.close(here)
                here, at = below, f"{at}/{name}"
                if nth % 100 == 99:
                    with open(os.open("a.iim", os.O_WRONLY | os.O_CREAT, dir_fd=here), "wb") as to:
                        to.write(SMALLEST)
            os.close(here)
            try:
                for words in NO_ARGUMENTS, ["--workers", "2"]:
                    status, rows, sums, errors = archive([*words, folder])
                    assert (depth, status, errors, sums["envelopes"], sums["failed"]) == (
                        depth,
                        0,
                        "",
                        depth // 100,
                        0,
                    )
                    assert (rows[-1]["length"], sorted({row["file"] for row in rows})[-1]) == (
                        114,
                        f"{at}/a.iim",
                    )
                assert stored(f"{folder}/index", [folder])[1]["envelopes"] == depth // 100
                assert stored(f"{folder}/index", [folder])[1]["unchanged"] == depth // 100
            finally:
                run(["rm", "-rf", f"{folder}/{name}"])


def test_reports_dangling_links(folder: str) -> None:
    write_file(folder, "tree/a.iim", SMALLEST)
    os.symlink("b.iim", f"{folder}/tree/b.iim")
    os.symlink("absent", f"{folder}/tree/c.iim")
    os.symlink("..", f"{folder}/tree/d.iim")
    status, rows, sums, errors = archive([f"{folder}/tree"])
    assert (status, errors, [row.get("failed") for row in rows]) == (
        3,
        "",
        [None, "Too many levels of symbolic links", "No such file or directory"],
    )


def test_accepts_instants_up_to_the_last() -> None:
    # (9999-12-30T22:00:00Z: a day and two hours before the end of the year 9999)
    last = datetime.datetime(9999, 12, 30, 22, tzinfo=UTC)
    assert iim.LAST_SECOND == (last - datetime.datetime(1970, 1, 1, tzinfo=UTC)).total_seconds()
    (row,) = iim.audit(io.BytesIO(STORY), now=last)
    assert row.length == len(STORY)
    with pytest.raises(ValueError, match="the last instant"):
        iim.Auditor(now=last + datetime.timedelta(seconds=1))


def test_reads_the_instants_of_copy() -> None:
    fields = [*STORY_FIELDS, (2, 30, b"20240301"), (2, 35, b"120000+0100")]
    fields += [(2, 37, b"20240302"), (2, 38, b"000000-0200")]
    octets = rules.packed(sorted(fields), rules.object_of(STORY_HEAD, [b"a"], b""), 1024)
    (row,) = iim.audit(io.BytesIO(octets), now=datetime.datetime(2024, 3, 1, tzinfo=UTC))
    release = datetime.datetime(2024, 3, 1, 11, tzinfo=UTC)
    expires = datetime.datetime(2024, 3, 2, 2, tzinfo=UTC)
    assert (row.release, row.expires) == (release.timestamp(), expires.timestamp())
    assert row.copy == "held"
