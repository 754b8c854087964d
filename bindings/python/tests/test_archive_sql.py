"""The statements of queries.sql, on an index of the samples."""
from __future__ import annotations

import contextlib
import json
import re
import sqlite3
from pathlib import Path
from typing import Any, Dict, Iterator, List, Tuple

import pytest
from iim.archive import schema
from support.bindings.archive import called, rows_called
from support.bindings.paths import NOW, SAMPLES


def statements() -> List[Tuple[int, str, str]]:
    """Return the number, the question and the text of each statement."""
    parts = re.split(r"^-- (\d+)\. ", schema.examples(), flags=re.M)[1:]
    found = []
    for number, text in zip(parts[::2], parts[1::2]):
        question, _, statement = text.partition("\n")
        found.append((int(number), question, statement.strip()))
    return found


@pytest.fixture(scope="module")
def index(tmp_path_factory: pytest.TempPathFactory) -> str:
    """Return the index of the samples, which was verified once."""
    path = str(tmp_path_factory.mktemp("sql") / "samples.index")
    words = ["--into", path, "--text", "all", "--root", str(SAMPLES), "--name", "*.iim"]
    assert called(*words, "--now", NOW, str(SAMPLES))[0] == 1
    assert called("verify", path)[0] == 0
    return path


@contextlib.contextmanager
def opened(path: str) -> Iterator[sqlite3.Connection]:
    """Open an index for reading only, as a user of SQLite would."""
    with contextlib.closing(sqlite3.connect(f"file:{path}?mode=ro", uri=True)) as database:
        database.row_factory = sqlite3.Row
        yield database


def answers(path: str, number: int) -> List[Dict[str, Any]]:
    """Return the rows of a statement."""
    ((_, _, text),) = [each for each in statements() if each[0] == number]
    with opened(path) as database:
        return [dict(row) for row in database.execute(text)]


def test_has_twenty_statements_that_run(index: str) -> None:
    listed = statements()
    assert [number for number, _, _ in listed] == list(range(1, 22))
    with opened(index) as database:
        for number, question, text in listed:
            assert question.endswith(("?", ")")) and text.endswith(";"), number
            database.execute(text).fetchall()


def test_answers_as_the_query_does(index: str) -> None:
    states = {row["state"]: row["files"] for row in answers(index, 1)}
    assert states == {"accepted": 8, "refused": 30}
    (sums,) = [json.loads(row["sums"]) for row in answers(index, 18)][:1]
    assert (sums["envelopes"], sums["repeated"]) == (11, 9)
    day = rows_called("query", "--date", "20240301", "--only", "envelope", index)
    assert [(row["file"], row["envelope"]) for row in answers(index, 2)] == [
        (row["file"], row["envelope"]) for row in day
    ]
    assert answers(index, 3) == [{"service": "TST", "month": "202403", "envelopes": 11}]
    assert sum(row["times"] - 1 for row in answers(index, 4)) == 9
    assert len(answers(index, 5)) == sum(row["number"] == "00000001" for row in day)
    assert answers(index, 6) == []
    causes = {row["cause"]: row["refusals"] for row in answers(index, 11)}
    refused = [row["refused"] for row in rows_called("query", "--only", "refused", index)]
    assert causes == {
        each["cause"]: sum(one["cause"] == each["cause"] for one in refused) for each in refused
    }
    assert [(row["octet"], row["dataset"]) for row in answers(index, 12)] == [
        (each["octet_in_file"], each["dataset"]) for each in refused
    ]


def test_answers_on_words_runs_and_fixity(index: str) -> None:
    found = {(row["file"], row["envelope"]) for row in answers(index, 21)}
    rows = rows_called("query", "--words", "rates", "--fields", "file,envelope", index)
    assert found == {(row["file"], row["envelope"]) for row in rows} and len(found) == 4
    assert answers(index, 13) == answers(index, 14) == answers(index, 16) == []
    assert answers(index, 19) == []
    assert sum(row["files"] for row in answers(index, 17)) == 38
    assert [row["command"] for row in answers(index, 18)] == ["index", "verify"]
    events = [(row["eventType"], row["eventOutcome"]) for row in answers(index, 20)]
    assert sorted(events) == [
        ("fixity check", "success"),
        ("message digest calculation", "success"),
        ("validation", "success"),
    ]
    words = [row for row in answers(index, 10) if row["file"] == "story.iim"]
    assert words == [{"file": "story.iim", "envelope": 1, "announced": 5, "counted": 4}]


def test_finds_missing_numbers_and_copies(folder: str, index: str) -> None:
    path = f"{folder}/copy.index"
    Path(path).write_bytes(Path(index).read_bytes())
    with contextlib.closing(sqlite3.connect(path)) as database:
        database.execute("UPDATE envelopes SET number = '00000005' WHERE number = '00000002'")
        database.execute("UPDATE files SET sha256 = 'same' WHERE file <= 3")
        database.execute("UPDATE files SET fixity = 'damaged' WHERE file = 2")
        database.execute("UPDATE envelopes SET priority = '1', expires = 5 WHERE envelope = 2")
        database.commit()
    numbers = [row["number"] for row in answers(path, 6)]
    assert numbers == ["00000002", "00000003", "00000004"]
    assert [row["files"] for row in answers(path, 15)] == [3]
    assert [row["fixity"] for row in answers(path, 16)] == ["damaged"]
    second = [row for row in rows_called("query", path) if row["envelope"] == 2 and "at" in row]
    copies = [row for row in second if "length" in row]
    assert len(answers(path, 9)) == len(answers(path, 8)) == len(copies) > 0
    assert answers(path, 8)[0]["expired"] == "1970-01-01 00:00:05"
