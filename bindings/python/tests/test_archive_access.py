"""Who may read an index, which files it knows as its own, and its older and newer forms."""
from __future__ import annotations

import contextlib
import os
import sqlite3
from typing import List

import pytest
from envelopes import SMALLEST, STORY
from iim.archive import opening, schema
from iim.archive.index import Index
from iim.archive.rows import Batch
from support.bindings.archive import called, locked_database, rows_called, small_disk
from support.bindings.indexes import RULES, envelope_cells, made_index, rows_in
from support.bindings.paths import NOW, PYTHON_TESTS
from support.bindings.running import NO_ARGUMENTS, octets_of, run, write_file

NOBODY = 65_534


def indexed(folder: str, name: str = "index") -> str:
    """Write a small tree and its index."""
    for at in range(3):
        write_file(folder, f"tree/{at}.iim", STORY + SMALLEST)
    assert called("--into", f"{folder}/{name}", "--now", NOW, f"{folder}/tree")[0] == 0
    return f"{folder}/{name}"


def status_as_nobody(*words: str) -> int:
    """Run iim-archive in a child that may write nothing, and return its status."""
    child = os.fork()
    if child == 0:
        status = 70
        with contextlib.suppress(BaseException):
            if os.getuid() == 0:
                os.setgroups([])
                os.setresgid(NOBODY, NOBODY, NOBODY)
                os.setresuid(NOBODY, NOBODY, NOBODY)
            status = called(*words)[0]
        os._exit(status)
    return os.waitstatus_to_exitcode(os.waitpid(child, 0)[1])


def test_leaves_a_rollback_journal(folder: str) -> None:
    index = indexed(folder)
    assert sorted(os.listdir(folder)) == ["index", "index.lock", "tree"]
    # (bytes 18 and 19 of an SQLite database are 1 for a rollback journal, and 2 for a log)
    assert octets_of(index)[18:20] == b"\1\1"


def test_is_read_by_who_may_only_read(folder: str) -> None:
    place = f"{folder}/archive"
    index = indexed(place)
    os.chmod(index, 0o444)
    os.chmod(place, 0o555)
    os.chmod(folder, 0o755)
    for words in ["query"], ["query", "--repeats"], ["report"], ["manifest"]:
        assert (words, status_as_nobody(*words, index)) == (words, 0)
    assert status_as_nobody("--into", index, place) == 3
    os.chmod(place, 0o755)


def test_is_read_on_a_read_only_file_system(folder: str) -> None:
    with small_disk(folder, 1 << 22) as disk:
        index = indexed(disk)
        want = rows_called("query", "--now", NOW, index)
        assert run(["mount", "-o", "remount,ro", disk])[0] == 0
        for words in NO_ARGUMENTS, ["--immutable"]:
            assert (words, rows_called("query", "--now", NOW, *words, index)) == (words, want)
            assert (words, called("report", *words, index)[0]) == (words, 0)
        assert called("--into", index, f"{disk}/tree")[0] == 3
    assert len(want) == 6


def test_takes_no_lock_of_an_immutable_index(folder: str, monkeypatch: pytest.MonkeyPatch) -> None:
    index = indexed(folder)
    monkeypatch.setattr(opening, "LOCK_WAIT", 0.1)
    with locked_database(index):
        assert called("query", index)[::2] == (3, f"iim-archive: {index}: database is locked\n")
        assert len(rows_called("query", "--immutable", index)) == 6


def test_hints_at_a_killed_run(folder: str, monkeypatch: pytest.MonkeyPatch) -> None:
    index = indexed(folder)
    write_file(folder, "index-wal", b"a log")

    def fails(*_: object, **__: object) -> None:
        raise sqlite3.OperationalError("unable to open database file")

    monkeypatch.setattr(sqlite3, "connect", fails)
    hint = "a run was killed: read it where its directory can be written"
    assert called("query", index) == (
        3,
        "",
        f"iim-archive: {index}: unable to open database file ({hint})\n",
    )


def test_merges_more_than_ten_indexes(folder: str) -> None:
    parts: List[str] = []
    for at in range(12):
        numbers = [{"number": "%08d" % number, "at": at} for number in (at, at % 5, 77)]
        parts.append(made_index(f"{folder}/{at}", [(b"/%02d.iim" % (11 - at), numbers)], [1]))
    whole = [
        (b"/%02d.iim" % at, [{"number": "%08d" % number, "at": 11 - at} for number in of_file])
        for at, of_file in ((at, (11 - at, (11 - at) % 5, 77)) for at in range(12))
    ]
    index = made_index(f"{folder}/whole", whole, range(1, 13))
    for words in (
        NO_ARGUMENTS,
        ["--repeats"],
        ["--csv"],
        ["--service", "TST"],
        ["--date", "20240301"],
    ):
        want = called("query", "--now", NOW, *words, index)
        assert (words, called("query", "--now", NOW, *words, *parts)) == (words, want)
        assert want[1].count("\n") > 20
    first = {"file": "/00.iim", "envelope": 3}
    repeats = rows_called("query", "--repeats", "--where", "number=00000077", *parts)
    assert [row["repeats"] for row in repeats] == [first] * 11


def test_never_lists_its_own_files(folder: str) -> None:
    tree = f"{folder}/tree"
    write_file(tree, "a.iim", SMALLEST)
    os.symlink(tree, f"{folder}/link")
    os.symlink(f"{tree}/x.index", f"{tree}/link.index")
    for index, named in (
        (f"{tree}/x.index", tree),
        (f"{tree}/x.index", f"{folder}/link"),
        (f"{folder}/link/x.index", tree),
        (f"{folder}/link/x.index", f"{folder}/link"),
    ):
        (sums,) = rows_called("--into", index, named)
        assert (index, named, sums["files"], sums["failed"]) == (index, named, 1, 0)
    # (the tree has one name for each of the two under which it was indexed)
    assert rows_in(f"{tree}/x.index", "SELECT count(*) FROM files") == [2]


def test_identifies_the_database_as_an_index(folder: str) -> None:
    index = indexed(folder)
    pragmas = ("application_id", "user_version")
    assert [rows_in(index, f"PRAGMA {name}")[0] for name in pragmas] == [0x49494D78, 2]
    assert rows_in(index, "PRAGMA foreign_key_check") == []
    for table in "envelopes", "refusals", "events":
        keys = rows_in(
            index, f"SELECT \"table\", on_delete FROM pragma_foreign_key_list('{table}')"
        )
        assert ("files", "CASCADE") in keys, table


def test_replaces_a_path_without_orphans(folder: str) -> None:
    with Index(f"{folder}/index") as index:
        index.begin("index", RULES._replace(text="all"))
        for file in 1, 2:
            row = (file, b"/a.iim", 9, 9, 9, "accepted", "", "", b"")
            cells = envelope_cells(file, 1)
            index.write(
                Batch(
                    [row],
                    [],
                    cells,
                    [],
                    [(schema.row_of_text(file, 1), "", "", "", "", "", "", "", "")],
                )
            )
        index.end(0)
    for table in "files", "envelopes", "texts WHERE rowid / 4294967296 = 2", "texts":
        assert (table, rows_in(f"{folder}/index", f"SELECT count(*) FROM {table}")) == (table, [1])
    assert rows_in(f"{folder}/index", "SELECT file FROM envelopes") == [2]


def test_rejects_a_newer_form(folder: str) -> None:
    index = indexed(folder)
    with contextlib.closing(sqlite3.connect(index)) as database:
        database.execute("PRAGMA user_version = 3")
    before = octets_of(index)
    for words in ["query", index], ["migrate", index], ["--into", index, f"{folder}/tree"]:
        reason = "an index of a newer release of iim-archive"
        assert called(*words) == (3, "", f"iim-archive: {index}: {reason}\n")
    assert octets_of(index) == before


def old_index(folder: str) -> str:
    """Write the index of form 1, whose rows release 2 wrote."""
    path = f"{folder}/old.index"
    text = (PYTHON_TESTS / "archive_form_1.sql").read_text(encoding="utf-8")
    with contextlib.closing(sqlite3.connect(path)) as database:
        database.executescript(text)
        # (as an INSERT OR REPLACE of a path left it)
        database.execute(
            "INSERT INTO envelopes SELECT 99, envelope, at, length, service, number, date_sent,"
            " priority, size, subfiles, announced, counted, sent, release, expires"
            " FROM envelopes WHERE file = 6"
        )
        database.commit()
    return path


def test_migrates_an_old_index_without_loss(folder: str) -> None:
    index = old_index(folder)
    of_files = "SELECT file, path, size, changed, read, state, reason, gone FROM files ORDER BY 1"
    texts = (of_files, "SELECT * FROM envelopes WHERE file < 99", "SELECT * FROM refusals")
    want = [rows_in(index, text) for text in texts]
    assert [len(rows) for rows in want] == [6, 7, 1]
    older = f"{index}: an index of an older release of iim-archive"
    migrates = "`iim-archive migrate` brings it to the present form"
    assert called("query", index) == (3, "", f"iim-archive: {older}; {migrates}\n")
    told = f"iim-archive: {index}: is brought to the form of this release\n"
    assert called("migrate", index) == (0, "", told)
    assert [rows_in(index, text) for text in texts] == want
    assert rows_in(index, "SELECT count(*) FROM envelopes") == [7]
    assert rows_in(index, "SELECT DISTINCT run, sha256, fixity FROM files") == [(1, None, None)]
    assert rows_in(index, "SELECT run, command, release, octets FROM runs") == [
        (1, "migrate", "", None)
    ]
    assert rows_in(index, "PRAGMA foreign_key_check") == []
    assert called("migrate", index) == (0, "", "")
    rows = rows_called("query", "--now", NOW, index)
    states = [
        next(name for name in ("length", "refused", "empty", "failed") if name in row)
        for row in rows
    ]
    assert states == ["length"] * 4 + ["refused", "empty", "failed", "length"]
    assert [row["age"] for row in rows if row.get("copy") == "held"] == [3600]


def test_migrates_when_a_run_writes(folder: str) -> None:
    index = old_index(folder)
    write_file(folder, "tree/a.iim", SMALLEST)
    status, _, errors = called("--into", index, f"{folder}/tree")
    assert (status, "is brought to the form" in errors) == (3, True)
    assert rows_in(index, "SELECT command FROM runs") == ["migrate", "index"]
    assert rows_in(index, "SELECT count(*) FROM files") == [7]


def test_keeps_the_old_form_if_migration_fails(
    folder: str, monkeypatch: pytest.MonkeyPatch
) -> None:
    index = old_index(folder)
    before = rows_in(index, "SELECT name, sql FROM sqlite_master ORDER BY name")
    broken = schema.FROM_FORM_1 + "INSERT INTO files SELECT 1;"
    monkeypatch.setattr(schema, "FROM_FORM_1", broken)
    assert called("migrate", index)[0] == 3
    assert rows_in(index, "PRAGMA user_version") == [1]
    assert rows_in(index, "SELECT name, sql FROM sqlite_master ORDER BY name") == before
    monkeypatch.undo()
    assert called("migrate", index)[0] == 0
