"""Write an index of iim-archive. `iim.archive.schema` has its tables."""
from __future__ import annotations

import contextlib
import fcntl
import json
import os
import sqlite3
import stat
import time
from typing import (
    BinaryIO,
    Dict,
    FrozenSet,
    Iterable,
    Iterator,
    List,
    NamedTuple,
    Optional,
    Sequence,
    Tuple,
)

from iim.archive import schema
from iim.archive.output import LOGGER
from iim.archive.rows import COLUMNS, ENDS, NEVER, PLAIN, Batch, Cells, FileRow, NoIndex
from iim.archive.schema import FORM, INDEXES, RELEASE

# The beginning of an SQLite database, and the suffix of the lock file.
MAGIC = b"SQLite format 3\0"
LOCK = ENDS[-1]

# The condition that excludes files that are gone.
HERE = "file NOT IN (SELECT file FROM files WHERE gone = 1)"

# The totals that a run stores. They are deleted when anything is written later.
STATES = "refused", "empty", "failed", "linked"
HELD = f"SELECT count(*) FROM envelopes WHERE release > ? AND {HERE}"

# The maximum wait for a lock of another program, and for the readers of a finished run, in seconds.
LOCK_WAIT, READER_WAIT = 60, 1

# The size of the database's cache, in bytes: also the memory in which SQLite sorts.
CACHE = 32 << 20

# The size of the pages of a new index, in bytes, and the number of pages in the write-ahead log at
# which they are moved to the database.
PAGE_SIZE, CHECKPOINT = 8_192, 4_096

# The number of rows of files that are read at a time.
PAGE = 4_096

# The numbers of rows that one statement inserts: the fastest one first. (SQLite before 3.32 accepts
# at most 999 values.)
AT_ONCE = (240, 60, 8, 1) if sqlite3.sqlite_version_info >= (3, 32, 0) else (60, 8, 1)

# The first release of SQLite that can analyze a sample of an index.
ANALYZES = 3, 32, 0

# What can be missing is not bound as `None`, which takes Python as long as ten numbers, but as a
# value that no column has: an empty text, or a second before all instants.
INSERT = "INSERT INTO envelopes VALUES "
PLAIN_ROW = f"({', '.join('?' * PLAIN)}, NULL, NULL)"
ANY_ROW = "(" + "?, " * 7 + "nullif(?, ''), ?, ?, ?, ?" + f", nullif(?, {NEVER})" * 3 + ")"
# The columns of a file's row that a run writes, and their values.
OF_FILE = "path, size, changed, read, state, reason, sha256, target"
VALUES = "?, ?, ?, ?, ?, nullif(?, ''), nullif(?, ''), nullif(?, x'')"


class Rules(NamedTuple):
    """What determines the rows of a file, beside its content.

    Attributes:
        release: The release of iim-archive.
        octets: The maximum number of bytes of data in records 1 and 2 together.
        fields: The maximum number of datasets in them.
        text: What the full-text index has: "none", "fields" or "all".
        encoding: The encoding of envelopes without 1:90.
    """

    release: str
    octets: int
    fields: int
    text: str
    encoding: str


class Setting(NamedTuple):
    """What later runs on an index do by default.

    Attributes:
        text: What the full-text index has.
        encoding: The encoding of envelopes without 1:90.
        root: The directory that names are relative to, or `None`.
    """

    text: str = "none"
    encoding: str = "latin-1"
    root: Optional[bytes] = None


# The entry of a file in the index: path, file, size, changed, state, gone, run, fixity and target.
Entry = Tuple[bytes, int, int, int, str, int, int, Optional[str], Optional[bytes]]

# A file to verify: file, path, size, changed and sha256.
Verified = Tuple[int, bytes, int, int, str]


def open_database(path: str) -> sqlite3.Connection:
    """Open the database of an index for writing. A new one gets its tables.

    An index of an older form is migrated.

    Raises:
        NoIndex: The file is not an index, or can't be opened.
    """
    try:
        database = sqlite3.connect(path, isolation_level=None, timeout=LOCK_WAIT)
        database.execute(f"PRAGMA cache_size = -{CACHE >> 10}")
        database.execute(f"PRAGMA page_size = {PAGE_SIZE}")
        is_new = not database.execute("SELECT 1 FROM sqlite_master").fetchone()
        if not (is_new and schema.pragma(database, "user_version") == 0):
            check_form(database, path)
        database.execute("PRAGMA journal_mode = WAL")
        database.execute("PRAGMA synchronous = NORMAL")
        database.execute(f"PRAGMA wal_autocheckpoint = {CHECKPOINT}")
        if is_new:
            schema.create_tables(database)
        elif schema.migrate(database):
            LOGGER.warning("%s: is brought to the form of this release", path)
        database.execute("PRAGMA foreign_keys = ON")
        database.execute("PRAGMA recursive_triggers = ON")
    except sqlite3.Error as fault:
        raise NoIndex(f"{path}: {fault}") from None
    return database


def check_form(database: sqlite3.Connection, path: str) -> None:
    """Raise `NoIndex` if a database is not an index that this release can read or migrate."""
    form = schema.pragma(database, "user_version")
    if not schema.is_index(database):
        raise NoIndex(f"{path}: not an index of iim-archive")
    if not 1 <= form <= FORM:
        raise NoIndex(f"{path}: an index of a newer release of iim-archive")


def check_path(path: str) -> None:
    """Raise `NoIndex` if the path has a file that can't be an index.

    Nothing is written beside it.
    """
    with contextlib.suppress(FileNotFoundError):
        mode = os.stat(path).st_mode
        if stat.S_ISDIR(mode):
            raise NoIndex(f"{path}: is a directory")
        if not stat.S_ISREG(mode):
            raise NoIndex(f"{path}: is not a regular file")
        with open(path, "rb") as octets:
            if octets.read(len(MAGIC)) not in (b"", MAGIC):
                raise NoIndex(f"{path}: file is not a database")


def lock_index(path: str) -> BinaryIO:
    """Lock an index for one run.

    Raises:
        NoIndex: Another run has locked the index, or the lock file can't be written.
    """
    try:
        # (neither follows a link nor waits for a FIFO)
        flags = os.O_WRONLY | os.O_CREAT | os.O_CLOEXEC
        careful = os.O_NOFOLLOW | os.O_NONBLOCK | os.O_NOCTTY
        lock = open(os.open(f"{path}{LOCK}", flags | careful, 0o666), "ab")
        fcntl.flock(lock, fcntl.LOCK_EX | fcntl.LOCK_NB)
        return lock
    except BlockingIOError:
        raise NoIndex(f"{path}: another run is writing it") from None
    except OSError as fault:
        raise NoIndex(f"{path}: {fault.strerror}") from None


class Index:
    """An index that one process writes. A batch of files is written as a whole or not at all.

    It is a context manager that closes it.
    """

    def __init__(self, path: str) -> None:
        """Open and lock an index.

        Args:
            path: The path of the database. A new one gets its tables.

        Raises:
            NoIndex: The path has a file that is not an index, or another run has locked it.
        """
        check_path(path)
        self.path, self.run = path, 0
        self._lock = lock_index(path)
        try:
            self._database = open_database(path)
            # The first number that this run assigns, and the next one.
            first = "SELECT coalesce(max(file), 0) + 1 FROM files"
            self._first: int = self._database.execute(first).fetchone()[0]
        except sqlite3.Error as fault:
            raise NoIndex(f"{path}: {fault}") from None
        self._next = self._first
        self._has_text = False

    def own_files(self) -> FrozenSet[Tuple[int, int]]:
        """Return the device and the inode of each file of the index."""
        found = set()
        for end in ENDS:
            with contextlib.suppress(OSError):
                status = os.stat(self.path + end)
                found.add((status.st_dev, status.st_ino))
        return frozenset(found)

    def setting(self) -> Setting:
        """Return what the last run that read files did."""
        last = "SELECT text, encoding, root FROM runs WHERE text IS NOT NULL ORDER BY run DESC"
        found = self._database.execute(f"{last} LIMIT 1").fetchone()
        return Setting() if found is None else Setting(*found)

    def begin(
        self,
        command: str,
        rules: Optional[Rules] = None,
        root: Optional[bytes] = None,
        trees: Iterable[str] = (),
        pattern: str = "*",
    ) -> None:
        """Begin a run, and insert its row."""
        named = (None,) * 4 if rules is None else rules[1:]
        listed = json.dumps(
            [os.fsencode(tree).decode("utf-8", "backslashreplace") for tree in trees]
        )
        row = command, RELEASE, *named, root, listed, pattern, os.uname().nodename
        columns = "command, release, octets, fields, text, encoding, root, trees, pattern, host"
        run = self._database.execute(
            f"INSERT INTO runs ({columns}, started) VALUES (?, ?, ?, ?, ?, ?, ?, ?, ?, ?, ?)",
            (*row, int(time.time())),
        )
        self.run = int(run.lastrowid or 0)
        if rules is not None and rules.text != "none":
            self._create_texts()
        self._has_text = self._has_table("texts")

    def _create_texts(self) -> None:
        """Create the full-text index. Raise `NoIndex` if this SQLite has none."""
        try:
            self._database.executescript(schema.TEXTS)
        except sqlite3.OperationalError as fault:
            if "fts5" not in str(fault):
                raise
            raise NoIndex(f"{self.path}: this SQLite has no full-text index (FTS5)") from None

    def _has_table(self, name: str) -> bool:
        """Check whether the index has a table."""
        found = "SELECT 1 FROM sqlite_master WHERE name = ?"
        return self._database.execute(found, (name,)).fetchone() is not None

    def runs_by(self, rules: Rules) -> FrozenSet[int]:
        """Return the runs that read files by the same rules."""
        same = "(release, octets, fields, text, encoding) = (?, ?, ?, ?, ?)"
        found = self._database.execute(f"SELECT run FROM runs WHERE {same}", rules)
        return frozenset(run for run, in found)

    def make_relative(self, root: bytes) -> None:
        """Make absolute names relative to a directory.

        Raises:
            NoIndex: A name is not below it.
        """
        below = os.path.join(root, b"")
        outside = "SELECT path FROM files WHERE substr(path, 1, ?) <> ? LIMIT 1"
        with self._transaction() as run:
            if run.execute(outside, (len(below), below)).fetchone():
                raise NoIndex(f"{self.path}: has names that are not below {os.fsdecode(root)}")
            run.execute("UPDATE files SET path = substr(path, ?)", (len(below) + 1,))

    def new_number(self) -> int:
        """Return a number that no file has."""
        self._next += 1
        return self._next - 1

    def entries(self, first: bytes, end: Optional[bytes]) -> Iterator[Entry]:
        """Yield the entry of each file, ordered by name.

        Args:
            first: The first name.
            end: The name before which to end, or `None`.
        """
        columns = "SELECT path, file, size, changed, state, gone, run, fixity, target FROM files"
        before = "" if end is None else "AND path < ?"
        query = f"{columns} WHERE path >= ? {before} ORDER BY path LIMIT {PAGE}"
        while True:
            bounds = (first,) if end is None else (first, end)
            page = self._database.execute(query, bounds).fetchall()
            yield from page
            if len(page) < PAGE:
                return
            first = page[-1][0] + b"\0"

    def write(self, batch: Batch) -> None:
        """Write the rows of some files, in place of their earlier ones."""
        with self._transaction() as run:
            again = [file for file in batch.files if file[0] < self._first]
            new = [file for file in batch.files if file[0] >= self._first]
            if again:
                self._replace(run, again)
            # (a file of the same name under another number is deleted, with its rows)
            run.executemany(
                f"INSERT OR REPLACE INTO files (file, {OF_FILE}, gone, run)"
                f" VALUES (?, {VALUES}, 0, {self.run})",
                new,
            )
            insert(run, PLAIN_ROW, PLAIN, batch.plain)
            insert(run, ANY_ROW, COLUMNS, batch.others)
            if batch.refusals:
                marks = ", ".join("?" * 9)
                run.executemany(f"INSERT INTO refusals VALUES ({marks})", batch.refusals)
            if batch.texts and self._has_text:
                columns = ", ".join(("rowid", *schema.TEXT_COLUMNS))
                marks = ", ".join("?" * (1 + len(schema.TEXT_COLUMNS)))
                run.executemany(f"INSERT INTO texts ({columns}) VALUES ({marks})", batch.texts)

    def _replace(self, run: sqlite3.Cursor, files: Sequence[FileRow]) -> None:
        """Update the rows of files, delete all that they had, and note each changed checksum."""
        for table in "envelopes", "refusals":
            run.executemany(f"DELETE FROM {table} WHERE file = ?", [(file[0],) for file in files])
        if self._has_text:
            spans = [
                (schema.row_of_text(file[0], 0), schema.row_of_text(file[0] + 1, 0))
                for file in files
            ]
            run.executemany("DELETE FROM texts WHERE rowid >= ? AND rowid < ?", spans)
        run.executemany(
            "INSERT INTO events (file, run, type, outcome, detail)"
            f" SELECT file, {self.run}, 'replacement', 'success', 'SHA-256 was ' || sha256"
            " FROM files WHERE file = ? AND sha256 <> ?",
            [(file[0], file[7]) for file in files],
        )
        settled = f"gone = 0, run = {self.run}, verified = NULL, fixity = NULL"
        run.executemany(
            f"UPDATE files SET ({OF_FILE}) = ({VALUES}), {settled} WHERE file = ?",
            [(*file[1:], file[0]) for file in files],
        )

    def mark(self, numbers: Sequence[int], gone: bool) -> None:
        """Mark files as gone, or as present again."""
        rows = [(number,) for number in numbers]
        kind, outcome = ("deletion", "warning") if gone else ("recovery", "success")
        detail = "no longer there" if gone else "there again, and unchanged"
        with self._transaction() as run:
            run.executemany(f"UPDATE files SET gone = {int(gone)} WHERE file = ?", rows)
            run.executemany(
                "INSERT INTO events (file, run, type, outcome, detail)"
                f" VALUES (?, {self.run}, '{kind}', '{outcome}', '{detail}')",
                rows,
            )

    def choose(self, sample: Tuple[Optional[float], Optional[int]], since: Optional[int]) -> int:
        """Choose the files to verify, for `chosen`.

        Args:
            sample: The part of the files or their number, or two times `None`.
            since: The instant since which a file has not been verified, or `None`.

        Returns:
            The number of present files that have no checksum.
        """
        (part, most), run = sample, self._database
        present = "FROM files WHERE gone = 0 AND state <> 'linked'"
        where, values = f"{present} AND sha256 IS NOT NULL", []
        if since is not None:
            late = "SELECT run FROM runs WHERE started >= ?"
            where += f" AND (verified IS NULL OR verified NOT IN ({late}))"
            values.append(since)
        if part is not None:
            most = round(part * run.execute(f"SELECT count(*) {where}", values).fetchone()[0])
        some = "" if most is None else f"ORDER BY random() LIMIT {most}"
        run.execute("CREATE TEMP TABLE chosen (file INTEGER PRIMARY KEY)")
        run.execute(f"INSERT INTO chosen SELECT file {where} {some}", values)
        unknown = f"SELECT count(*) {present} AND sha256 IS NULL"
        return int(run.execute(unknown).fetchone()[0])

    def chosen(self) -> Iterator[Verified]:
        """Yield the files to verify, ordered by their numbers."""
        columns = (
            "SELECT file, path, size, changed, sha256 FROM temp.chosen JOIN files USING (file)"
        )
        last = -1
        while True:
            page = self._database.execute(
                f"{columns} WHERE file > ? ORDER BY file LIMIT {PAGE}", (last,)
            ).fetchall()
            yield from page
            if len(page) < PAGE:
                return
            last = page[-1][0]

    def note_fixity(self, outcomes: Sequence[Tuple[int, str, str]]) -> None:
        """Store the outcomes of a verification: the file, its state, and what was found."""
        update = f"UPDATE files SET verified = {self.run}, fixity = ? WHERE file = ?"
        failed = [each for each in outcomes if each[1] != "intact"]
        with self._transaction(keeps_sums=True) as run:
            run.executemany(update, [(state, file) for file, state, _ in outcomes])
            run.executemany(
                "INSERT INTO events (file, run, type, outcome, detail)"
                f" VALUES (?, {self.run}, 'fixity check', 'fail', ?)",
                [(file, f"{state}: {found}") for file, state, found in failed],
            )

    @contextlib.contextmanager
    def _transaction(self, keeps_sums: bool = False) -> Iterator[sqlite3.Cursor]:
        """Run statements as one transaction, which deletes the stored totals."""
        run = self._database.cursor()
        run.execute("BEGIN IMMEDIATE")
        try:
            if not keeps_sums and run.execute("SELECT 1 FROM sums LIMIT 1").fetchone():
                run.execute("DELETE FROM sums")
            yield run
        except BaseException:
            run.execute("ROLLBACK")
            raise
        run.execute("COMMIT")

    def end(self, second: int) -> Dict[str, int]:
        """Return the totals of all present files at `second`, counted since 1970.

        The SQL indexes are created, and the totals stored.
        """
        run = self._database
        sums = dict(run.execute("SELECT name, value FROM sums"))
        run.executescript(INDEXES)
        if not sums:
            if sqlite3.sqlite_version_info >= ANALYZES:
                run.executescript("PRAGMA analysis_limit = 400; ANALYZE;")
            sums = self._count()
            run.executemany("INSERT INTO sums VALUES (?, ?)", sums.items())
        return self._totals(sums, second)

    def end_run(self, sums: Dict[str, int], is_complete: bool) -> None:
        """Store the last line of the run, and its end unless a signal ended it."""
        self._database.execute(
            "UPDATE runs SET sums = ?, ended = ? WHERE run = ?",
            (json.dumps(sums), int(time.time()) if is_complete else None, self.run),
        )

    def sums_so_far(self, second: int) -> Dict[str, int]:
        """Return the totals of a run that failed, or none if they can't be read.

        Nothing is written.
        """
        try:
            return self._totals(self._count(), second)
        except sqlite3.Error:
            return {}

    def _count(self) -> Dict[str, int]:
        """Return the totals that do not depend on the instant."""
        run = self._database
        has_gone = run.execute("SELECT 1 FROM files WHERE gone = 1 LIMIT 1").fetchone()
        where = f"WHERE {HERE}" if has_gone else ""
        envelopes = run.execute(f"SELECT count(*) FROM envelopes {where}").fetchone()[0]
        # (ids of the same day differ in their numbers, which are compared first)
        ids = f"SELECT DISTINCT number, service, date_sent FROM envelopes {where}"
        distinct = run.execute(f"SELECT count(*) FROM ({ids})").fetchone()[0]
        by_state = "SELECT state, count(*) FROM files WHERE state <> 'accepted' AND gone = 0"
        states = dict(run.execute(f"{by_state} GROUP BY state"))
        counts = {state: states.get(state, 0) for state in STATES}
        return {"envelopes": envelopes, "repeated": envelopes - distinct, **counts}

    def _totals(self, sums: Dict[str, int], second: int) -> Dict[str, int]:
        """Return all totals in order, with the envelopes that are held at an instant."""
        held = self._database.execute(HELD, (second,)).fetchone()[0]
        return {name: sums.get(name, held) for name in ("envelopes", "repeated", "held", *STATES)}

    def close(self) -> None:
        """Close the database, and release the lock.

        The database is left without files beside it, so that it can be read by all who may read it,
        unless another program is reading it now.
        """
        with contextlib.suppress(sqlite3.Error):
            self._database.execute(f"PRAGMA busy_timeout = {READER_WAIT * 1_000}")
            self._database.execute("PRAGMA journal_mode = DELETE")
        self._database.close()
        self._lock.close()

    def __enter__(self) -> Index:
        """Return the index."""
        return self

    def __exit__(self, *_: object) -> None:
        """Close the index."""
        self.close()


def insert(run: sqlite3.Cursor, row: str, columns: int, cells: Cells) -> None:
    """Insert the rows of envelopes in a flat list: as many as possible with each statement."""
    begin = 0
    for rows in AT_ONCE:
        size = columns * rows
        end = begin + (len(cells) - begin) // size * size
        if end > begin:
            run.executemany(INSERT + ", ".join([row] * rows), slices_of(cells, begin, end, size))
        begin = end


def slices_of(cells: Cells, begin: int, end: int, size: int) -> List[Cells]:
    """Return the slices of a list between two offsets, all of one size."""
    return [cells[at : at + size] for at in range(begin, end, size)]
