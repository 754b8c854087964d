"""The schema of an index, an SQLite database: its tables, its version and its migrations.

There is a row for each run, file, envelope, refusal and event. A file's name is a string of bytes,
by which files are ordered. The age of an envelope, and whether its copy may be used, depend on the
present instant and are not stored: the instants are, from which a query computes them.
"""
from __future__ import annotations

import sqlite3
import time
from pathlib import Path

# The release that reads the files, as each row of `runs` records it. It is that of the command.
RELEASE = "2"

# SQLite's application_id of an index ("IIMx"), and the version of its tables. A newer one is
# rejected, and an older one is migrated when it is opened for writing.
APPLICATION = 0x49494D78
FORM = 2

FILES = """
CREATE TABLE files (
    file INTEGER PRIMARY KEY,
    path BLOB NOT NULL UNIQUE,   -- its name, as bytes, absolute or relative to the root of the run
    size INTEGER NOT NULL,       -- in bytes, when it was read
    changed INTEGER NOT NULL,    -- time of its last change then, in nanoseconds since 1970
    read INTEGER NOT NULL,       -- size of its envelopes together, in bytes
    state TEXT NOT NULL,         -- 'accepted', 'refused', 'empty', 'failed' or 'linked'
    reason TEXT,                 -- why it can't be read
    gone INTEGER NOT NULL,       -- 1 if it no longer exists, and 0 otherwise
    run INTEGER NOT NULL REFERENCES runs,  -- the run that read it
    sha256 TEXT,                 -- the checksum of its content then, in hexadecimal
    target BLOB,                 -- the other name of a linked file, under which it is read
    verified INTEGER REFERENCES runs,      -- the last run that compared its content
    fixity TEXT                  -- 'intact', 'changed', 'damaged', 'missing' or 'unreadable'
);
"""

ENVELOPES = """
CREATE TABLE envelopes (
    file INTEGER NOT NULL REFERENCES files ON DELETE CASCADE,
    envelope INTEGER NOT NULL,   -- its number in the file, from 1
    at INTEGER NOT NULL,         -- offset of its first byte in the file
    length INTEGER NOT NULL,
    service TEXT NOT NULL,       -- as Latin-1
    number TEXT NOT NULL,
    date_sent TEXT NOT NULL,
    priority TEXT,
    size INTEGER NOT NULL,       -- size of its object, in bytes
    subfiles INTEGER NOT NULL,
    announced INTEGER NOT NULL,  -- words
    counted INTEGER NOT NULL,
    sent INTEGER,                -- instants, in seconds since 1970
    release INTEGER,
    expires INTEGER,
    PRIMARY KEY (file, envelope)
) WITHOUT ROWID;
"""

REFUSALS = """
CREATE TABLE refusals (
    file INTEGER PRIMARY KEY REFERENCES files ON DELETE CASCADE,
    envelope INTEGER NOT NULL,
    at INTEGER NOT NULL,         -- offset of the envelope's first byte in the file
    cause INTEGER NOT NULL,
    cause_name TEXT NOT NULL,
    service TEXT,                -- the id, as far as it is known
    number TEXT,
    date_sent TEXT,
    told TEXT NOT NULL           -- the refusal, as JSON
);
"""

SUMS = "CREATE TABLE sums (name TEXT PRIMARY KEY, value INTEGER NOT NULL) WITHOUT ROWID;"

RUNS = """
CREATE TABLE runs (
    run INTEGER PRIMARY KEY,
    command TEXT NOT NULL,       -- 'index', 'verify' or 'migrate'
    release TEXT NOT NULL,       -- of the program
    octets INTEGER,              -- the limits on records 1 and 2
    fields INTEGER,
    text TEXT,                   -- what the full-text index has: 'none', 'fields' or 'all'
    encoding TEXT,               -- of envelopes without 1:90
    root BLOB,                   -- the directory that names are relative to
    trees TEXT NOT NULL,         -- as JSON
    pattern TEXT NOT NULL,
    host TEXT NOT NULL,
    started INTEGER NOT NULL,    -- in seconds since 1970
    ended INTEGER,               -- missing if the run was killed
    sums TEXT                    -- its last line
);
CREATE TABLE events (
    event INTEGER PRIMARY KEY,
    file INTEGER NOT NULL REFERENCES files ON DELETE CASCADE,
    run INTEGER NOT NULL REFERENCES runs,
    type TEXT NOT NULL,          -- 'replacement', 'deletion', 'recovery' or 'fixity check'
    outcome TEXT NOT NULL,       -- 'success', 'warning' or 'fail'
    detail TEXT NOT NULL
);
"""

# Each file as an object of PREMIS, with the events of its last reading and verification, and those
# of `events`. Types and outcomes are those of the vocabularies of the Library of Congress.
VIEWS = """
CREATE VIEW premis_events AS
WITH happened (file, run, type, outcome, detail) AS (
    SELECT file, run, 'validation',
        CASE state WHEN 'accepted' THEN 'success' WHEN 'refused' THEN 'fail' ELSE 'warning' END,
        coalesce(reason, state)
    FROM files WHERE state <> 'linked'
    UNION ALL
    SELECT file, run, 'message digest calculation', 'success', 'SHA-256 ' || sha256
    FROM files WHERE sha256 IS NOT NULL
    UNION ALL
    SELECT file, verified, 'fixity check', 'success', fixity FROM files WHERE fixity = 'intact'
    UNION ALL
    SELECT file, run, type, outcome, detail FROM events
)
SELECT
    CAST(files.path AS TEXT) AS linkingObjectIdentifierValue,
    type AS eventType,
    strftime('%Y-%m-%dT%H:%M:%SZ', coalesce(ended, started), 'unixepoch') AS eventDateTime,
    outcome AS eventOutcome,
    detail AS eventOutcomeDetailNote,
    'iim-archive ' || release || ' on ' || host AS linkingAgentIdentifierValue,
    happened.file, happened.run
FROM happened JOIN files USING (file) JOIN runs ON runs.run = happened.run;
"""

# The SQL indexes on the few envelopes with an instant of release or expiration. They are created
# with the tables: then a run need not look for these envelopes in all rows.
OF_INSTANTS = """
CREATE INDEX IF NOT EXISTS by_release ON envelopes (release) WHERE release IS NOT NULL;
CREATE INDEX IF NOT EXISTS by_expires ON envelopes (expires) WHERE expires IS NOT NULL;
"""

TABLES = RUNS + FILES + ENVELOPES + REFUSALS + SUMS + VIEWS + OF_INSTANTS

# The names of the tables, by which an index is recognised.
NAMES_OF_TABLES = "files", "envelopes", "refusals", "sums"

# The SQL indexes. All others are created at the end of a run, since rows are inserted faster
# without them. `by_id` also finds the envelopes of a service: there are few dates to look at.
INDEXES = f"""{OF_INSTANTS}
CREATE INDEX IF NOT EXISTS by_id ON envelopes (date_sent, service, number);
CREATE INDEX IF NOT EXISTS by_gone ON files (file) WHERE gone = 1;
CREATE INDEX IF NOT EXISTS by_state ON files (state) WHERE state <> 'accepted';
CREATE INDEX IF NOT EXISTS by_cause ON refusals (cause);
CREATE INDEX IF NOT EXISTS by_cause_name ON refusals (cause_name);
CREATE INDEX IF NOT EXISTS by_refused ON refusals (date_sent, service);
CREATE INDEX IF NOT EXISTS by_file ON events (file);
"""

# The columns of the full-text index, in which an envelope has the row that `row_of_text` numbers.
# The table exists once a run has been told to fill it.
TEXT_COLUMNS = "slug", "headline", "byline", "keywords", "category", "city", "country", "story"
# The factor of a file's number in the number of a row of `texts`.
TEXTS_OF_FILE = 1 << 32

TEXTS = f"""
CREATE VIRTUAL TABLE IF NOT EXISTS texts USING fts5
    ({', '.join(TEXT_COLUMNS)}, tokenize = "unicode61 remove_diacritics 2");
CREATE TRIGGER IF NOT EXISTS texts_of_file AFTER DELETE ON files BEGIN
    DELETE FROM texts WHERE rowid >= old.file * {TEXTS_OF_FILE}
        AND rowid < (old.file + 1) * {TEXTS_OF_FILE};
END;
"""


def row_of_text(file: int, envelope: int) -> int:
    """Return the number of the row of `texts` for an envelope of a file."""
    return file * TEXTS_OF_FILE + envelope


# The statements that bring form 1 to form 2: each file is one that run 1 read by unknown rules.
FROM_FORM_1 = f"""
DROP INDEX IF EXISTS by_id;
DROP INDEX IF EXISTS by_release;
DROP INDEX IF EXISTS by_gone;
ALTER TABLE files RENAME TO files_1;
ALTER TABLE envelopes RENAME TO envelopes_1;
ALTER TABLE refusals RENAME TO refusals_1;
{RUNS}
{FILES}
{ENVELOPES}
{REFUSALS}
{VIEWS}
INSERT INTO runs (run, command, release, trees, pattern, host, started, ended)
    VALUES (1, 'migrate', '', '[]', '*', '', :now, :now);
INSERT INTO files SELECT *, 1, NULL, NULL, NULL, NULL FROM files_1;
INSERT INTO envelopes SELECT * FROM envelopes_1 WHERE file IN (SELECT file FROM files_1);
INSERT INTO refusals SELECT * FROM refusals_1 WHERE file IN (SELECT file FROM files_1);
DROP TABLE envelopes_1;
DROP TABLE refusals_1;
DROP TABLE files_1;
DELETE FROM sums;
"""


def pragma(database: sqlite3.Connection, name: str) -> int:
    """Return the value of a pragma that is a number."""
    return int(database.execute(f"PRAGMA {name}").fetchone()[0])


def is_index(database: sqlite3.Connection) -> bool:
    """Check whether a database is an index, of any form."""
    names = ", ".join(map(repr, NAMES_OF_TABLES))
    tables = f"SELECT count(*) FROM sqlite_master WHERE type = 'table' AND name IN ({names})"
    found: int = database.execute(tables).fetchone()[0]
    # (an index of form 1 has no application_id)
    application = 0 if pragma(database, "user_version") == 1 else APPLICATION
    return found == len(NAMES_OF_TABLES) and pragma(database, "application_id") == application


def create_tables(database: sqlite3.Connection) -> None:
    """Create the tables of a new index."""
    versions = f"PRAGMA application_id = {APPLICATION}; PRAGMA user_version = {FORM};"
    database.executescript(f"BEGIN IMMEDIATE; {TABLES} {versions} COMMIT;")


def migrate(database: sqlite3.Connection) -> bool:
    """Bring an index of an older form to the present one, as one transaction.

    Returns:
        Whether the form was an older one.
    """
    if pragma(database, "user_version") != 1:
        return False
    script = FROM_FORM_1.replace(":now", str(int(time.time())))
    versions = f"PRAGMA application_id = {APPLICATION}; PRAGMA user_version = {FORM};"
    try:
        database.executescript(f"BEGIN IMMEDIATE; {script} {versions} COMMIT;")
    except BaseException:
        if database.in_transaction:
            database.execute("ROLLBACK")
        raise
    database.executescript(INDEXES)
    return True


def examples() -> str:
    """Return useful statements for an index, each with a comment that states its question."""
    return Path(__file__).with_name("queries.sql").read_text(encoding="utf-8")
