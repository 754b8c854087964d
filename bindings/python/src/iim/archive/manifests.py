"""Write the checksums of an index as a manifest, and compare an index with a manifest.

A manifest has the form of `sha256sum`, or that of BagIt (RFC 8493).
"""
from __future__ import annotations

import json
import os
import re
import sqlite3
from typing import Any, Dict, Iterable, Iterator, Optional, Tuple

from iim.archive.lines import name_of, text_of
from iim.archive.opening import root_of
from iim.archive.rows import Failure

# The payload directory of a bag.
PAYLOAD = b"data/"

# A line of `sha256sum`, and of `sha256sum --tag`; `\\` at the beginning marks escapes in the name.
LINE = re.compile(rb"(\\)?([0-9a-fA-F]{64}) [ *](.+)", re.S)
TAGGED = re.compile(rb"(\\)?SHA256 \((.+)\) = ([0-9a-fA-F]{64})", re.S)
ESCAPES = {b"\\": b"\\\\", b"\n": b"\\n", b"\r": b"\\r"}
# A line of a bag. A name has CR, LF and % as a percent sign and two digits.
OF_BAG = re.compile(rb"([0-9a-fA-F]{64})[ \t]+\*?(.+)", re.S)
ESCAPES_OF_BAG = {b"%": b"%25", b"\n": b"%0A", b"\r": b"%0D"}

# The checksum of each present file; that of a linked file is the one of its other name.
SUMS = """
SELECT f.path, coalesce(f.sha256, t.sha256) FROM files AS f
LEFT JOIN files AS t ON f.state = 'linked' AND t.path = f.target AND t.gone = 0
WHERE f.gone = 0 AND substr(f.path, -1) <> x'2F' ORDER BY f.path"""

# What the comparison of an index with a manifest counts.
STATES = "equal", "differs", "absent", "unlisted", "unknown"


def escaped(name: bytes, escapes: Dict[bytes, bytes]) -> bytes:
    """Return a name with the escapes of a manifest."""
    return re.sub(rb"[\\\r\n%]", lambda found: escapes.get(found[0], found[0]), name)


def unescaped(name: bytes, escapes: Dict[bytes, bytes]) -> bytes:
    """Return a name without the escapes of a manifest."""
    plain = {value.lower(): key for key, value in escapes.items()}
    found = re.compile(b"|".join(map(re.escape, plain)), re.I)
    return found.sub(lambda each: plain[each[0].lower()], name)


def line_for(name: bytes, sha256: str, is_bag: bool) -> bytes:
    """Return the line of a file."""
    if is_bag:
        return b"%s  %s\n" % (sha256.encode("ascii"), escaped(name, ESCAPES_OF_BAG))
    safe = escaped(name, ESCAPES)
    return b"%s%s  %s\n" % (b"\\" if safe != name else b"", sha256.encode("ascii"), safe)


def name_in_bag(name: bytes, root: Optional[bytes]) -> Optional[bytes]:
    """Return the name of a file in the manifest of a bag, or `None` if it is not of its payload.

    The root of the index is the bag, or its directory `data`.
    """
    if root is None:
        raise Failure("--bagit: the index has absolute names (a run with --root has relative ones)")
    try:
        name.decode("utf-8")
    except UnicodeDecodeError:
        raise Failure(f"--bagit: the name {text_of(name)} is not UTF-8") from None
    if os.path.basename(root) + b"/" == PAYLOAD:
        return PAYLOAD + name
    return name if name.startswith(PAYLOAD) else None


def manifest_of(database: sqlite3.Connection, is_bag: bool) -> Iterator[bytes]:
    """Yield the lines of the manifest of an index.

    Raises:
        Failure: Files have no checksum, or names can't be in a bag. The other lines come first.
    """
    root = root_of(database)
    unknown = 0
    for path, sha256 in database.execute(SUMS):
        name = name_in_bag(path, root) if is_bag else path
        if sha256 is None:
            unknown += 1
        elif name is not None:
            yield line_for(name, sha256, is_bag)
    if unknown:
        raise Failure(f"{unknown:,} files have no checksum")


def listed_on(line: bytes, is_bag: bool) -> Optional[Tuple[bytes, bytes]]:
    """Return the name and the checksum on a line of a manifest, or `None`."""
    if is_bag:
        found = OF_BAG.fullmatch(line.rstrip(b"\r"))
        return (unescaped(found[2], ESCAPES_OF_BAG), found[1]) if found else None
    found = LINE.fullmatch(line)
    tagged = TAGGED.fullmatch(line)
    if found:
        name, sha256 = found[3], found[2]
    elif tagged:
        found, name, sha256 = tagged, tagged[2], tagged[3]
    else:
        return None
    return (unescaped(name, ESCAPES) if found[1] else name), sha256


def listed_in(lines: Iterable[bytes], is_bag: bool) -> Iterator[Tuple[bytes, str]]:
    """Yield the name and the checksum of each line of a manifest.

    Raises:
        Failure: A line is wrong.
    """
    for number, line in enumerate(lines, 1):
        found = listed_on(line.rstrip(b"\n"), is_bag)
        if found is None:
            raise Failure(f"line {number}: is not a line of a manifest")
        yield found[0], found[1].decode("ascii").lower()


class Comparison:
    """The comparison of an index with a manifest.

    Attributes:
        sums: The number of files in each state.
    """

    def __init__(self, database: sqlite3.Connection) -> None:
        """Prepare for an index."""
        self._database, self._root = database, root_of(database)
        self.sums = dict.fromkeys(STATES, 0)

    def _name_of(self, name: bytes, base: bytes) -> bytes:
        """Return the name in the index of a file that a manifest in a directory names."""
        path = os.path.normpath(os.path.join(base, name))
        if self._root is None:
            return path
        below = os.path.join(self._root, b"")
        return path[len(below) :] if path.startswith(below) else path

    def read(self, lines: Iterable[bytes], base: bytes, is_bag: bool) -> None:
        """Read a manifest whose names are relative to a directory."""
        run = self._database
        run.execute("CREATE TEMP TABLE listed (path BLOB PRIMARY KEY, sha256 TEXT) WITHOUT ROWID")
        run.execute("BEGIN")
        run.executemany(
            "INSERT OR REPLACE INTO listed VALUES (?, ?)",
            ((self._name_of(name, base), sha256) for name, sha256 in listed_in(lines, is_bag)),
        )
        run.execute("COMMIT")

    def lines(self) -> Iterator[str]:
        """Yield the lines of the files that differ, are absent or are not listed."""
        of_index = SUMS.replace("SELECT f.path, ", "SELECT f.path AS path, ")
        of_index = of_index.replace(" FROM files AS f", " AS sha256 FROM files AS f")
        both = f"""
SELECT i.path, i.sha256, l.sha256, l.path IS NOT NULL
FROM ({of_index}) AS i LEFT JOIN temp.listed AS l ON l.path = i.path ORDER BY i.path"""
        for path, sha256, listed, is_listed in self._database.execute(both):
            if not is_listed:
                yield self._line(path, "unlisted", sha256, None)
            elif sha256 is None:
                yield self._line(path, "unknown", None, listed)
            elif sha256 != listed:
                yield self._line(path, "differs", sha256, listed)
            else:
                self.sums["equal"] += 1
        absent = """
SELECT path, sha256 FROM temp.listed
WHERE path NOT IN (SELECT path FROM files WHERE gone = 0) ORDER BY path"""
        for path, listed in self._database.execute(absent):
            yield self._line(path, "absent", None, listed)

    def _line(self, path: bytes, state: str, sha256: Optional[str], listed: Optional[str]) -> str:
        """Count a file, and return its line."""
        self.sums[state] += 1
        more: Dict[str, Any] = {"manifest": state}
        more.update({"sha256": sha256} if sha256 else {})
        more.update({"listed": listed} if listed else {})
        return f'{{"file": {name_of(path)}, {json.dumps(more)[1:]}\n'

    def status(self) -> int:
        """Return the exit status."""
        return 1 if sum(self.sums.values()) > self.sums["equal"] else 0
