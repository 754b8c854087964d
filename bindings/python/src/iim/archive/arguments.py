"""Parse the arguments of iim-archive."""
from __future__ import annotations

import argparse
import datetime
import re
from typing import Any, List, Optional, Tuple

import iim
from iim.archive.formats import FIELDS
from iim.archive.output import write
from iim.archive.query import WHERE
from iim.archive.rows import LONGEST_TIME, seconds
from iim.archive.texts import is_encoding
from iim.program import add_limits, check_limits

# The maximum number of processes.
MOST_WORKERS = 256

# The maximum time for a file: a year.
MOST_SECONDS = 31_536_000


class Parser(argparse.ArgumentParser):
    """A parser that reports a failure to print its help, which argparse ignores."""

    def __init__(self, command: str = "", **options: Any) -> None:
        """Create a parser for the arguments of a command, such as `query`."""
        super().__init__(prog=f"iim-archive {command}".strip(), **options)

    def print_help(self, file: Any = None) -> None:
        """Print the help to standard output."""
        write(self.format_help())


def instant(word: str) -> datetime.datetime:
    """Parse an instant, such as 2024-03-01T12:00:00Z."""
    read = datetime.datetime.fromisoformat(re.sub("[zZ]$", "+00:00", word))
    if read.tzinfo is None:
        raise argparse.ArgumentTypeError("an instant must have an offset, or Z")
    if seconds(read) > iim.LAST_SECOND:
        raise argparse.ArgumentTypeError("the last instant is 9999-12-30T22:00:00Z")
    return read


def time_limit(word: str) -> float:
    """Parse a time limit in seconds."""
    limit = float(word)
    if not 0 < limit <= MOST_SECONDS:
        raise argparse.ArgumentTypeError(f"must be more than 0 and at most {MOST_SECONDS}")
    return limit


def workers(word: str) -> int:
    """Parse a number of processes."""
    number = at_least_one(word)
    if number > MOST_WORKERS:
        raise argparse.ArgumentTypeError(f"must be at most {MOST_WORKERS}")
    return number


def at_least_one(word: str) -> int:
    """Parse a positive number."""
    number = int(word)
    if number < 1:
        raise argparse.ArgumentTypeError("must be at least 1")
    return number


def dates(word: str) -> Tuple[str, str]:
    """Parse a date, or a range of dates, such as 20240301..20240331."""
    first, _, last = word.partition("..")
    if not all(re.fullmatch("[0-9]{8}", each) for each in (first, last or first)):
        raise argparse.ArgumentTypeError("a date must have the form CCYYMMDD, such as 20240301")
    return first, last or first


def day_or_instant(word: str) -> datetime.datetime:
    """Parse an instant, or a day such as 2024-03-01, which begins at midnight in UTC."""
    return instant(
        f"{word}T00:00:00Z" if re.fullmatch("[0-9]{4}-[0-9]{2}-[0-9]{2}", word) else word
    )


def sample(word: str) -> Tuple[Optional[float], Optional[int]]:
    """Parse a sample: a number of files, or a part of them such as 5%."""
    if not word.endswith("%"):
        return None, at_least_one(word)
    part = float(word[:-1])
    if not 0 < part <= 100:
        raise argparse.ArgumentTypeError("must be more than 0% and at most 100%")
    return part / 100, None


def encoding(word: str) -> str:
    """Parse the name of an encoding."""
    if not is_encoding(word):
        raise argparse.ArgumentTypeError(f"there is no encoding {word}")
    return word


def field_names(word: str) -> List[str]:
    """Parse a list of columns, such as file,headline."""
    names = word.split(",")
    for name in names:
        if name not in FIELDS:
            raise argparse.ArgumentTypeError(f"there is no column {name}: {', '.join(FIELDS)}")
    return names


def condition(word: str) -> Tuple[str, str]:
    """Parse a condition on a column, such as priority=4."""
    name, equals, value = word.partition("=")
    if not equals or name not in WHERE:
        raise argparse.ArgumentTypeError(f"must be COLUMN=VALUE of {', '.join(WHERE)}")
    return name, value


def add_now(parser: argparse.ArgumentParser) -> None:
    """Add the option --now, which several commands have."""
    parser.add_argument(
        "--now",
        metavar="INSTANT",
        type=instant,
        help="instant for ages, and for copy that is held or expired, such as 2024-03-01T12:00:00Z"
        " [default: the present]",
    )


def add_readers(parser: argparse.ArgumentParser) -> None:
    """Add the options that select what reads the files."""
    readers = parser.add_mutually_exclusive_group()
    readers.add_argument(
        "--workers", metavar="N", type=workers, help="read with N processes on this machine"
    )
    readers.add_argument(
        "--scheduler",
        metavar="ADDRESS",
        help="read with the workers of this Dask scheduler, such as tcp://host:8786",
    )


def add_tasks(parser: argparse.ArgumentParser) -> None:
    """Add the options on the tasks that files are read in."""
    parser.add_argument(
        "--batch",
        metavar="N",
        type=at_least_one,
        default=128,
        help="maximum number of files in one task [default: 128]",
    )
    parser.add_argument(
        "--timeout",
        metavar="SECONDS",
        type=time_limit,
        default=LONGEST_TIME,
        help="maximum time for one file [default: 300]",
    )
    parser.add_argument(
        "--verbose", action="store_true", help="log the steps of the run to standard error"
    )


def add_root(parser: argparse.ArgumentParser) -> None:
    """Add the option on the directory that names are relative to."""
    parser.add_argument(
        "--root",
        metavar="DIR",
        help="directory that the names in the index are relative to [default: that of the last"
        " run; without one the names are absolute]",
    )


def add_index_rules(parser: argparse.ArgumentParser) -> None:
    """Add the options on what an index has."""
    parser.add_argument(
        "--into",
        metavar="INDEX",
        help="store the rows in this database, and read only files that are new or changed",
    )
    add_root(parser)
    parser.add_argument(
        "--again",
        action="store_true",
        help="read also files that were read with other limits, another --text or --encoding or by"
        " another release, and files that are damaged as `verify` found",
    )
    parser.add_argument(
        "--text",
        choices=("none", "fields", "all"),
        help="words to index: none, those of the fields such as the headline, or all with those of"
        " the story [default: as in the last run, or none]",
    )
    parser.add_argument(
        "--encoding",
        metavar="NAME",
        type=encoding,
        help="encoding of the words of envelopes without 1:90 [default: as in the last run, or"
        " latin-1]",
    )


def parse(words: List[str]) -> argparse.Namespace:
    """Parse the arguments of a run."""
    parser = Parser(
        description="Check and audit a directory tree of files of envelopes, and print lines of"
        " JSON.",
        epilog="Other commands, each with its own `--help`: `%(prog)s query` prints rows of an"
        " index, `report` summarizes an archive, `verify` compares files with their checksums,"
        " `manifest` prints or checks checksums, and `migrate` updates the form of an index.",
    )
    parser.add_argument("tree", metavar="TREE", nargs="+", help="directory or file to read")
    add_index_rules(parser)
    add_readers(parser)
    add_now(parser)
    parser.add_argument(
        "--name",
        metavar="PATTERN",
        default="*",
        help="read only files whose names match, such as '*.iim' [default: all]",
    )
    add_tasks(parser)
    add_limits(parser)
    arguments = parser.parse_args(words)
    check_limits(parser, arguments.limits)
    for name in "root", "text", "encoding", "again":
        if arguments.into is None and getattr(arguments, name):
            parser.error(f"--{name} is for a run with --into")
    return arguments


def add_selection(parser: argparse.ArgumentParser) -> None:
    """Add the options that select rows."""
    parser.add_argument(
        "--date",
        metavar="DATE[..DATE]",
        type=dates,
        help="only envelopes sent then, such as 20240301 or 20240301..20240331",
    )
    parser.add_argument("--service", metavar="SERVICE", help="only envelopes of this service")
    parser.add_argument(
        "--cause", metavar="CAUSE", help="only refusals with this cause: its number or its name"
    )
    parser.add_argument(
        "--words",
        metavar="QUERY",
        help="only envelopes with these words, such as 'headline: rates AND bank', as SQLite's FTS5"
        " reads a query; the index must have been made with --text",
    )
    parser.add_argument(
        "--where",
        metavar="COLUMN=VALUE",
        type=condition,
        action="append",
        default=[],
        help=f"only rows with this value, or with this phrase in a column of the text; may be"
        f" repeated; a column is one of {', '.join(WHERE)}",
    )
    parser.add_argument(
        "--repeats", action="store_true", help="only envelopes that repeat another one"
    )
    parser.add_argument(
        "--only",
        metavar="KIND",
        choices=("envelope", "refused", "empty", "failed", "linked", "gone"),
        help="only rows of this kind: envelope, refused, empty, failed, linked or gone",
    )


def add_immutable(parser: argparse.ArgumentParser) -> None:
    """Add the option on reading without locks."""
    parser.add_argument(
        "--immutable",
        action="store_true",
        help="read the index without locks, as a file that nobody changes",
    )


def parse_query(words: List[str]) -> argparse.Namespace:
    """Parse the arguments of `query`."""
    parser = Parser("query", description="Print the rows of indexes, ordered by the files' names.")
    parser.add_argument(
        "index",
        metavar="INDEX",
        nargs="+",
        help="index written by a run with --into; the rows of several are merged",
    )
    add_selection(parser)
    add_now(parser)
    parser.add_argument(
        "--fields",
        metavar="COLUMN,..",
        type=field_names,
        help=f"print these columns: {', '.join(FIELDS)}",
    )
    parser.add_argument(
        "--format",
        choices=("jsonl", "json", "csv"),
        default="jsonl",
        help="print lines of JSON, one array of JSON, or CSV with a header line [default: jsonl]",
    )
    parser.add_argument("--csv", action="store_true", help="the same as --format csv")
    add_immutable(parser)
    return parser.parse_args(words)


def parse_report(words: List[str]) -> argparse.Namespace:
    """Parse the arguments of `report`."""
    parser = Parser("report", description="Summarize an archive by its index.")
    parser.add_argument("index", metavar="INDEX", help="index written by a run with --into")
    parser.add_argument(
        "--html",
        metavar="OUT",
        help="write an HTML page, and pages of damaged files in a directory beside it",
    )
    parser.add_argument(
        "--force",
        action="store_true",
        help="replace symbolic links, and files that are no pages of this program",
    )
    add_now(parser)
    add_limits(parser)
    add_root(parser)
    add_immutable(parser)
    return parser.parse_args(words)


def parse_verify(words: List[str]) -> argparse.Namespace:
    """Parse the arguments of `verify`."""
    parser = Parser(
        "verify",
        description="Compare the content of the files of an index with their checksums, print the"
        " files that differ, and store the outcomes.",
    )
    parser.add_argument("index", metavar="INDEX", help="index written by a run with --into")
    parser.add_argument(
        "--sample",
        metavar="N[%]",
        type=sample,
        default=(None, None),
        help="only N files, or N percent of them, chosen at random [default: all]",
    )
    parser.add_argument(
        "--not-since",
        metavar="DATE",
        type=day_or_instant,
        help="only files that were not verified since then, such as 2024-03-01",
    )
    add_root(parser)
    add_readers(parser)
    add_tasks(parser)
    return parser.parse_args(words)


def parse_manifest(words: List[str]) -> argparse.Namespace:
    """Parse the arguments of `manifest`."""
    parser = Parser(
        "manifest",
        description="Print the checksums of the files of an index in the form of `sha256sum`, or"
        " compare them with such a file.",
    )
    parser.add_argument("index", metavar="INDEX", help="index written by a run with --into")
    parser.add_argument(
        "--check",
        metavar="FILE",
        help="compare the index with this manifest, and print what differs",
    )
    parser.add_argument(
        "--base",
        metavar="DIR",
        help="directory that the names in FILE are relative to [default: that of FILE]",
    )
    parser.add_argument(
        "--bagit",
        action="store_true",
        help="in the form of manifest-sha256.txt of a bag (RFC 8493)",
    )
    add_immutable(parser)
    return parser.parse_args(words)


def parse_migrate(words: List[str]) -> argparse.Namespace:
    """Parse the arguments of `migrate`."""
    parser = Parser(
        "migrate", description="Bring indexes of older releases to the form of this release."
    )
    parser.add_argument("index", metavar="INDEX", nargs="+", help="index to migrate")
    return parser.parse_args(words)
