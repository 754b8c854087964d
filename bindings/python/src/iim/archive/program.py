"""Check and audit a directory tree of files of envelopes, on one machine or several, and index it.

    iim-archive [OPTION].. TREE..
    iim-archive --into INDEX [OPTION].. TREE..
    iim-archive query [OPTION].. INDEX..
    iim-archive report [OPTION].. INDEX
    iim-archive verify [OPTION].. INDEX
    iim-archive manifest [OPTION].. INDEX
    iim-archive migrate INDEX..

TREE is a file, or a directory of which all files are read. Each line printed is a value of JSON.
There is one for each envelope: its file and number, its id, sizes, words, age, whether its copy may
be used, and which earlier envelope it repeats. An envelope repeats the first one of all files with
the same service, number and date sent; files are ordered by the bytes of their names. There is a
line for each rejected envelope with its position, its cause and what is known of it, for each empty
file, for each other name of a file, and for each file that can't be read; the run continues after
each. The last line has the totals.

With --into the rows are stored in INDEX, an SQLite database, and only the totals are printed. A
later run reads only files that are new or changed, and marks files that are gone; it also continues
a run that was interrupted. `query` prints the rows of one or several indexes. `report` summarizes
an archive as text, or as a page with charts and links to explanations of the damaged files.
`verify` compares the files with the checksums of an index. `manifest` prints the checksums, or
compares them with a manifest.

--workers N runs N processes on this machine. --scheduler ADDRESS runs on Dask distributed: each
worker must have the same files under the same names, and this package. Without either option all
files are read in this process.

Failures, and with --verbose the steps of a run, are logged to standard error.

Exit status: 0 if all is accepted, 1 if input was rejected or a file differs from its checksum, 2
for a usage error, 3 if a file can't be read or the run failed, which prints one line `iim-archive:
what: reason`, and 130 after Ctrl-C or SIGTERM.
"""
from __future__ import annotations

import argparse
import contextlib
import datetime
import functools
import json
import logging
import os
import sys
from typing import Any, Callable, Dict, Iterator, List, Optional, Tuple

import iim
from iim.archive import arguments as parsers
from iim.archive import commands
from iim.archive.files import Lister, distinct_trees
from iim.archive.lines import Lines, lines_of, repeats_end
from iim.archive.output import (
    LOGGER,
    OutputFailed,
    ReaderStopped,
    log_to_standard_error,
    write,
)
from iim.archive.progress import Interrupt, Silence, progress_here
from iim.archive.reading import STOPPED, end_early, in_index, read_blocks
from iim.archive.rows import (
    FileRequest,
    Failure,
    Form,
    Reading,
    kept_rows,
    read_batch,
    read_files,
    seconds,
)
from iim.archive.schema import RELEASE
from iim.safe_output import OutputRefused

# A function that runs a command, and returns its exit status.
Command = Callable[[argparse.Namespace, Interrupt], int]


def load_library(arguments: argparse.Namespace) -> None:
    """Load the library once if this machine reads the files. Raise `ImportError` if it has none."""
    if arguments.scheduler is None:
        iim.cause_name(1)


def read_rows(
    files: Iterator[FileRequest], arguments: argparse.Namespace, how: Reading, form: Form
) -> "contextlib._GeneratorContextManager[Iterator[List[Any]]]":
    """Return a context that yields the rows of the files, batch by batch."""
    options: Dict[str, Any] = {"how": how, "form": form}
    reader = functools.partial(read_batch, **options)
    return read_blocks(files, arguments, reader, functools.partial(read_files, **options))


class Report:
    """Print the rows of all files, each with the envelope that it repeats, and count them."""

    def __init__(self) -> None:
        """Create a report without rows."""
        names = "files", "envelopes", "repeated", "held", "refused", "empty", "failed", "linked"
        self.sums = dict.fromkeys(names, 0)
        self._first: Dict[str, Tuple[str, int]] = {}

    def add(self, files: List[Lines], progress: Silence) -> None:
        """Print the rows of some files."""
        text: List[str] = []
        sums = self.sums
        for name, fronts, last, state, size, held in files:
            for nth, (key, front) in enumerate(fronts, 1):
                here = name, nth
                first = self._first.setdefault(key, here)
                sums["repeated"] += first is not here
                text += front, repeats_end(None if first is here else first)
            if last is not None:
                text.append(last)
            sums["envelopes"] += len(fronts)
            sums["held"] += held
            if state != "accepted":
                sums[state] += 1
            progress.add(1, size, len(fronts), state == "refused")
        write("".join(text))

    def status(self) -> int:
        """Return the exit status."""
        return 3 if self.sums["failed"] else 1 if self.sums["refused"] else 0


def print_trees(arguments: argparse.Namespace, interrupt: Interrupt) -> int:
    """Audit the trees that the arguments name, print the rows, and return the exit status."""
    trees = distinct_trees(map(os.fsencode, arguments.tree))
    report = Report()

    def files() -> Iterator[FileRequest]:
        """Yield the files to read, and count them."""
        for number, found in enumerate(Lister(trees, arguments.name).files()):
            report.sums["files"] += not found.is_folder and found.target is None
            yield FileRequest(number, *found)

    write("")
    load_library(arguments)
    progress = Silence()
    status = STOPPED
    how = Reading(iim.Limits(*arguments.limits), arguments.now, arguments.timeout)
    try:
        with contextlib.suppress(KeyboardInterrupt):
            progress = progress_here()
            with read_rows(files(), arguments, how, lines_of) as blocks:
                for block in interrupt.each(blocks):
                    report.add(block, progress)
                    LOGGER.info("%d files are read and printed", report.sums["files"])
            status = report.status()
    except (ReaderStopped, OutputFailed):
        raise
    except Exception as fault:
        end_early(fault, progress, report.sums)
    progress.end()
    write(json.dumps(report.sums) + "\n")
    return status


def check_inputs(index: str, trees: List[str]) -> None:
    """Raise `Failure` if the index is one of the trees."""
    for tree in trees:
        with contextlib.suppress(OSError, ValueError):
            if os.path.samefile(index, tree):
                raise Failure(f"{index}: is an input")


def write_index(arguments: argparse.Namespace, interrupt: Interrupt) -> int:
    """Update an index from the trees given, print the totals, and return the exit status."""
    from iim.archive.index import Index

    write("")
    load_library(arguments)
    check_inputs(arguments.into, arguments.tree)
    now = seconds(arguments.now)
    with Index(arguments.into) as index:
        progress = Silence()
        trees, how, update = begin_run(index, arguments)
        stopped = True
        try:
            with contextlib.suppress(KeyboardInterrupt):
                update.progress = progress = progress_here()
                with read_rows(update.files(trees), arguments, how, kept_rows) as blocks:
                    for block in interrupt.each(blocks):
                        update.add(block)
                        LOGGER.info("%d files are found, and their rows are stored", update.found)
                stopped = False
            progress.end()
            sums = {**update.totals(), **index.end(now)}
            index.end_run(sums, not stopped)
        except Exception as fault:
            so_far = {**update.totals(), **index.sums_so_far(now)}
            end_early(in_index(fault, arguments.into), progress, so_far)
    write(json.dumps(sums) + "\n")
    return STOPPED if stopped else 3 if sums["failed"] else 1 if sums["refused"] else 0


def begin_run(index: Any, arguments: argparse.Namespace) -> Tuple[List[bytes], Reading, Any]:
    """Begin a run that updates an index, and return its trees, how it reads, and the update."""
    from iim.archive.index import Rules
    from iim.archive.updating import Update, check_root, separate_trees

    setting = index.setting()
    root = setting.root if arguments.root is None else commands.absolute(arguments.root)
    text, encoding = arguments.text or setting.text, arguments.encoding or setting.encoding
    limits = iim.Limits(*arguments.limits)
    trees = separate_trees(arguments.tree)
    if root is not None:
        check_root(root, trees)
        if setting.root is None:
            index.make_relative(root)
    rules = Rules(RELEASE, *limits, text, encoding)
    index.begin("index", rules, root, arguments.tree, arguments.name)
    how = Reading(limits, arguments.now, arguments.timeout, True, text, encoding)
    update = Update(index, arguments, Silence(), rules if arguments.again else None, root)
    return trees, how, update


COMMANDS: Dict[str, Tuple[Command, Callable[[List[str]], argparse.Namespace]]] = {
    "query": (commands.print_query, parsers.parse_query),
    "report": (commands.print_report, parsers.parse_report),
    "verify": (commands.verify, parsers.parse_verify),
    "manifest": (commands.print_manifest, parsers.parse_manifest),
    "migrate": (commands.migrate, parsers.parse_migrate),
}


def parse_command(words: List[str]) -> Tuple[Command, argparse.Namespace]:
    """Return the function that runs the command line, and its arguments."""
    if words and words[0] in COMMANDS:
        run, parse = COMMANDS[words[0]]
        arguments = parse(words[1:])
    else:
        arguments = parsers.parse(words)
        run = print_trees if arguments.into is None else write_index
    if getattr(arguments, "verbose", False):
        log_to_standard_error(logging.INFO)
    return run, arguments


def main(words: Optional[List[str]] = None) -> int:
    """Run the command.

    Args:
        words: The command-line arguments [default: those of the process].

    Returns:
        The exit status.
    """
    log_to_standard_error(logging.WARNING)
    try:
        run, arguments = parse_command(sys.argv[1:] if words is None else words)
        if getattr(arguments, "now", None) is None:
            arguments.now = datetime.datetime.now(datetime.timezone.utc)
        return run(arguments, Interrupt())
    except ReaderStopped:
        return 3
    except KeyboardInterrupt:
        return STOPPED
    except Exception as fault:
        if sys.flags.dev_mode:
            raise
        LOGGER.error("%s", reason_of(fault))
        return 3


def reason_of(fault: Exception) -> str:
    """Return the text that is logged for a fault that ended the run: `what: reason`."""
    if isinstance(fault, MemoryError):
        return "out of memory"
    if isinstance(fault, ModuleNotFoundError) and fault.name == "distributed":
        return "--scheduler: Dask distributed is not installed (Debian: python3-distributed)"
    if isinstance(fault, OSError) and fault.filename is not None:
        return f"{os.fsdecode(fault.filename)}: {fault.strerror}"
    has_reason = isinstance(fault, (Failure, OutputRefused, ImportError, OSError))
    return str(fault) if has_reason else f"{type(fault).__name__}: {fault}"
