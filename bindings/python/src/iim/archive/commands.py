"""The commands of iim-archive that need an index: query, report, verify, manifest and migrate."""
from __future__ import annotations

import argparse
import contextlib
import functools
import json
import os
import sqlite3
from typing import Any, Dict, Iterator, Optional

from iim.archive.output import LOGGER, write, write_bytes, write_error
from iim.archive.progress import Interrupt, Silence, progress_here
from iim.archive.reading import STOPPED, end_early, in_index, read_blocks
from iim.archive.rows import Failure, NoIndex, seconds
from iim.safe_output import replace_file

# The number of lines of a manifest that are printed at a time.
LINES = 1_000


def print_query(arguments: argparse.Namespace, interrupt: Interrupt) -> int:
    """Print the rows of indexes that the arguments select, and return the exit status."""
    from iim.archive import formats

    write("")
    try:
        for text in interrupt.each(formats.lines(arguments)):
            write(text)
    except sqlite3.Error as fault:
        raise in_index(fault, *arguments.index) from None
    except KeyboardInterrupt:
        return STOPPED
    return 0


def print_report(arguments: argparse.Namespace, interrupt: Interrupt) -> int:
    """Print the report on an archive or write it as a page, and return the exit status."""
    from iim.archive import report

    if arguments.html is None:
        write("")
    parts: Dict[str, Any] = {}
    try:
        parts.update(interrupt.each(report.parts(arguments)))
    except sqlite3.Error as fault:
        raise in_index(fault, arguments.index) from None
    except KeyboardInterrupt:
        return STOPPED
    content = report.Content(**parts)
    if arguments.html is not None and report.can_draw():
        from iim.archive import page

        text = page.page(content)
        with replace_file(arguments.html, arguments.inputs, force=arguments.force) as to:
            to.write(text)
        return 0
    if arguments.html is not None:
        write_error("no page is written: python3-matplotlib or python3-jinja2 is not installed\n")
    write("\n".join([*report.lines(content), ""]))
    return 0


def require_index(path: str) -> None:
    """Raise `NoIndex` if there is no index at a path, so that none is made."""
    if not os.path.exists(path):
        raise NoIndex(f"{path}: there is no index")


def verify(arguments: argparse.Namespace, interrupt: Interrupt) -> int:
    """Verify the files of an index, print those that are not intact, and return the exit status."""
    from iim.archive.index import Index
    from iim.archive.verifying import Verification, measure_batch, measure_files

    write("")
    require_index(arguments.index)
    since = None if arguments.not_since is None else seconds(arguments.not_since)
    with Index(arguments.index) as index:
        root = index.setting().root if arguments.root is None else absolute(arguments.root)
        index.begin("verify", root=root)
        progress = Silence()
        run = Verification(index, root, progress, index.choose(arguments.sample, since))
        stopped = True
        most = {"most": arguments.timeout}
        reader = functools.partial(measure_batch, **most)
        local = functools.partial(measure_files, **most)
        try:
            with contextlib.suppress(KeyboardInterrupt):
                run.progress = progress = progress_here()
                with read_blocks(run.files(), arguments, reader, local) as blocks:
                    for block in interrupt.each(blocks):
                        write(run.add(block))
                        LOGGER.info("%d files are verified", run.sums["files"])
                stopped = False
            index.end_run(run.sums, not stopped)
        except Exception as fault:
            end_early(in_index(fault, arguments.index), progress, run.sums)
    progress.end()
    write(json.dumps(run.sums) + "\n")
    return STOPPED if stopped else run.status()


def absolute(name: str) -> bytes:
    """Return the absolute path of a name."""
    return os.fsencode(os.path.abspath(name))


def print_manifest(arguments: argparse.Namespace, interrupt: Interrupt) -> int:
    """Print the manifest of an index, or compare it with one, and return the exit status."""
    from iim.archive.opening import open_readonly

    write("")
    try:
        with contextlib.closing(open_readonly(arguments.index, arguments.immutable)) as database:
            if arguments.check is not None:
                return compare(database, arguments, interrupt)
            from iim.archive.manifests import manifest_of

            for page in interrupt.each(pages_of(manifest_of(database, arguments.bagit))):
                write_bytes(page)
    except sqlite3.Error as fault:
        raise in_index(fault, arguments.index) from None
    except KeyboardInterrupt:
        return STOPPED
    return 0


def pages_of(lines: Iterator[bytes]) -> Iterator[bytes]:
    """Yield lines, many at a time. Those before a failure are yielded first."""
    page = []
    failure: Optional[Failure] = None
    try:
        for line in lines:
            page.append(line)
            if len(page) == LINES:
                yield b"".join(page)
                page = []
    except Failure as fault:
        failure = fault
    yield b"".join(page)
    if failure is not None:
        raise failure


def compare(
    database: sqlite3.Connection, arguments: argparse.Namespace, interrupt: Interrupt
) -> int:
    """Compare an index with a manifest, print what differs, and return the exit status."""
    from iim.archive.manifests import Comparison

    name = arguments.check
    base = os.path.dirname(os.path.abspath(name)) if arguments.base is None else arguments.base
    comparison = Comparison(database)
    try:
        with open(name, "rb") as lines:
            comparison.read(lines, absolute(base), arguments.bagit)
    except Failure as fault:
        raise Failure(f"{name}: {fault}") from None
    for text in interrupt.each(comparison.lines()):
        write(text)
    write(json.dumps(comparison.sums) + "\n")
    return comparison.status()


def migrate(arguments: argparse.Namespace, interrupt: Interrupt) -> int:
    """Bring indexes to the present form, and return the exit status."""
    from iim.archive.index import Index

    write("")
    for path in interrupt.each(iter(arguments.index)):
        require_index(path)
        Index(path).close()
    return 0
