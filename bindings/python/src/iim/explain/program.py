"""Explain what the bytes of a file of envelopes are and, if one is rejected, why.

    python3 -m iim explain FILE [--envelope N | --all] [--encoding NAME] [--json]
        [--html OUT [--force]] [--limits OCTETS FIELDS]

FILE is `-` for standard input. The explanation is printed as text, or as JSON with --json, and with
--html also written as a page. The rejected envelope is shown byte by byte, and accepted ones with
--envelope or --all. Nothing is repaired, and nothing after a rejected byte is interpreted. Each
change that is suggested was tried: the changed bytes were passed to the library.

Prose has at most 80 columns. Rows are as wide as the terminal, or 120 columns if the output is no
terminal; a longer value ends in `...`, but an id never does.

Exit status: 0 if all is accepted, 1 if input was rejected, 2 for a usage error, 3 if the file can't
be read or the output failed, and 130 after SIGINT or SIGTERM.
"""
from __future__ import annotations

import argparse
import errno
import os
import shutil
import sys
from typing import Any, List, NamedTuple, Optional

import iim
from iim.explain.case import Case
from iim.explain.progress import Progress
from iim.explain.release import release
from iim.explain.text import Paint, lines
from iim.explain.walk import Source
from iim.explain.words import printable
from iim.program import (
    CannotWrite,
    Failed,
    add_limits,
    check_limits,
    complain,
    encoding_named,
    naming,
    print_text,
    program_name,
)
from iim.safe_output import OutputRefused, check_output, replace_file

# The minimum columns of a row on a terminal, and in a file or pipe.
NARROW, WIDE = 70, 120


def width() -> int:
    """Return the columns of a row: those of the terminal, or else 120, which fit 64 bytes."""
    columns = shutil.get_terminal_size((WIDE, 24)).columns
    return max(columns, NARROW if sys.stdout.isatty() else WIDE)


def main(arguments: argparse.Namespace) -> int:
    """Explain the file that the arguments name.

    Args:
        arguments: The arguments, as `parse` returns them.

    Returns:
        The exit status.

    Raises:
        Failed: The file can't be read, or the page can't be written.
        CannotWrite: Standard output can't be written.
    """
    name = "standard input" if arguments.file == "-" else printable(arguments.file)
    if sys.stdout is None:
        raise CannotWrite(os.strerror(errno.EBADF))
    with naming(name):
        source = Source(arguments.file)
    with source:
        with naming(name):
            explanation = explain(source, name, arguments)
        if explanation is None:
            return 2
        if arguments.html is not None:
            write_page(arguments.html, explanation.page, source, arguments.force)
        with naming("standard output"):
            print_text(explanation.text)
        return int(explanation.is_refused)


class Explanation(NamedTuple):
    """The output of the program.

    Attributes:
        text: The text for standard output.
        page: The HTML page, or an empty text if none is wanted.
        is_refused: Whether an envelope was rejected.
    """

    text: str
    page: str
    is_refused: bool


def explain(source: Source, name: str, arguments: argparse.Namespace) -> Optional[Explanation]:
    """Generate the whole output, before anything is written.

    Args:
        source: The file.
        name: The name of the file, for messages.
        arguments: The arguments of the program.

    Returns:
        The output, or `None` if there is no such envelope, which is reported.

    Raises:
        Failed: The page must not be written, or the file was changed while it was read.
    """
    try:
        if arguments.html is not None:
            check_output(arguments.html, [source.given], force=arguments.force)
        case = read_case(source, arguments)
        if arguments.envelope is not None and not case.wholes:
            missing = f"there is no envelope {arguments.envelope}: the file has {case.count}"
            complain(f"{program_name(True)}: {name}: {missing}")
            return None
        text = text_of(case, arguments.json)
        page = page_of(case) if arguments.html is not None else ""
    except iim.RefusedError:
        # (bytes that were accepted a moment ago)
        raise Failed(f"{name}: the file was changed while it was read") from None
    except OutputRefused as fault:
        raise Failed(printable(str(fault))) from None
    return Explanation(text, page, case.refusal is not None)


def read_case(source: Source, arguments: argparse.Namespace) -> Case:
    """Read the file, and report the progress on a terminal."""
    with Progress(source.size) as report:
        return Case(
            source,
            iim.Limits(*arguments.limits),
            arguments.envelope,
            shows_all=arguments.all,
            encoding=arguments.encoding,
            report=report,
        )


def text_of(case: Case, is_json: bool) -> str:
    """Return what is printed, as text or as JSON."""
    if is_json:
        from iim.explain.as_json import as_json

        return as_json(case) + "\n"
    paint = Paint(sys.stdout.isatty() and not os.environ.get("NO_COLOR"))
    return "\n".join([*lines(case, paint, width()), ""])


def page_of(case: Case) -> str:
    """Return the HTML page of a file."""
    from iim.explain.page import page

    return page(case)


def write_page(path: str, page: str, source: Source, force: bool) -> None:
    """Write a page as a whole or not at all. Raise `Failed` on failure."""
    with naming(printable(path)):
        try:
            with replace_file(path, [source.given], force=force) as to:
                to.write(page)
        except OutputRefused as fault:
            raise Failed(printable(str(fault))) from None


class Version(argparse.Action):
    """Print the release, and exit."""

    def __call__(self, parser: argparse.ArgumentParser, *_: Any) -> None:
        """Print the release of the library."""
        print_text(f"iim-explain {release()}\n")
        parser.exit()


def parse(words: List[str]) -> argparse.Namespace:
    """Parse the arguments of `explain`."""
    description = (
        "Show what a file of envelopes contains and, if an envelope is rejected, where, why, and"
        " which bytes are accepted there."
    )
    parser = argparse.ArgumentParser(program_name(True), description=description)
    parser.add_argument("file", metavar="FILE", help="file to read; - is standard input")
    parser.add_argument(
        "--envelope",
        metavar="N",
        type=int,
        help="show envelope N byte by byte, and read no further",
    )
    parser.add_argument(
        "--all",
        action="store_true",
        help="show accepted envelopes byte by byte, too, and all changes that help",
    )
    parser.add_argument(
        "--encoding",
        metavar="NAME",
        type=encoding_named,
        help="show text in this encoding, such as utf-8, latin-1 or koi8-r [default: what 1:90"
        " declares, or else a guess]",
    )
    parser.add_argument("--json", action="store_true", help="print one JSON object")
    parser.add_argument("--html", metavar="OUT", help="also write the explanation as an HTML page")
    parser.add_argument(
        "--force",
        action="store_true",
        help="replace OUT even if it was not written by --html or is a symbolic link; never an"
        " input",
    )
    add_limits(parser)
    parser.add_argument(
        "-V",
        "--version",
        action=Version,
        nargs=0,
        help="print the release, and exit",
    )
    arguments = parser.parse_args(words)
    check_limits(parser, arguments.limits)
    if arguments.envelope is not None and arguments.envelope < 1:
        parser.error("envelopes are numbered from 1")
    return arguments
