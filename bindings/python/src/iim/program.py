"""The command `python3 -m iim`, and what its subcommands share: output, failures and signals."""
from __future__ import annotations

import argparse
import contextlib
import errno
import json
import os
import signal
import sys
import threading
from pathlib import Path
from typing import Any, Dict, Iterator, List, Optional, Sequence, Tuple, Union

from iim.errors import RefusedError
from iim.reader import read
from iim.values import GREATEST_LIMIT, WIRE, Envelope, Limits

# The exit status of a failure, and that of a program ended by a signal.
FAILED = 3
STOPPED = 130


class CannotWrite(Exception):
    """Raised if standard output can't be written. Its text is the reason."""


class Failed(Exception):
    """Raised if a file can't be read or written. Its text is `what: reason`."""


class Terminated(KeyboardInterrupt):
    """Raised by SIGTERM."""


@contextlib.contextmanager
def naming(what: str) -> Iterator[None]:
    """Raise `Failed`, which names a file, for an `OSError` or `MemoryError` of the block.

    The exception of a signal that ends the block names the file, too.
    """
    try:
        yield
    except KeyboardInterrupt as stop:
        stop.args = stop.args or (what,)
        raise
    except OSError as fault:
        raise Failed(f"{what}: {fault.strerror or fault}") from None
    except MemoryError:
        raise Failed(f"{what}: out of memory") from None


def program_name(explains: bool) -> str:
    """Return the name under which the program was started."""
    if Path(sys.argv[0]).name == "iim-explain":
        return "iim-explain"
    return "python3 -m iim explain" if explains else "python3 -m iim"


def abandon(stream: Any) -> None:
    """Discard the unwritten output of a stream, so that Python's exit neither fails nor blocks."""
    with contextlib.suppress(OSError, ValueError, AttributeError):
        null = os.open(os.devnull, os.O_WRONLY)
        os.dup2(null, stream.fileno())
        os.close(null)


def complain(text: str) -> None:
    """Print an error as one line of standard error, if that can be written."""
    try:
        sys.stderr.write(f"{text}\n")
        sys.stderr.flush()
    except (OSError, ValueError, AttributeError):
        abandon(sys.stderr)


def print_text(text: str) -> None:
    """Print text and flush it. Raise `CannotWrite` on failure; then nothing more is written."""
    if sys.stdout is None:
        raise CannotWrite(os.strerror(errno.EBADF))
    try:
        sys.stdout.write(text)
        sys.stdout.flush()
    except OSError as fault:
        abandon(sys.stdout)
        raise CannotWrite(fault.strerror or str(fault)) from None


def print_line(value: Dict[str, Any]) -> None:
    """Print a value as a line of JSON and flush it. Raise `CannotWrite` as `print_text` does."""
    print_text(json.dumps(value) + "\n")


# The name of the encoding that 1:90 declares, or else Latin-1.
DECLARED = "declared"


def _encoding_for(name: Optional[str], coded_character_set: Optional[bytes]) -> Optional[str]:
    """Return the encoding of an envelope: that of a name, or the declared one, or `None`."""
    if name != DECLARED:
        return name
    from iim.designations import encoding_of

    return encoding_of(coded_character_set or b"")


def _line_of(envelope: Union[Envelope, RefusedError], name: Optional[str]) -> Dict[str, Any]:
    """Return the line of an envelope or of a refusal, with the encoding if one is wanted."""
    if name is None:
        return envelope.to_dict()
    key = (1, 90)
    sets = (field.octets for field in envelope.datasets if (field.record, field.number) == key)
    encoding = _encoding_for(name, next(sets, None))
    return {**envelope.to_dict(encoding), "encoding": encoding}


def _print_file(
    named: Dict[str, str], file: Any, limits: Limits, encoding: Optional[str] = None
) -> int:
    """Print the lines of a file, and return the exit status."""
    try:
        for envelope in read(file, limits):
            print_line({**named, **_line_of(envelope, encoding)})
    except RefusedError as refusal:
        print_line({**named, **_line_of(refusal, encoding)})
        return 1
    except OSError as fault:
        print_line({**named, "failed": f"cannot read: {fault.strerror or fault}"})
        return FAILED
    return 0


def _print_named(name: str, limits: Limits, encoding: Optional[str]) -> int:
    """Open a file, print its lines, each with the file's name, and return the exit status."""
    with naming(name if name.isprintable() else ascii(name)[1:-1]):
        try:
            file = open(name, "rb", buffering=0)
        except OSError as fault:
            print_line({"file": name, "failed": f"cannot open: {fault.strerror}"})
            return FAILED
        with file:
            return _print_file({"file": name}, file, limits, encoding)


def _explain(arguments: List[str]) -> int:
    """Explain a file, and return the exit status."""
    from iim.explain.program import main, parse

    return main(parse(arguments))


def add_limits(parser: argparse.ArgumentParser) -> None:
    """Add the option --limits to a parser."""
    parser.add_argument(
        "--limits",
        metavar=("OCTETS", "FIELDS"),
        type=int,
        nargs=2,
        default=WIRE,
        help="maximum bytes of data, and number of datasets, in records 1 and 2 together"
        " [default: 65536 512]",
    )


def check_limits(parser: argparse.ArgumentParser, limits: Sequence[int]) -> None:
    """Exit with a usage error if a limit is out of range."""
    if not all(1 <= limit <= GREATEST_LIMIT for limit in limits):
        parser.error(f"a limit must be from 1 to {GREATEST_LIMIT}")


def encoding_named(name: str) -> str:
    """Return the normal name of an encoding. Raise an error for the parser if there is none."""
    from iim.explain.charsets import known_encoding

    known = known_encoding(name)
    if known is None:
        reason = "no encoding of text with ASCII is known by this name"
        raise argparse.ArgumentTypeError(f"{name!r}: {reason}")
    return known


def _encoding_named(name: str) -> str:
    """Return the normal name of an encoding, or `DECLARED`."""
    return name if name == DECLARED else encoding_named(name)


def _print_files(words: List[str]) -> int:
    """Print the lines of the files given, or of standard input, and return the exit status."""
    parser = argparse.ArgumentParser(
        "python3 -m iim",
        description="Print one line of JSON for each envelope. Bytes are written as Latin-1.",
        epilog="`%(prog)s explain FILE` shows what a file contains and why it was rejected; see"
        " `%(prog)s explain --help`.",
    )
    parser.add_argument(
        "files", metavar="FILE", nargs="*", help="file to read [default: standard input]"
    )
    parser.add_argument(
        "--encoding",
        metavar="NAME",
        type=_encoding_named,
        help="write text in this encoding, such as utf-8, or with `declared` in that which 1:90"
        " declares; other bytes are written as Latin-1 [default: all bytes as Latin-1]",
    )
    add_limits(parser)
    arguments = parser.parse_args(words)
    check_limits(parser, arguments.limits)
    limits = Limits(*arguments.limits)
    if arguments.files:
        return max([_print_named(name, limits, arguments.encoding) for name in arguments.files])
    with naming("standard input"):
        if sys.stdin is None:
            raise OSError(errno.EBADF, os.strerror(errno.EBADF))
        return _print_file({}, sys.stdin.buffer, limits, arguments.encoding)


def _prepare() -> None:
    """Make SIGINT and SIGTERM raise exceptions, and standard output accept any name."""
    if sys.stdout is not None and hasattr(sys.stdout, "reconfigure"):
        # (a name may have characters that the encoding of the output lacks)
        sys.stdout.reconfigure(errors="backslashreplace")
    if threading.current_thread() is threading.main_thread():
        # (the process that started this one may have set a signal to be ignored)
        if signal.getsignal(signal.SIGINT) is signal.SIG_DFL:
            signal.signal(signal.SIGINT, signal.default_int_handler)
        if signal.getsignal(signal.SIGTERM) is signal.SIG_DFL:
            signal.signal(signal.SIGTERM, _terminate)


def _terminate(*_: Any) -> None:
    """Raise `Terminated`."""
    raise Terminated


def _place_of_fault(fault: BaseException) -> str:
    """Return the file and the line at which an exception was raised."""
    trace = fault.__traceback__
    while trace is not None and trace.tb_next is not None:
        trace = trace.tb_next
    if trace is None:
        return "?"
    return f"{Path(trace.tb_frame.f_code.co_filename).name}:{trace.tb_lineno}"


def _reason_and_status(fault: BaseException) -> Tuple[str, int]:
    """Return why an exception ends the program, and the exit status."""
    if isinstance(fault, KeyboardInterrupt):
        signalled = "terminated" if isinstance(fault, Terminated) else "interrupted"
        return ": ".join([*fault.args, signalled]), STOPPED
    if isinstance(fault, CannotWrite):
        return f"standard output: {fault}", FAILED
    if isinstance(fault, (Failed, ImportError)):
        return str(fault), FAILED
    if isinstance(fault, MemoryError):
        return "out of memory", FAILED
    return f"internal error: {type(fault).__name__}: {fault} ({_place_of_fault(fault)})", FAILED


def main(words: Optional[List[str]] = None) -> int:
    """Run `python3 -m iim`.

    It prints a line of JSON for each envelope and for each refusal, or explains a file.
    Each failure is one line of standard error, `program: what: reason`.

    Args:
        words: The command-line arguments [default: those of the process]. If the first is
            `explain`, a file is explained.

    Returns:
        The exit status: 0 if all is accepted, 1 if input was rejected, 2 for a usage error, 3 if a
        file, the output or memory failed, and 130 after SIGINT or SIGTERM.
    """
    words = sys.argv[1:] if words is None else words
    explains = words[:1] == ["explain"]
    try:
        _prepare()
        try:
            return _explain(words[1:]) if explains else _print_files(words)
        except SystemExit as end:
            if not end.code:
                # (--help was printed, but not yet flushed)
                print_text("")
            raise
    except (Exception, KeyboardInterrupt) as fault:
        reason, status = _reason_and_status(fault)
        with contextlib.suppress(ValueError):
            # (against a second Ctrl-C while the program ends)
            signal.signal(signal.SIGINT, signal.SIG_IGN)
        abandon(sys.stdout)
        complain(f"{program_name(explains)}: {reason}")
        return status
