"""Write output files without damage to existing files.

A file is written under another name in the same directory, and renamed to its path when it is
complete: a failure leaves the old file unchanged. A path is rejected if it is an input, a
directory, not a regular file, or a file that was not written by this package.
"""
from __future__ import annotations

import contextlib
import os
import secrets
import stat
from pathlib import Path
from typing import Callable, Iterable, Iterator, Optional, TextIO, Union

# An input file: its path, or the descriptor that it is read from.
Input = Union[str, bytes, int]

# The beginning of each page of this package. The generator is named before any text of a user.
PAGE_HEAD = (
    "<!doctype html>\n"
    '<html lang="en"><head><meta charset="utf-8"><meta name="generator" content="iim">'
)

# The number of bytes at the beginning of a file that identify it.
HEAD = 512

LINK = "is a symbolic link; --force replaces it"


class OutputRefused(Exception):
    """Raised if a file must not be written. Its text is `path: reason`."""


def is_page(head: bytes) -> bool:
    """Check whether a file that begins with these bytes is a page of this package."""
    return head.startswith(PAGE_HEAD.encode("ascii"))


def check_output(
    path: str,
    inputs: Iterable[Input] = (),
    is_ours: Callable[[bytes], bool] = is_page,
    force: bool = False,
) -> None:
    """Check that a file may be written or replaced.

    Args:
        path: The path of the output.
        inputs: The input files, which are never replaced.
        is_ours: Called with the first bytes of an existing file. Returns whether it may be
            replaced.
        force: Whether to replace any regular file or symbolic link, except an input.

    Raises:
        OutputRefused: The file must not be written.
    """
    reason = _reason(path, inputs, is_ours, force)
    if reason is not None:
        raise OutputRefused(f"{path}: {reason}")


@contextlib.contextmanager
def replace_file(
    path: str,
    inputs: Iterable[Input] = (),
    is_ours: Callable[[bytes], bool] = is_page,
    force: bool = False,
) -> Iterator[TextIO]:
    """Open a text file that replaces `path` if the block ends without an exception.

    Otherwise `path` is unchanged. A symbolic link is itself replaced; its target is not changed.

    Args:
        path: The path of the output.
        inputs: The input files, which are never replaced.
        is_ours: Called with the first bytes of an existing file. Returns whether it may be
            replaced.
        force: Whether to replace any regular file or symbolic link, except an input.

    Raises:
        OutputRefused: The file must not be written. This is checked before and after the block.
        OSError: The file can't be written. Its file name is `path`.
    """
    inputs = list(inputs)
    check_output(path, inputs, is_ours, force)
    beside = str(Path(path).parent / f".iim-{secrets.token_hex(8)}.part")
    try:
        file = os.open(beside, os.O_WRONLY | os.O_CREAT | os.O_EXCL | os.O_CLOEXEC, 0o666)
        with open(file, "w", encoding="utf-8", newline="\n") as to:
            _keep_mode(path, file)
            yield to
            to.flush()
            os.fsync(file)
        check_output(path, inputs, is_ours, force)
        os.replace(beside, path)
    except BaseException as fault:
        with contextlib.suppress(OSError):
            os.unlink(beside)
        if isinstance(fault, OSError) and fault.filename in (None, beside):
            fault.filename, fault.filename2 = path, None
        raise


def _reason(
    path: str, inputs: Iterable[Input], is_ours: Callable[[bytes], bool], force: bool
) -> Optional[str]:
    """Return why a file must not be written, or `None`."""
    try:
        there = os.stat(path)
    except FileNotFoundError:
        return LINK if Path(path).is_symlink() and not force else None
    if stat.S_ISDIR(there.st_mode):
        return "is a directory"
    if any(_is_same(each, there) for each in inputs):
        return "is an input"
    if not stat.S_ISREG(there.st_mode):
        return "is not a regular file"
    if force:
        return None
    if Path(path).is_symlink():
        return LINK
    return (
        None
        if is_ours(_head_of(path))
        else "exists and was not written by this program; --force replaces it"
    )


def _is_same(each: Input, there: os.stat_result) -> bool:
    """Check whether an input is the file with this status."""
    try:
        return os.path.samestat(os.stat(each), there)
    except OSError:
        return False


def _head_of(path: str) -> bytes:
    """Return the first bytes of a regular file."""
    file = os.open(path, os.O_RDONLY | os.O_NONBLOCK | os.O_NOCTTY | os.O_CLOEXEC)
    try:
        return os.read(file, HEAD)
    finally:
        os.close(file)


def _keep_mode(path: str, file: int) -> None:
    """Give an open file the permissions of the file that it replaces, if there is one."""
    with contextlib.suppress(OSError):
        there = os.lstat(path)
        if stat.S_ISREG(there.st_mode):
            os.fchmod(file, stat.S_IMODE(there.st_mode))
