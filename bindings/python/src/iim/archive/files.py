"""List the files of directory trees, ordered by the bytes of their names.

A file that has several names is read once: under the first of its hard links, and not under a
symbolic link to a file that is listed itself.
"""
from __future__ import annotations

import fnmatch
import os
import re
import stat
from typing import (
    Any,
    Callable,
    Dict,
    FrozenSet,
    Iterable,
    Iterator,
    List,
    NamedTuple,
    Optional,
    Tuple,
    Union,
    cast,
)

from iim.archive.rows import LONGEST, NOT_REGULAR, open_parent

# An entry of a directory: its name, followed by `/` if it is a directory, and its `os.DirEntry`.
Entry = Tuple[bytes, "os.DirEntry[Any]"]

# A device and an inode, which identify a file.
Identity = Tuple[int, int]

# A function that checks whether a name matches the pattern of a run.
Matcher = Callable[[str], object]


class Found(NamedTuple):
    """A file of a tree, or a directory that can't be listed.

    Attributes:
        path: The path. That of a directory ends with `/`.
        size: The size, in bytes.
        changed: The time of the last change, in nanoseconds since 1970.
        reason: Why the file can't be read, or `None`.
        target: The other name under which the file is read, or `None`.
    """

    path: bytes
    size: int
    changed: int
    reason: Optional[str] = None
    target: Optional[bytes] = None

    @property
    def is_folder(self) -> bool:
        """Whether it is a directory."""
        return self.path.endswith(b"/")


def matcher_of(pattern: str) -> Optional[Matcher]:
    """Return the function that checks whether a name matches a shell pattern.

    It is `None` if all names match.
    """
    return None if pattern == "*" else re.compile(fnmatch.translate(pattern)).match


def distinct_trees(trees: Iterable[bytes]) -> List[bytes]:
    """Return the trees without those that are the same directory as another, or inside it.

    A tree is recognised under any name, such as that of a symbolic link. A tree that does not exist
    is always returned, so that it is reported.
    """
    listed = list(dict.fromkeys(trees))
    real = [os.path.realpath(tree) for tree in listed]
    kept = []
    for nth, (tree, path) in enumerate(zip(listed, real)):
        inside = (path != other and path.startswith(os.path.join(other, b"")) for other in real)
        if not os.path.lexists(path) or path not in real[:nth] and not any(inside):
            kept.append(tree)
    return kept


class Names:
    """The names of the files that have several, for one run."""

    def __init__(self, trees: List[bytes], pattern: str) -> None:
        """Prepare for the files of trees whose names match a pattern."""
        self._matches = matcher_of(pattern)
        self._trees = [(os.path.realpath(tree), tree) for tree in trees]
        self._first: Dict[Identity, bytes] = {}

    def target_of(self, path: bytes, status: os.stat_result, is_link: bool) -> Optional[bytes]:
        """Return the other name under which a file is read, or `None`.

        Args:
            path: The path of a file that has several names.
            status: The status of the file.
            is_link: Whether the path is a symbolic link.
        """
        if is_link:
            listed = self._listed_name(os.path.realpath(path))
            if listed is not None and listed != path:
                return listed
        first = self._first.setdefault((status.st_dev, status.st_ino), path)
        return None if first == path else first

    def _listed_name(self, real: bytes) -> Optional[bytes]:
        """Return the name under which a real path is listed, or `None`."""
        for root, tree in self._trees:
            if real == root:
                return tree
            if real.startswith(os.path.join(root, b"")):
                name = os.fsdecode(os.path.basename(real))
                is_listed = self._matches is None or self._matches(name)
                return (
                    os.path.join(tree, real[len(os.path.join(root, b"")) :]) if is_listed else None
                )
        return None


def status_of(path: bytes) -> os.stat_result:
    """Return the status of a file whose path may be longer than the system accepts."""
    with open_parent(path) as (folder, rest):
        return os.stat(rest, dir_fd=folder)


def entries_of(path: bytes) -> List[Entry]:
    """Return the entries of a directory, in order. Raise `OSError` if it can't be listed."""
    listed: Union[bytes, int] = path
    if len(path) > LONGEST:
        with open_parent(path) as (folder, rest):
            listed = os.open(rest, os.O_RDONLY | os.O_DIRECTORY | os.O_CLOEXEC, dir_fd=folder)
    try:
        with os.scandir(listed) as entries:
            # (links to directories are skipped later; a directory sorts with the `/` that follows
            # its name in the paths of its files)
            if isinstance(listed, int):
                return sorted((name_in(entry), entry) for entry in entries)
            names: List[Any] = [
                (each.name + b"/" if each.is_dir(follow_symlinks=False) else each.name, each)
                for each in cast("Iterator[os.DirEntry[bytes]]", entries)
            ]
            return sorted(names)
    finally:
        if isinstance(listed, int):
            os.close(listed)


def name_in(entry: os.DirEntry[Any]) -> bytes:
    """Return the name of an entry within its directory, followed by `/` if it is a directory."""
    # (a directory that is listed by its descriptor has names of type `str`)
    name = os.fsencode(entry.name)
    return name + b"/" if entry.is_dir(follow_symlinks=False) else name


def is_link_to_folder(entry: os.DirEntry[Any]) -> bool:
    """Check whether an entry is a link to a directory. A dangling link is not."""
    try:
        return entry.is_dir()
    except OSError:
        return False


class Lister:
    """Lists the files of trees.

    Attributes:
        names: The names of the files that have several.
    """

    def __init__(
        self, trees: List[bytes], pattern: str = "*", own: FrozenSet[Identity] = frozenset()
    ) -> None:
        """Prepare for the files of trees.

        Args:
            trees: The paths of all trees of the run.
            pattern: The shell pattern of the names of files to list.
            own: The files of the index, which are not listed.
        """
        self._trees, self._matches, self._own = trees, matcher_of(pattern), own
        self.names = Names(trees, pattern)

    def files(self) -> Iterator[Found]:
        """Yield the files of all trees."""
        for tree in self._trees:
            yield from self.files_of(tree)

    def files_of(self, tree: bytes) -> Iterator[Found]:
        """Yield the files of a tree of any depth, ordered by the bytes of their names."""
        if not os.path.isdir(tree):
            yield from self._found(tree, lambda: os.stat(tree), os.path.islink(tree))
            return
        # The path and the remaining entries of each open directory, from the root of the tree down.
        entered: List[Tuple[bytes, Iterator[Entry]]] = []

        def enter(path: bytes) -> Iterator[Found]:
            """Open a directory, or yield it if it can't be listed."""
            try:
                entered.append((path, iter(entries_of(path.rstrip(b"/") or b"/"))))
            except OSError as fault:
                yield Found(path, 0, 0, fault.strerror or str(fault))

        yield from enter(os.path.join(tree, b""))
        while entered:
            folder, entries = entered[-1]
            below = yield from self._files_in(folder, entries)
            if below is None:
                entered.pop()
            else:
                yield from enter(folder + below)

    def _files_in(self, folder: bytes, entries: Iterator[Entry]) -> Any:
        """Yield the files of a directory up to the next directory in it, whose name is returned."""
        matches, own, new = self._matches, self._own, tuple.__new__
        is_regular = stat.S_ISREG
        for name, entry in entries:
            if name[-1] == 0x2F:
                return name
            if matches is not None and not matches(os.fsdecode(name)):
                continue
            path = folder + name
            is_link = entry.is_symlink()
            if is_link and is_link_to_folder(entry):
                continue
            if len(path) > LONGEST:
                yield from self._found(path, lambda: status_of(path), is_link)
                continue
            try:
                status = entry.stat()
            except OSError as fault:
                yield Found(path, 0, 0, fault.strerror or str(fault))
                continue
            if own and (status.st_dev, status.st_ino) in own:
                continue
            target = None
            if status.st_nlink > 1 or is_link:
                target = self.names.target_of(path, status, is_link)
            if is_regular(status.st_mode):
                # (the same as calling the class, in half the time)
                yield new(Found, (path, status.st_size, status.st_mtime_ns, None, target))
            else:
                yield Found(path, 0, 0, NOT_REGULAR)
        return None

    def _found(
        self, path: bytes, look: Callable[[], os.stat_result], is_link: bool
    ) -> Iterator[Found]:
        """Yield a file, whose status `look` returns, unless it is one of the index."""
        try:
            status = look()
        except OSError as fault:
            yield Found(path, 0, 0, fault.strerror or str(fault))
            return
        if (status.st_dev, status.st_ino) in self._own:
            return
        if not stat.S_ISREG(status.st_mode):
            yield Found(path, 0, 0, NOT_REGULAR)
            return
        several = status.st_nlink > 1 or is_link
        target = self.names.target_of(path, status, is_link) if several else None
        yield Found(path, status.st_size, status.st_mtime_ns, None, target)
