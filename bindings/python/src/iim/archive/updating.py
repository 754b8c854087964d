"""Update an index from trees of files: read what is new or changed, and mark what is gone."""
from __future__ import annotations

import argparse
import os
from typing import Dict, FrozenSet, Iterable, Iterator, List, Optional

from iim.archive.files import Found, Lister, distinct_trees, matcher_of
from iim.archive.index import Entry, Index, Rules
from iim.archive.progress import Silence
from iim.archive.rows import COLUMNS, PLAIN, Batch, Failure, FileRequest, KeptRows


def separate_trees(trees: Iterable[str]) -> List[bytes]:
    """Return the absolute paths of the trees, in order, without those inside others."""
    absolute = {os.fsencode(os.path.abspath(tree)) for tree in trees}
    return distinct_trees(sorted(absolute, key=lambda name: name + b"/"))


def check_root(root: bytes, trees: Iterable[bytes]) -> None:
    """Raise `Failure` if a tree is not the root, or below it."""
    below = os.path.join(root, b"")
    for tree in trees:
        if tree != root and not tree.startswith(below):
            raise Failure(f"{os.fsdecode(tree)}: is not below the root {os.fsdecode(root)}")


class Update:
    """A run that updates an index: it reads new and changed files, and marks files gone.

    Attributes:
        progress: The report of the progress.
        found: The number of files found.
        unchanged: The number of files that were not read again.
        gone: The number of files of the index that no longer exist.
    """

    # The number of files that are marked at a time.
    MARKS = 1_000

    def __init__(
        self,
        index: Index,
        arguments: argparse.Namespace,
        progress: Silence,
        rules: Optional[Rules] = None,
        root: Optional[bytes] = None,
    ) -> None:
        """Create a run that updates an index as the arguments specify.

        Args:
            index: The index.
            arguments: The arguments of the command line.
            progress: The report of the progress.
            rules: With `--again` the rules of the run. A file that other rules read is read again.
            root: The directory that names are relative to, or `None`.
        """
        self._index, self._pattern, self.progress = index, arguments.name, progress
        self.found = self.unchanged = self.gone = 0
        self._matches = matcher_of(arguments.name)
        self._own = index.own_files()
        # The number of bytes of a path before the name that the index has.
        self._cut = 0 if root is None else len(os.path.join(root, b""))
        self._runs: Optional[FrozenSet[int]] = None if rules is None else index.runs_by(rules)
        self._marks: Dict[bool, List[int]] = {True: [], False: []}

    def totals(self) -> Dict[str, int]:
        """Return the totals of this run, which the index doesn't have."""
        return {"files": self.found, "unchanged": self.unchanged, "gone": self.gone}

    def files(self, trees: List[bytes]) -> Iterator[FileRequest]:
        """Yield the files to read."""
        lister = Lister(trees, self._pattern, self._own)
        for tree in trees:
            name = tree[self._cut :]
            if not os.path.isdir(tree):
                entries = self._index.entries(name, name + b"\0")
            elif name:
                below = os.path.join(name, b"")
                entries = self._index.entries(below, below[:-1] + b"0")
            else:
                entries = self._index.entries(b"", None)
            yield from self._changes(lister.files_of(tree), entries)
        for gone in self._marks:
            self._mark(gone, 1)

    def _changes(self, files: Iterator[Found], entries: Iterator[Entry]) -> Iterator[FileRequest]:
        """Yield the files of a tree to read.

        Args:
            files: The files of the tree, ordered by name.
            entries: The entries of the index for the tree, ordered by name.
        """
        cut, runs, progress = self._cut, self._runs, self.progress
        entry = next(entries, None)
        for found in files:
            path, size, changed, reason, target = found
            name = path[cut:] if cut else path
            while entry is not None and entry[0] < name:
                self._miss(entry)
                entry = next(entries, None)
            is_known = entry is not None and entry[0] == name
            is_folder = path[-1] == 0x2F
            self.found += not is_folder and target is None
            if not is_known:
                yield FileRequest(self._index.new_number(), *found)
            elif entry is not None:
                _, file, old_size, old_changed, state, gone, run, fixity, linked = entry
                if (
                    old_size == size
                    and old_changed == changed
                    and reason is None
                    and state != "failed"
                    and linked == (target and target[cut:])
                    and (runs is None or target or (run in runs and fixity != "damaged"))
                ):
                    self.unchanged += target is None
                    progress.add(1, size, 0, 0)
                    if gone:
                        self._marks[False].append(file)
                        self._mark(False, self.MARKS)
                else:
                    yield FileRequest(file, *found)
                entry = next(entries, None)
            if is_folder:
                # (it can't be determined which of its files are gone)
                while entry is not None and entry[0].startswith(name):
                    entry = next(entries, None)
        while entry is not None:
            self._miss(entry)
            entry = next(entries, None)

    def _miss(self, entry: Entry) -> None:
        """Mark a file as gone if its name matches the pattern."""
        path, file, gone = entry[0], entry[1], entry[5]
        matches = self._matches
        name = os.fsdecode(os.path.basename(path))
        if matches is None or matches(name) or path.endswith(b"/"):
            self.gone += 1
            if not gone:
                self._marks[True].append(file)
                self._mark(True, self.MARKS)

    def _mark(self, gone: bool, least: int) -> None:
        """Write the marks to the index if there are at least `least`."""
        if len(self._marks[gone]) >= least:
            self._index.mark(self._marks[gone], gone)
            self._marks[gone].clear()

    def add(self, block: List[KeptRows]) -> None:
        """Write the rows of some files to the index."""
        batch, cut = Batch([], [], [], [], []), self._cut
        for file, plain, others, refusal, texts in block:
            if cut:
                number, path, *columns, target = file
                file = (number, path[cut:], *columns, target[cut:])  # type: ignore[assignment]
            batch.files.append(file)
            batch.plain.extend(plain)
            batch.others.extend(others)
            batch.texts.extend(texts)
            if refusal is not None:
                batch.refusals.append(refusal)
            count = len(plain) // PLAIN + len(others) // COLUMNS
            self.progress.add(1, file[2], count, file[5] == "refused")
        self._index.write(batch)
