"""Split the valid part of an envelope into items: its datasets and the parts of its message."""
from __future__ import annotations

import errno
import io
import os
import stat
import sys
import tempfile
from typing import Iterator, List, NamedTuple, Optional, cast

import iim
from iim.explain.words import counted, is_text, shown, titled, value_in_words

# The size of a block; the number of bytes at the beginning and the end of an envelope that become
# items; and the number of bytes of a text that are stored.
BLOCK = 65_536
HEAD, TAIL = 98_304, 16_384
TEXT_OCTETS = 2_048

# The part of the message that is its text; the name of the byte that enters each part, and of a
# byte after which the part is the same.
TEXT = 9
STEPS = dict(enumerate("SOH number SP priority SP SP SP gap STX ETX EOT".split(), 1))
STAYS = {0: "filler", 1: "source", 2: "number", 5: "category", 6: "words", 7: "info", 8: "gap"}
STAYS.update({10: "trailer", 11: "filler"})


class Source:
    """A file that can be read at any offset.

    Standard input begins at its current position. A file that can't be read twice, such as a pipe,
    is copied to a temporary file without a name. It is a context manager that closes the file.

    Attributes:
        name: The path, or `-` for standard input.
        given: The descriptor of the file, since its path may name another file later.
        size: The size, in bytes.
    """

    def __init__(self, path: str) -> None:
        """Open a file.

        Args:
            path: The path, or `-` for standard input.

        Raises:
            OSError: The file can't be read.
        """
        self.name = path
        if path == "-" and sys.stdin is None:
            raise OSError(errno.EBADF, os.strerror(errno.EBADF))
        opened = open(0 if path == "-" else path, "rb", buffering=0, closefd=path != "-")
        self.given = opened.fileno()
        self._input, self._file, self._begin = opened, self.given, 0
        self._spool: io.IOBase = opened
        status = os.fstat(self._file)
        if stat.S_ISREG(status.st_mode) and status.st_size:
            self._begin = os.lseek(self._file, 0, os.SEEK_CUR)
            self.size = max(0, status.st_size - self._begin)
            return
        if is_device(opened, status.st_mode):
            raise OSError(errno.EINVAL, "not a regular file")
        self._spool = spool_of(opened)
        self._file = self._spool.fileno()
        self.size = os.fstat(self._file).st_size

    def __enter__(self) -> Source:
        """Return the file."""
        return self

    def __exit__(self, *_: object) -> None:
        """Close the file, and its copy."""
        self._spool.close()
        self._input.close()

    def read_into(self, at: int, buffer: memoryview) -> int:
        """Read bytes from an offset on into a buffer, and return their number."""
        count = min(len(buffer), self.size - at)
        if count <= 0:
            return 0
        got = os.preadv(self._file, [buffer[:count]], self._begin + at)
        if not got:
            raise OSError(errno.EIO, "the file became shorter while it was read")
        return got

    def take(self, at: int, count: int) -> bytes:
        """Return `count` bytes from an offset on, or fewer at the end of the file."""
        parts: List[bytes] = []
        count = min(count, self.size - at)
        while count > 0:
            part = os.pread(self._file, min(count, BLOCK), self._begin + at)
            if not part:
                raise OSError(errno.EIO, "the file became shorter while it was read")
            parts.append(part)
            at, count = at + len(part), count - len(part)
        return b"".join(parts)


def is_device(opened: io.FileIO, mode: int) -> bool:
    """Check whether a file of a mode is a device that is not empty and no terminal."""
    if stat.S_ISCHR(mode) and not opened.isatty():
        return bool(opened.read(1))
    return stat.S_ISBLK(mode)


def spool_of(opened: io.FileIO) -> io.IOBase:
    """Return a temporary file with the remaining bytes of a pipe or of a file of unknown size."""
    spool = cast(io.BufferedRandom, tempfile.TemporaryFile())
    while (piece := opened.read(BLOCK)) != b"":
        if piece is None:
            raise OSError(errno.EAGAIN, os.strerror(errno.EAGAIN))
        try:
            spool.write(piece)
        except OSError as fault:
            reason = f"a copy in {tempfile.gettempdir()}: {fault.strerror}"
            raise OSError(fault.errno, reason) from None
    spool.flush()
    return spool


class Item(NamedTuple):
    """Some bytes of an envelope and their meaning.

    Attributes:
        at: The offset of the first byte in the envelope.
        length: The number of bytes.
        kind: "dataset", "part" or "line".
        label: The name of the dataset or part.
        value: The value, as text.
        record: The record number of a dataset.
        number: The dataset number, or `None` if it was not received.
        head: The size of a dataset's tag, in bytes.
        size: The size of a dataset's data by its count, or `None` if it was not received.
        text: The first bytes of a value that is text, or `None`.
        text_size: The number of all bytes of that value.
    """

    at: int
    length: int
    kind: str
    label: str
    value: str
    record: int = 0
    number: Optional[int] = None
    head: int = 0
    size: Optional[int] = None
    text: Optional[bytes] = None
    text_size: int = 0


def count_of(tag: bytes) -> Optional[int]:
    """Return the count in a tag, or `None` if the tag is incomplete."""
    if len(tag) < 5:
        return None
    standard = int.from_bytes(tag[3:5], "big")
    if standard < 0x8000:
        return standard
    return int.from_bytes(tag[5:], "big") if len(tag) == 5 + (standard & 0x7FFF) else None


class Walk:
    """The items of an envelope.

    `at` is the offset of the envelope in the source, and `end` its length, or the offset of the
    rejected byte in it.

    Attributes:
        octets: The number of bytes consumed.
        items: The items.
        envelope: The envelope, once it is complete.
        places: Saved states: each as the number of bytes consumed, and the ticket.
        gap: The offsets between which there are no items.
    """

    def __init__(self, source: Source, at: int, end: int, limits: iim.Limits) -> None:
        """Read an envelope.

        Args:
            source: The file.
            at: The offset of the envelope in the file.
            end: Its length, or the offset of the rejected byte in it.
            limits: The limits on records 1 and 2.
        """
        self._source, self._at, self._end = source, at, end
        self._receiver = iim.Receiver(limits)
        self.octets = 0
        self.items: List[Item] = []
        self.envelope: Optional[iim.Envelope] = None
        self.places = [(0, b"")]
        self.gap = end, end
        self._tell(min(end, HEAD))
        if self.octets < end:
            self._skip(max(self.octets, end - TAIL))
            self._tell(end)

    def take(self, at: int, count: int) -> bytes:
        """Return bytes of the envelope."""
        return self._source.take(self._at + at, count)

    def _go(self, count: int) -> None:
        """Consume `count` bytes, which are valid."""
        fed = self._receiver.feed(self.take(self.octets, count))
        self.octets += fed.used
        self.envelope = fed.envelope

    def _skip(self, to: int) -> None:
        """Consume the bytes up to an offset in blocks, without items."""
        begin = self.octets
        while self.octets < to:
            self._go(min(BLOCK, to - self.octets))
        self.places.append((self.octets, self._receiver.current_ticket()))
        self.gap = begin, to

    def _tell(self, to: int) -> None:
        """Add the items of the datasets up to an offset."""
        while self.octets < to and self.envelope is None:
            place = self._receiver.current_position()
            if place.begun == "data":
                self._data(place.record, place.number, to, Item(self.octets, 0, "dataset", "", ""))
            else:
                self._dataset(to, self.octets - place.came)

    def _dataset(self, to: int, at: int) -> None:
        """Add the items of the dataset that begins at an offset."""
        self._go(min(max(at + 5 - self.octets, 1), to - self.octets))
        while (place := self._receiver.current_position()).begun == "tag" and self.octets < to:
            self._go(1)
        head = self.octets - at
        if place.begun == "tag":
            self._cut_tag(at)
            return
        record, number = self.take(at + 1, 2)
        count = place.size if place.size is not None and place.begun == "data" else 0
        value, text = "", None
        if record != 8:
            value = value_in_words(record, number, self.take(at + head, min(count, 81)), count)
            if is_text(record, number):
                text = self.take(at + head, min(count, TEXT_OCTETS))
        self._data(
            record,
            number,
            to,
            Item(
                at,
                head + count,
                "dataset",
                titled(record, number),
                value,
                record,
                number,
                head,
                count,
                text,
                count,
            ),
        )

    def _cut_tag(self, at: int) -> None:
        """Add the item of an incomplete tag. If a byte is rejected, it is the last of the tag."""
        tag = self.take(at, 13)[: self._end + 1 - at]
        record, number = (tag[1] if len(tag) > 1 else 0), (tag[2] if len(tag) > 2 else None)
        label = titled(record, number) if len(tag) > 1 else "a tag"
        self.items.append(
            Item(at, len(tag), "dataset", label, "", record, number, len(tag), count_of(tag))
        )

    def _data(self, record: int, number: Optional[int], to: int, item: Item) -> None:
        """Add the item of a dataset, and consume its data."""
        end = min(to, item.at + item.length)
        if not item.label:
            # (the dataset begins in the gap)
            end = min(to, self.octets + (self._receiver.current_position().to_come or 0))
            item = Item(
                self.octets,
                end - self.octets,
                "dataset",
                f"{titled(record, number)}, continued",
                "",
                record,
                number,
            )
        self.items.append(item)
        if record == 8:
            self._message(end)
        while self.octets < end and self.envelope is None:
            self._go(min(BLOCK, end - self.octets))

    def _message(self, to: int) -> None:
        """Add the items of the parts of the message up to an offset."""
        part = self._receiver.current_position().part
        while self.octets < to:
            if part == TEXT and self._line(to):
                continue
            at, before = self.octets, part
            self._go(1)
            part = self._receiver.current_position().part
            self._part(at, (STAYS if part == before else STEPS)[part])

    def _part(self, at: int, label: str) -> None:
        """Add a byte of a part to the item of that part, or as a new item."""
        last = self.items[-1]
        if (
            last.kind == "part"
            and last.label == label
            and last.at + last.length == at
            and label != "SP"
        ):
            at = self.items.pop().at
        octets = self.take(at, self.octets - at)
        value = (
            ""
            if label in ("SOH", "STX", "ETX", "EOT", "SP")
            else octets.hex(" ").upper()
            if label in ("gap", "filler")
            else shown(octets, 64)
        )
        is_shown = value and label not in ("gap", "filler")
        text = octets[:TEXT_OCTETS] if is_shown else None
        self.items.append(
            Item(at, self.octets - at, "part", label, value, text=text, text_size=len(octets))
        )

    def _line(self, to: int) -> bool:
        """Add the item of the next line of the text.

        Return `False` if the next byte is not part of a line.
        """
        octets = self.take(self.octets, min(BLOCK, to - self.octets))
        end = next(
            (
                at
                for at in sorted(
                    (
                        octets.find(b"\n") + 1 or len(octets) + 1,
                        octets.find(b"\3") + 1 or len(octets) + 1,
                    )
                )
            ),
            0,
        )
        line = octets[:end] if octets[end - 1 : end] == b"\n" else octets[: max(0, end - 1)]
        if not line:
            return False
        ends = (
            " ".join(["CR"] * (len(line[:-1]) - len(line[:-1].rstrip(b"\r")))) + " LF"
            if line.endswith(b"\n")
            else ""
        )
        at = self.octets
        self._go(len(line))
        body = line.rstrip(b"\r\n") if ends else line
        label = "line" + f", {ends.strip()}" * bool(ends)
        text = body[:TEXT_OCTETS]
        self.items.append(
            Item(at, len(line), "line", label, shown(body, 64), text=text, text_size=len(body))
        )
        return True


def cut(items: List[Item], most: int, lines: int) -> Iterator[Optional[Item]]:
    """Yield the items, with `None` in place of the middle of a long story or of a long list."""
    kept: List[Optional[Item]] = []
    story = [at for at, item in enumerate(items) if item.kind == "line"]
    hidden = set(story[lines:-lines]) if len(story) > 2 * lines else set()
    kept = [None if at in hidden else item for at, item in enumerate(items)]
    if len(kept) > 2 * most:
        kept = [*kept[:most], None, *kept[-most:]]
    for at, each in enumerate(kept):
        if each is not None or at and kept[at - 1] is not None:
            yield each


def hidden_words(before: Item, after: Item) -> str:
    """Return the note on the bytes left out between two items."""
    begin, end = before.at + before.length, after.at
    return f"... {counted(end - begin, 'octet')} from {begin:,} on are left out"
