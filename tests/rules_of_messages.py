"""The rules of the message, octet by octet: a part of tests/rules.py."""
from __future__ import annotations

import copy
from typing import Collection, List

from rules_of_values import DIGITS, FILLER, LETTERS, SPACED, TRAILER


class Message:
    """A reader of a message. `take` reads one octet and returns the cause of its refusal, or 0."""

    # The parts, and the texts of each part.
    BEFORE, SOURCE, NUMBER, SPACE, PRIORITY, CATEGORY, WORDS, INFO, GAP, TEXT, TAIL, AFTER = range(
        12
    )

    def __init__(self) -> None:
        """Begin before the message."""
        self.part, self.counter, self.flag = self.BEFORE, 0, 0
        texts = (
            self.SOURCE,
            self.NUMBER,
            self.PRIORITY,
            self.CATEGORY,
            self.WORDS,
            self.INFO,
            self.TAIL,
        )
        self.texts = dict.fromkeys(texts, b"")
        self.lines = [bytearray()]

    def copy(self) -> Message:
        """Return an independent copy."""
        other = copy.copy(self)
        other.texts, other.lines = dict(self.texts), [line[:] for line in self.lines]
        return other

    def take(self, octet: int) -> int:
        """Read an octet. Return the cause of its refusal, or 0."""
        if self.part == self.TEXT:
            return self.text(octet)
        before = self.part
        if not self.goes_on(octet):
            return 30
        if self.part != before and self.part != self.GAP:
            self.counter = self.flag = 0
        return 0

    def goes_on(self, octet: int) -> bool:
        """Read an octet outside of the text. Return whether it is valid there."""
        if self.part == self.BEFORE:
            return self.turns(octet, b"\1", self.SOURCE) or self.fills(octet)
        if self.part == self.SOURCE:
            return self.grows(octet, LETTERS, 8) or self.begins(octet, DIGITS, self.NUMBER)
        if self.part == self.NUMBER:
            return self.grows(octet, DIGITS, 8) or self.turns(octet, b" ", self.SPACE)
        if self.part == self.SPACE:
            return self.turns(octet, DIGITS, self.PRIORITY) and self.grows(octet, DIGITS, 1)
        if self.part == self.PRIORITY:
            return self.turns(octet, b" ", self.CATEGORY)
        if self.part == self.CATEGORY:
            return self.grows(octet, LETTERS | DIGITS, 8) or self.ends(octet, b" ", self.WORDS)
        if self.part == self.WORDS:
            return (
                self.grows(octet, DIGITS, 6)
                or self.ends(octet, b" ", self.INFO)
                or self.ends(octet, FILLER, self.GAP)
            )
        if self.part == self.INFO:
            return self.grows(octet, SPACED, 64) or self.turns(octet, FILLER, self.GAP)
        if self.part == self.GAP:
            return self.gap(octet)
        if self.part == self.TAIL:
            return self.turns(octet, b"\4", self.AFTER) or self.grows(octet, TRAILER, 64)
        return self.fills(octet)

    def fills(self, octet: int) -> bool:
        """Count an octet of filler. Return whether the octet is filler."""
        self.counter += 1
        return octet in FILLER and self.counter <= 32

    def grows(self, octet: int, kind: Collection[int], most: int) -> bool:
        """Append an octet to the current part if it is of the part's class.

        Return whether it is.
        """
        text = self.texts[self.part]
        if octet not in kind or len(text) >= most:
            return False
        self.texts[self.part] = text + bytes([octet])
        return True

    def turns(self, octet: int, marks: Collection[int], part: int) -> bool:
        """Begin the next part if the octet is the mark before it. Return whether it is."""
        if octet not in marks:
            return False
        self.part = part
        if part == self.GAP:
            self.counter, self.flag = 1, int(octet == 0x0A)
        return True

    def ends(self, octet: int, marks: Collection[int], part: int) -> bool:
        """Do the same as `turns` if the current part is not empty. Return whether it was done."""
        return len(self.texts[self.part]) > 0 and self.turns(octet, marks, part)

    def begins(self, octet: int, kind: Collection[int], part: int) -> bool:
        """Begin the next part with its first octet. Return whether the octet may begin it."""
        return self.ends(octet, kind, part) and self.grows(octet, kind, 1)

    def gap(self, octet: int) -> bool:
        """Read an octet of the gap, which has an LF and at most 32 octets."""
        if octet == 0x02:
            return self.flag == 1 and self.turns(octet, b"\2", self.TEXT)
        self.counter += 1
        self.flag |= int(octet == 0x0A)
        return octet in FILLER and self.counter <= (32 if self.flag else 31)

    def text(self, octet: int) -> int:
        """Read an octet of the text. The flag counts CRs that may still belong to a line end."""
        if octet == 0x0A:
            self.flag = 0
            self.lines.append(bytearray())
        elif octet == 0x0D and self.flag < 2:
            self.flag += 1
        elif self.flag:
            return 40
        elif octet == 0x03:
            self.part = self.TAIL
        elif octet in (0x01, 0x02, 0x04):
            return 41
        else:
            self.lines[-1].append(octet)
        return 0

    def head(self) -> List[bytes]:
        """Return source, number, priority, category, words and info."""
        return [self.texts[part] for part in sorted(self.texts) if part != self.TAIL]
