"""Extract the words of envelopes for the full-text index: the fields, and the story."""
from __future__ import annotations

import codecs
import re
from typing import List, Optional, Tuple

import iim
from iim.archive.schema import row_of_text
from iim.designations import OF_96
from iim.receiver import Receiver

# A row of the full-text index: its number, slug, headline, by-lines, keywords, categories, city,
# country and story.
TextRow = Tuple[int, str, str, str, str, str, str, str, str]

# The maximum number of bytes of a story that are indexed.
LONGEST_STORY = 1 << 20

# What 1:90 designates: UTF-8, or a set of 96 characters, by the last byte of its sequence.
UTF_8 = b"\x1b%G"
SET_OF_96 = re.compile(rb"\x1b[-./]([A-Z_bf])")


def encoding_of(coded_character_set: Optional[bytes], otherwise: str) -> str:
    """Return the encoding that 1:90 designates.

    Args:
        coded_character_set: The value of 1:90, or `None`.
        otherwise: The encoding if it designates none that is known.
    """
    if coded_character_set is None:
        return otherwise
    if UTF_8 in coded_character_set:
        return "utf-8"
    found = SET_OF_96.search(coded_character_set)
    return OF_96.get(found[1][0], (otherwise, 0))[0] if found else otherwise


def is_encoding(name: str) -> bool:
    """Check whether Python has an encoding of bytes with this name."""
    try:
        return isinstance(codecs.lookup(name).encode("")[0], bytes) and bool(b"a".decode(name))
    except (LookupError, TypeError, ValueError):
        return False


def text_row(row: int, envelope: iim.Envelope, story: bytes, otherwise: str) -> TextRow:
    """Return the row of an envelope in the full-text index.

    The slug is the object name, or the text at the end of the message's header. The category is
    that of the header, too, if record 2 has none.

    Args:
        row: The number of the row.
        envelope: The envelope.
        story: The part of its story to index.
        otherwise: The encoding if 1:90 is missing.
    """
    encoding = encoding_of(envelope.coded_character_set, otherwise)
    header = envelope.header

    def text(*values: Optional[bytes]) -> str:
        """Return values as text, one on each line."""
        return "\n".join(value.decode(encoding, "replace") for value in values if value)

    category = (envelope.category, *envelope.supplemental_categories)
    return (
        row,
        text(envelope.object_name or header.info),
        text(envelope.headline),
        text(*envelope.bylines),
        text(*envelope.keywords),
        text(*category) or text(header.category),
        text(envelope.city),
        text(envelope.country_name, envelope.country_code),
        text(story),
    )


class TextReader:
    """The rows of a file in the full-text index, as it is read.

    Attributes:
        rows: The rows of the envelopes that are complete.
    """

    def __init__(self, file: int, limits: iim.Limits, text: str, encoding: str) -> None:
        """Start a file.

        Args:
            file: The number of the file.
            limits: The limits on records 1 and 2.
            text: What to index: "fields" or "all".
            encoding: The encoding of envelopes without 1:90.
        """
        self.rows: List[TextRow] = []
        self._file = file
        self._has_story, self._encoding = text == "all", encoding
        self._receiver: Optional[Receiver] = Receiver(limits)
        self._story = b""

    def feed(self, buffer: memoryview) -> None:
        """Read the next bytes of the file. What follows a refusal is ignored."""
        piece, start = bytes(buffer), 0
        try:
            while self._receiver is not None and start < len(piece):
                used, story, envelope = self._receiver.feed(piece, start)
                start += used
                if self._has_story and len(self._story) < LONGEST_STORY:
                    self._story += story[: LONGEST_STORY - len(self._story)]
                if envelope is not None:
                    row = row_of_text(self._file, envelope.nth)
                    self.rows.append(text_row(row, envelope, self._story, self._encoding))
                    self._story = b""
        except iim.RefusedError:
            self._receiver = None
