"""Write an explanation as text."""
from __future__ import annotations

import textwrap
from pathlib import Path
from typing import Iterator, List, Optional

import iim
from iim.explain.case import Case, Found, Whole
from iim.explain.charsets import columns_of, isolated
from iim.explain.sections import Section, sections
from iim.explain.walk import Item
from iim.explain.words import counted, fitted, plain, printable, shown

# The number of items and of story lines at each end of an envelope that are shown.
ITEMS, LINES = 80, 20
# The maximum columns of prose.
COLUMNS = 80
# The datasets of an id, which is never truncated.
OF_ID = (1, 30), (1, 40), (1, 70)
# The sections that come first: the others follow the list of the envelopes.
FIRST = "Empty file", "Where", "Why", "What to do"


class Paint:
    """Colour text for a terminal, or leave it as it is."""

    CODES = {"title": "1", "bad": "1;31", "good": "32", "dim": "2"}

    def __init__(self, colours: bool) -> None:
        """Choose whether to colour text."""
        self._colours = colours

    def __call__(self, kind: str, text: str) -> str:
        """Return a text in the colour of a kind."""
        return f"\033[{self.CODES[kind]}m{text}\033[0m" if self._colours and text.strip() else text


def wrapped(text: str, columns: int, indent: str = "  ", hanging: str = "  ") -> List[str]:
    """Return a paragraph as lines."""
    return textwrap.wrap(
        text, columns, initial_indent=indent, subsequent_indent=hanging, break_on_hyphens=False
    )


def heading(case: Case, paint: Paint, columns: int) -> Iterator[str]:
    """Yield the name of the file and the verdict, in one line if they fit."""
    verdict, kind = case.verdict(), "bad" if case.refusal else "good"
    called = printable(case.source.name), printable(Path(case.source.name).name)
    fits = [each for each in called if columns_of(each) + len(verdict) + 2 <= columns]
    if fits:
        yield paint("title", fits[0]) + ": " + paint(kind, verdict)
        return
    yield paint("title", called[0]) + ":"
    yield from (paint(kind, line) for line in wrapped(verdict, columns))


def lines(case: Case, paint: Paint, columns: int = COLUMNS) -> Iterator[str]:
    """Yield the output: prose in at most 80 columns, and rows in at most `columns`."""
    prose = min(columns, COLUMNS)
    yield from heading(case, paint, prose)
    explained = list(sections(case))
    for section in explained:
        if section.title in FIRST:
            yield from of_section(case, section, paint, prose)
    yield from listing(case, paint)
    for section in explained:
        if section.title not in FIRST:
            yield from of_section(case, section, paint, prose)
    for whole in case.wholes:
        yield from of_envelope(whole, paint, columns)
    if case.refusal is not None and case.wholes:
        yield from ("", *wrapped(case.ask, prose, "", ""))


def of_section(case: Case, section: Section, paint: Paint, prose: int) -> Iterator[str]:
    """Yield a section."""
    yield from ("", paint("title", section.title.upper()))
    for line in section.lines:
        is_item = line.partition(". ")[0].isdigit()
        yield from wrapped(line, prose - 2, hanging="     " if is_item else "  ")
    if section.title == "Where":
        yield from dump(case, paint)


def of_envelope(whole: Whole, paint: Paint, columns: int) -> Iterator[str]:
    """Yield the items of an envelope, and what they mean together."""
    prose = min(columns, COLUMNS)
    title = paint("title", f"ENVELOPE {whole.found.nth:,}")
    yield from ("", f"{title}  at octet {whole.found.at:,} of the file")
    if any(item.text is not None for item in whole.walk.items):
        yield from wrapped(str(whole.encoding), prose)
    yield from of_items(whole, paint, columns)
    for text in (*whole.instants(), *whole.sizes()):
        yield from wrapped(text, prose)


def id_of(found: Found) -> str:
    """Return the identifier of an envelope as text."""
    return " ".join("?" if part is None else shown(part) for part in found.id)


def listing(case: Case, paint: Paint) -> Iterator[str]:
    """Yield a line for each listed envelope, if there is another than the rejected one."""
    rows = list(rows_of_listing(case))
    if rows:
        yield from ("", paint("title", "ENVELOPES"))
        yield from rows


def rows_of_listing(case: Case) -> Iterator[str]:
    """Yield a line for each listed envelope.

    It is never truncated, since it ends in an id.
    """
    listed = case.listed()
    if not case.count:
        return
    rows = [(f"{found.nth:,}", f"{found.at:,}", f"{found.length:,}") for found in listed]
    nth, at, length = (max(map(len, column)) for column in zip(*rows))
    before = 0
    for found, row in zip(listed, rows):
        if found.nth > before + 1:
            more = counted(found.nth - before - 1, "envelope")
            yield f"  ... {more}: --envelope N shows one of them"
        before = found.nth
        refused = "  REFUSED" if case.refusal and found.nth == case.refusal.nth else ""
        size = f"{row[2]:>{length}} octets"
        yield f"  {row[0]:>{nth}}  at {row[1]:<{at}}  {size}  {id_of(found)}{refused}"
    if not case.shows_all and case.wanted is None:
        yield "  (--all shows their octets, and --envelope N those of one)"


def dump(case: Case, paint: Paint) -> Iterator[str]:
    """Yield a hexadecimal dump of the bytes around the rejected one, which is marked."""
    if case.refusal is None:
        return
    mark, ends = case.refusal.octet_in_file, isinstance(case.refusal, iim.TruncatedError)
    yield ""
    for row in range(max(0, mark // 16 - 3) * 16, min(case.source.size + ends, mark + 32), 16):
        octets = case.source.take(row, 16)
        cells = [f"{octet:02X}" for octet in octets] + ["  "] * (16 - len(octets))
        marks = [
            "[" if row + nth == mark else "]" if row + nth == mark + 1 and nth else " "
            for nth in range(17)
        ]
        if row <= mark < row + 16:
            nth = mark - row
            cells[nth] = paint("bad", cells[nth])
            marks[16] = "]" if nth == 15 else " "
        marked = "".join(mark + cell for mark, cell in zip(marks, [*cells, ""]))
        yield f"  {row:08X} {marked} {plain(octets)}"
    if ends:
        yield "  (the file ends at the mark)"


def of_items(whole: Whole, paint: Paint, columns: int) -> Iterator[str]:
    """Yield a line for each dataset and for each part of the message."""
    before: Optional[Item] = None
    skipped = False
    for item in whole.items(ITEMS, LINES):
        if item is None:
            skipped = True
            continue
        if before and (skipped or item.at > before.at + before.length and before.kind != "dataset"):
            yield f"  ... octets up to {item.at:,} are left out"
        yield from rows_of(whole, item, paint, columns)
        before, skipped = item, False


def rows_of(whole: Whole, item: Item, paint: Paint, columns: int) -> Iterator[str]:
    """Yield the line of an item. A value that is too long for it ends in `...`.

    Text that is not plain ASCII is followed by its bytes, in brackets.
    """
    is_refused = whole.tries is not None and item is whole.tries.here
    size = "" if item.size is None else f", {item.size:,}"
    front = f"  {item.at:>10,}  {'    ' * (item.kind != 'dataset') + item.label + size:<34} "
    mark = "  <-- here" if is_refused else ""
    most = columns - columns_of(front) - len(mark)
    is_whole = (item.record, item.number) in OF_ID
    value = item.value if is_whole else fitted(whole.value(item, 256), most)
    octets = "" if item.text is None or value.isascii() else f"[{item.value}]"
    fits = octets and columns_of(value) + 2 + len(octets) <= most
    text = (front + isolated(value) + f"  {octets}" * bool(fits)).rstrip() + mark
    yield paint("bad", text) if is_refused else text
    if octets and not fits:
        yield " " * min(columns_of(front), 47) + fitted(octets, most)
