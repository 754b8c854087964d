"""Generate the HTML page of iim-explain: bytes on the left, their meaning on the right.

The page has no script and loads nothing.
"""
from __future__ import annotations

import datetime
import html
import itertools
import re
from pathlib import Path
from typing import Iterable, Iterator, List, NamedTuple, Optional, Sequence, Tuple

import iim
from iim.explain.case import Case, Whole
from iim.explain.causes import CAUSES, sentence
from iim.explain.release import release
from iim.explain.sections import Section, sections
from iim.explain.text import FIRST
from iim.explain.walk import TEXT_OCTETS, Item
from iim.explain.words import counted, plain, printable, shown
from iim.safe_output import PAGE_HEAD

# The number of items, story lines and bytes shown at each end of all envelopes; and of bytes of a
# dataset.
ITEMS, LINES, OCTETS, DATA = 1_500, 1_000, 115_000, 1_024
# The number of items in one part of the page. A browser highlights only within the part, which is
# fast.
TOGETHER = 64
# The number of bytes shown before the rejected one and after it.
BEFORE, AFTER = 64, 48

# The reference: in a clone, and as a package installs it.
REFERENCES = [
    *(top / "docs" / "reference" for top in [*Path(__file__).resolve().parents][5:6]),
    Path("/usr/share/doc/iimwire/docs/reference"),
]
# The style of the page.
STYLE = Path(__file__).with_name("page.css")
LIGHT = "{ background: var(--lit) }"


class Span(NamedTuple):
    """A span of bytes of an envelope that is shown.

    Attributes:
        begin: The offset of its first byte.
        end: The offset after its last byte.
        key: The CSS class of the item that it belongs to.
        tag: Whether it belongs to a tag.
        part: The number of the part of the page.
    """

    begin: int
    end: int
    key: str
    tag: bool
    part: int


class Group(NamedTuple):
    """Contiguous spans of one part of the page.

    Attributes:
        before: The end of the spans shown before them.
        spans: The spans.
    """

    before: int
    spans: List[Span]


def page(case: Case, notes: Sequence[str] = ()) -> str:
    """Return the page of a file.

    Args:
        case: The file.
        notes: Sentences that are shown under the verdict.
    """
    name = html.escape(printable(case.source.name))
    explained = list(sections(case))
    first = "".join(card(case, each) for each in explained if each.title in FIRST)
    later = "".join(card(case, each) for each in explained if each.title not in FIRST)
    near = ""
    if case.refusal:
        near = f"<section><h2>Bytes around the error</h2><pre>{around(case)}</pre></section>"
    wholes = "".join(article(case, whole) for whole in case.wholes)
    lit = ",".join(f".part:has(.{key}:hover) .{key}" for key in map(key_of, range(TOGETHER)))
    explanation = f"<section class=told>{first}</section>" if first else ""
    more = f"<section class=told>{later}</section>" if later else ""
    style = STYLE.read_text(encoding="utf-8")
    policy = "default-src 'none'; style-src 'unsafe-inline'"
    return (
        f"{PAGE_HEAD}<title>{name}</title>"
        f'<meta http-equiv="Content-Security-Policy" content="{policy}">'
        '<meta name="viewport" content="width=device-width">'
        f"<style>{style}{lit}{LIGHT}</style></head>\n"
        f"<body>{skip_link(case)}<header><h1>{name}</h1>{verdict(case, notes)}</header>\n"
        f"<main id=main>{explanation}{near}{listing(case)}{more}{of_cause(case)}{wholes}"
        f"</main>{footer(case)}</body></html>\n"
    )


def skip_link(case: Case) -> str:
    """Return the link to the bytes, which is the first that the keyboard reaches."""
    if not case.wholes:
        return "<a class=skip href=#main>Skip to the content</a>"
    nth = case.wholes[-1].found.nth
    return f"<a class=skip href=#envelope{nth}>Skip to the bytes of envelope {nth:,}</a>"


def verdict(case: Case, notes: Sequence[str]) -> str:
    """Return the verdict, as the largest line, and the notes."""
    kind = "bad" if case.refusal else "good"
    badge = "Refused" if case.refusal else "Accepted" if case.count else "Empty"
    lines = "".join(f"<p class=note>{html.escape(note)}</p>" for note in notes)
    text = html.escape(case.verdict())
    return f"<p class=verdict><strong class={kind}>{badge}</strong> {text}</p>{lines}"


def key_of(nth: int) -> str:
    """Return the CSS class that joins the bytes of an item to their meaning, within a part."""
    return f"k{nth % TOGETHER}"


def card(case: Case, section: Section) -> str:
    """Return a section of the explanation of a refusal."""
    parts: List[str] = []
    for line in section.lines:
        number, _, rest = line.partition(". ")
        if number.isdigit():
            parts.append(f"<ol class=fixes><li>{html.escape(rest)}</li></ol>")
            continue
        text = html.escape(line)
        if "&gt;" in text and "&lt;" in text and line.count(">") == 1:
            marked = text.replace("&gt;", "<b>&gt;").replace("&lt;", "&lt;</b>")
            parts.append(f"<p class=bar>{marked}</p>")
        else:
            is_ask = section.title == "What to do" and line == case.ask
            parts.append(f"<p{' class=ask' * is_ask}>{linked(case, text)}</p>")
    body = "".join(parts).replace("</ol><ol class=fixes>", "")
    return f"<div><h2>{html.escape(section.title)}</h2>{body}</div>"


def linked(case: Case, text: str) -> str:
    """Return a text of HTML in which the name of the cause, and of a document, is a link."""
    refusal = case.refusal
    if refusal is not None:
        named = f"Cause {refusal.cause} {refusal.cause_name}"
        link = f"<a href=#cause{refusal.cause}>{named}</a>"
        text = text.replace(named, link, 1)
    return of_documents(text)


def of_documents(text: str) -> str:
    """Return a text of HTML with links to documents, and with code, in place of backticks."""
    text = re.sub(r"`(format[.]md)`", f'<a href="{document("format.md")}">\\1</a>', text)
    return re.sub(r"`([^`<]*)`", r"<code>\1</code>", text)


def document(name: str) -> str:
    """Return the link to a page of the reference: where it is installed, or in a clone."""
    for folder in REFERENCES:
        if (folder / name).is_file():
            return html.escape((folder / name).as_uri())
    return f"docs/reference/{name}"


def of_cause(case: Case) -> str:
    """Return what the page of causes has of the cause of a refusal."""
    if case.refusal is None:
        return ""
    number, name = case.refusal.cause, case.refusal.cause_name
    entry = CAUSES[number]
    link = f"{document('causes.md')}#{number}-{name.lower()}"
    return (
        f"<section id=cause{number}><h2>Cause {number} {name}</h2>"
        f"<p>{html.escape(sentence(number))}</p>"
        f"<p>Likely reasons in general: {of_documents(html.escape(entry.reason))}.</p>"
        f"<p>What to do: {of_documents(html.escape(entry.advice))}.</p>"
        f'<p><a href="{link}">All causes</a></p></section>'
    )


def listing(case: Case) -> str:
    """Return the table of the envelopes, or nothing if none was accepted."""
    if not case.count:
        return ""
    heads = "Envelope", "At octet", "Octets", "Service", "Number", "Date sent", "Result"
    head = "".join(f"<th scope=col>{each}</th>" for each in heads)
    body, before = [], 0
    for found in case.listed():
        if found.nth > before + 1:
            more = counted(found.nth - before - 1, "envelope")
            body.append(f"<tr><td colspan=7>... {more} between them</td></tr>")
        before = found.nth
        is_refused = case.refusal is not None and found.nth == case.refusal.nth
        parts = ["?" if part is None else shown(part) for part in found.id]
        cells = [f"{found.at:,}", f"{found.length:,}", *parts]
        cells.append("REFUSED" if is_refused else "accepted")
        row = "".join(f"<td>{html.escape(cell)}</td>" for cell in cells)
        body.append(f"<tr><th scope=row>{found.nth:,}</th>{row}</tr>")
    rows = "".join(body)
    return (
        "<section><h2>Envelopes</h2><table><thead><tr>"
        f"{head}</tr></thead><tbody>{rows}</tbody></table></section>"
    )


def footer(case: Case) -> str:
    """Return what makes the page evidence: the file, its size and checksum, the release, when."""
    now = datetime.datetime.now(datetime.timezone.utc)
    name = html.escape(printable(Path(case.source.name).name))
    return (
        "<footer class=evidence>"
        f"<p>File <b>{name}</b>, {counted(case.source.size, 'octet')}</p>"
        f"<p>SHA-256 <code>{case.sha_256}</code></p>"
        f"<p>iim-explain, release {release()}, at {now:%Y-%m-%dT%H:%M:%SZ}</p></footer>"
    )


def around(case: Case) -> str:
    """Return the bytes around the rejected one."""
    refusal = case.refusal
    if refusal is None:
        return ""
    mark = refusal.octet_in_file
    begin, end = max(0, mark - BEFORE), min(case.source.size, mark + AFTER)
    spans = [Span(begin, mark, "", False, 0), Span(mark, end, "later", False, 0)]
    return "".join(rows(case, 0, joined(spans), "around"))


# --- An envelope


def article(case: Case, whole: Whole) -> str:
    """Return an envelope: its bytes and their meaning."""
    of_all = max(1, len(case.wholes))
    items = list(whole.items(ITEMS // of_all, LINES // of_all))
    groups = list(joined(within(list(spans(whole, items)), OCTETS // of_all)))
    texts = [*whole.instants(), *whole.sizes()]
    nth, at = whole.found.nth, whole.found.at
    numbers = range(1 + max(0, len(items) - 1) // TOGETHER)
    parts = "".join(part_of(case, whole, items, groups, part) for part in numbers)
    notes = "".join(f"<p>{html.escape(text)}</p>" for text in texts)
    encoding = ""
    if any(item.text is not None for item in whole.walk.items):
        encoding = f"<p class=note>{html.escape(str(whole.encoding))}</p>"
    return (
        f"<article id=envelope{nth}><h2>Envelope {nth:,}, at octet {at:,} of the file</h2>"
        f"{encoding}{parts}<div class=notes>{notes}</div></article>\n"
    )


def part_of(
    case: Case, whole: Whole, items: List[Optional[Item]], groups: List[Group], part: int
) -> str:
    """Return one part of an envelope: the bytes of some items and their meaning."""
    prefix, together = f"e{whole.found.nth}", items[part * TOGETHER : (part + 1) * TOGETHER]
    own = (group for group in groups if group.spans[0].part == part)
    octets = "".join(rows(case, whole.found.at, own, prefix))
    return (
        '<div class=part><pre role=group aria-label="Bytes; the list after them has their meaning">'
        f'{octets}</pre><ol aria-label="Meaning of the bytes">'
        f'{"".join(meaning(whole, together, prefix))}</ol></div>'
    )


def spans(whole: Whole, items: List[Optional[Item]]) -> Iterator[Span]:
    """Yield the spans of bytes that are shown, in order."""
    for nth, item in enumerate(items):
        if item is None:
            continue
        key, part, begin, end = key_of(nth), nth // TOGETHER, item.at, item.at + item.length
        if item.kind == "dataset":
            begin = item.at + item.head
            yield Span(item.at, begin, key, True, part)
            end = begin if item.record == 8 else min(end, begin + DATA)
        yield Span(begin, min(end, whole.found.length), key, False, part)
    if whole.refusal is not None and whole.tries is not None and not whole.tries.ends:
        begin, part = whole.found.length, max(0, len(items) - 1) // TOGETHER
        yield Span(begin, begin + AFTER, "later", False, part)


def within(parts: List[Span], most: int) -> List[Span]:
    """Return the spans at both ends that have at most `most` bytes together."""
    sizes = [part.end - part.begin for part in parts]
    if sum(sizes) <= most:
        return parts
    half, from_end = most // 2, sizes[::-1]
    front = [part for part, end in zip(parts, itertools.accumulate(sizes)) if end <= half]
    back = [part for part, end in zip(parts[::-1], itertools.accumulate(from_end)) if end <= half]
    # (a single span may be longer)
    first, last = parts[0], parts[-1]
    front = front or [first._replace(end=min(first.end, first.begin + half))]
    back = back or [last._replace(begin=max(last.begin, last.end - half))]
    return [*front, *reversed(back)]


def joined(spans: List[Span]) -> Iterator[Group]:
    """Yield the groups of contiguous spans.

    Bytes that an earlier span has are removed from a span.
    """
    last = 0
    group = Group(0, [])
    for span in spans:
        span = span._replace(begin=max(span.begin, last))
        if span.begin >= span.end:
            continue
        if group.spans and (span.begin > last or span.part != group.spans[-1].part):
            yield group
            group = Group(last, [])
        group.spans.append(span)
        last = span.end
    if group.spans:
        yield group


def rows(case: Case, at: int, groups: Iterable[Group], prefix: str) -> Iterator[str]:
    """Yield the rows of sixteen bytes, and a note for bytes that are left out."""
    mark = case.refusal.octet_in_file - at if case.refusal else -1
    for before, spans in groups:
        begin, end = spans[0].begin, min(spans[-1].end, case.source.size - at)
        if begin > before and prefix != "around":
            yield f'<span class=cut>... {counted(begin - before, "octet")} are left out</span>\n'
        octets = case.source.take(at + begin, end - begin)
        owners = [span for span in spans for _ in range(span.begin, min(span.end, end))]
        owned = list(zip(octets, owners))
        for row in range((at + begin) // 16 * 16, at + end, 16):
            yield row_of(row - at, at, begin, owned, mark, prefix)
        if isinstance(case.refusal, iim.TruncatedError) and end == mark:
            yield "         [<mark>the file ends here</mark>]\n"


def row_of(
    row: int, at: int, begin: int, owned: List[Tuple[int, Span]], mark: int, prefix: str
) -> str:
    """Return the row at an offset: its address, its bytes in spans of their items, and its text."""
    cells: List[str] = []
    texts: List[str] = []
    last = ""
    for octet in range(row, row + 16):
        is_owned = begin <= octet < begin + len(owned)
        value, part = owned[octet - begin] if is_owned else (0, None)
        names, anchor, cell, text = "", "", "  ", " "
        if part is not None:
            names = f"{part.key}{' t' if part.tag else ''}".strip()
            cell, text = cell_of(value, octet == mark, prefix)
            if octet == part.begin and prefix != "around":
                anchor = f"<a id={prefix}o{octet}></a>"
        between = "[" if octet == mark and part is not None else " "
        if octet == mark + 1 and mark >= begin:
            between = "]"
        if names == last:
            cells.append(f"{between}{anchor}{cell}")
        else:
            cells += "</span>" * bool(last), between, anchor
            cells += f'<span class="{names}">' * bool(names), cell
        texts.append(text)
        last = names
    ends_marked = mark == row + 15 and begin <= mark < begin + len(owned)
    close = "</span>" * bool(last) + ("]" if ends_marked else " ")
    return f"<i><b>{at + row:08X}</b>{''.join(cells)}{close} {''.join(texts)}\n</i>"


def cell_of(value: int, is_marked: bool, prefix: str) -> Tuple[str, str]:
    """Return a byte in hexadecimal and as text."""
    cell, text = f"{value:02X}", html.escape(plain(bytes([value])))
    if not is_marked:
        return cell, text
    hidden = f"<mark id={prefix}r><span class=vh>refused: </span>"
    return f"{hidden}{cell}</mark>", f"<mark>{text}</mark>"


def meaning(whole: Whole, items: List[Optional[Item]], prefix: str) -> Iterator[str]:
    """Yield the meaning of the bytes as items of a list.

    The parts of a message are a nested list.
    """
    inside = False
    for nth, item in enumerate(items):
        if item is None:
            yield "<li class=cut>... some are left out</li>"
            continue
        if (item.kind != "dataset") != inside:
            yield "</ol></li>" if inside else "<li><ol>"
            inside = not inside
        here = whole.tries is not None and item is whole.tries.here
        label = item.label
        if item.size is not None:
            label += f", {counted(item.size, 'octet')}"
        refused = " <b class=here>refused here</b>" if here else ""
        value = html.escape(whole.value(item, TEXT_OCTETS))
        shown_value = f"<bdi>{value}</bdi>" if value else ""
        yield (
            f'<li class="{key_of(nth)}"><a tabindex=-1 href=#{prefix}o{item.at}>'
            f"<small>{item.at:,}</small><span>{html.escape(label)}</span>{shown_value}{refused}"
            "</a></li>"
        )
    if inside:
        yield "</ol></li>"
