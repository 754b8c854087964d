"""Check the wording and the layout of the pages that are written by hand."""
from __future__ import annotations

import re
from pathlib import Path
from typing import Dict, Iterator, List, NamedTuple, Tuple

from pages import evidence, theorem
from pages.items import TOP

# The widest line of prose and of a table, the longest paragraph in lines, and the longest cell in
# words.
COLUMNS, COLUMNS_OF_A_ROW, LINES, WORDS = 100, 160, 8, 15
# The most lines of all these pages together, without generated pages and parts of pages.
MOST_LINES = 3000
GENERATED = re.compile(r"^<!-- tests/.*?^<!-- the end.*?$\n?", re.M | re.S)

# Words for which the field has a better one.
RETIRED = re.compile(
    r"\b(tell|tells|told|telling|alike|begun|mend|mends|mended|narrat\w*|hinder\w*|complains?|"
    r"endures?|twins?|patience|calm|recipes?|cooked|trials?|alive|dead|dies|spell(?:s|ed|ing)?|"
    r"so many|(?:has|have|had) to be|is none|are none|mistakes? in the words|want of memory|"
    r"wrong bod(?:y|ies)|at fault|(?:let|lets) out|(?:hand|hands|handed) on|"
    r"(?:give|gives|given) back|(?:pass|passes|passed) over|next in line|leads? to|"
    r"stands? (?:on|at|in|for|there|here|beside|under|above)|stood|who(?:ever)? has|"
    r"of (?:its|his|their) own|words of (?:bash|zsh|the command)|lies where|where it lies|owes?|"
    r"says? again|as ever|plain octets|first answers?|answers? (?:by|with|that|for))\b",
    re.I,
)

# Uses of such words that are fixed: terms that a page defines, what the format's specification
# states, headings of the vectors in quotation marks, and what the library prints for each cause.
FIXED_USES = (
    "first dead token",
    "is *alive* with",
    "it is *dead*",
    "A dead link",
)
FIXED = re.compile(r'^- \*\*(?:Meaning|Dataset named)\*\*: (?:.|\n  )*|"[^"]*"', re.M)

# The tables of the format have rows and cells as long as they need.
TABLES = ("docs/reference/format.md",)

# Each measured duration is on one page, and all others link to that page: what was measured, by the
# page and the words that state it. Scripts that mention it have the same words.
DURATIONS: Dict[Tuple[str, str], str] = {
    ("README.md", "16 minutes"): "the first build of the command",
    ("README.md", "57 minutes"): "the gate",
    ("docs/guide/relay.md", "3 minutes"): "the tutorial",
    ("docs/guide/relay.md", "one to two minutes"): "a part of the tutorial",
    ("docs/guide/building.md", "one to two minutes"): "an unproved build",
    ("docs/DECISIONS.md", "six to eight minutes"): "judging all mutants",
}
NUMBER = r"(?:\d+|half an|one|two|three|four|five|six|seven|eight|nine|ten|twenty|thirty)"
DURATION = re.compile(rf"\b{NUMBER}(?: (?:to|or) {NUMBER})? (?:minutes?|hours?)\b", re.I)
# The limit of an offset.
NO_DURATION = re.compile(r"less than 26 hours", re.I)
SCRIPTS = "iimwire", "build", "bindings/build", "packages/build"


class Page(NamedTuple):
    """A page that is written by hand: its path and its text."""

    path: str
    text: str


def pages() -> List[str]:
    """Return the paths of the pages that are written by hand."""
    top = Path(TOP)
    folders = "", "docs", "docs/guide", "samples", "tests/fuzz"
    found = [path for folder in folders for path in (top / folder).glob("*.md")]
    names = "README", "promises", "refusals", "questions", "causes", "format"
    found += [top / "docs" / "reference" / f"{name}.md" for name in names]
    return sorted(str(path.relative_to(top)) for path in found)


def text_of(path: str) -> str:
    """Return the text of a file of the repository."""
    return (Path(TOP) / path).read_text(encoding="utf-8")


def blank(found: "re.Match[str]") -> str:
    """Return as many line feeds as a match contains."""
    return "\n" * found[0].count("\n")


def without_code(text: str) -> str:
    """Return a page without its programs. Other text keeps its line numbers."""
    return re.sub(r"^ *```.*?^ *```$", blank, text, flags=re.M | re.S)


def prose_of(text: str) -> str:
    """Return a page without programs, code spans and fixed wording, with the same line numbers."""
    text = FIXED.sub(blank, without_code(text))
    for use in FIXED_USES:
        text = re.sub(re.escape(use).replace(r"\ ", r"\s+"), blank, text)
    text = re.sub(r"`[^`]*`", lambda span: "x" + blank(span), text)
    return re.sub(r"\]\([^)\s]*\)", "]", text)


def long_parts(text: str) -> Iterator[str]:
    """Yield the beginning of each paragraph and each cell that is too long."""
    for paragraph in re.split(r"\n(?:\s*\n|(?=\s*(?:[-*|#>]|\d+\.) ?))", text):
        # (a list of links is generated)
        if len(paragraph.strip().split("\n")) > LINES:
            if not paragraph.lstrip().startswith(("|", "It cites")):
                yield paragraph.strip()[:60]
    for row in re.findall(r"^\|.*", text, re.M):
        yield from (cell.strip()[:60] for cell in row.split("|") if len(cell.split()) > WORDS)


def wide_lines(text: str) -> Iterator[str]:
    """Yield the beginning of each line that is too wide. A heading may be as wide as a row."""
    for line in without_code(text).split("\n"):
        row = line.startswith(("|", "#", "![", "> |"))
        if len(line) > (COLUMNS_OF_A_ROW if row else COLUMNS):
            yield line[:80]


def durations(page: Page) -> Iterator[str]:
    """Yield each duration that its page does not state, or that another page states differently."""
    said = NO_DURATION.sub("", " ".join(prose_of(page.text).split()))
    for found in DURATION.findall(said):
        if (page.path, found) not in DURATIONS:
            yield f"the duration {found} is not in DURATIONS"


def lost_durations(texts: Dict[str, str]) -> Iterator[Tuple[str, str]]:
    """Yield each duration that its page or a script does not state as this module does."""
    for path, words in DURATIONS:
        if words not in " ".join(texts[path].split()):
            yield path, f"does not state the duration {words}"
    known = {words for _, words in DURATIONS}
    for script in SCRIPTS:
        for found in re.findall(r"\bit took (\d+ minutes)", text_of(script)):
            if found not in known:
                yield script, f"the duration {found} is not in DURATIONS"


def faults_of(page: Page) -> Iterator[str]:
    """Yield what is wrong with a page, as the number or the beginning of the line."""
    text = re.sub(r"^\|.*", "", page.text, flags=re.M) if page.path in TABLES else page.text
    prose = prose_of(text)
    yield from (line[:80] for line in prose.split("\n") if RETIRED.search(line))
    yield from wide_lines(text)
    yield from long_parts(prose)
    yield from durations(page)


def length(text: str) -> int:
    """Return how many lines of a page are written by hand, outside of generated parts."""
    text = GENERATED.sub("", text)
    return len(theorem.SHOWN.sub(r"\1\3", text).splitlines())


def too_long(texts: Dict[str, str]) -> Iterator[Tuple[str, str]]:
    """Yield the number of lines of all pages together, if there are too many.

    Generated pages do not count.
    """
    generated = evidence.wanted()
    lines = sum(length(text) for path, text in texts.items() if path not in generated)
    if lines > MOST_LINES:
        yield "all pages", f"{lines} lines"


def faults() -> List[Tuple[str, str]]:
    """Return what is wrong with the pages, as pairs of the page and the line."""
    texts = {path: text_of(path) for path in pages()}
    wrong = [(path, fault) for path, text in texts.items() for fault in faults_of(Page(path, text))]
    return [*wrong, *too_long(texts), *lost_durations(texts)]
