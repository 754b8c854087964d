"""The rules that the pages of explanations follow, in a browser."""
from __future__ import annotations

import datetime
import hashlib
import re
import time
from pathlib import Path

import damages
import pytest
from envelopes import STORY
from iim.explain import page as explain_page
from newsroom import COPIES, NORWEGIAN
from pages import causes
from support.bindings.accessibility import broken_rules, printed_columns
from support.bindings.browser import (
    PICTURED,
    WINDOW,
    Controlled,
    chunks_of,
    digest_of,
    pictured_page,
)
from support.bindings.explaining import BAD_DATE, case_of, elements, explained_samples
from support.bindings.paths import TOP
from support.bindings.running import write_file

CORPUS = damages.damages()
RELEASED = [copy.octets for copy in COPIES.values()]
# Six pages: a bad value, a lost octet, a file that is no IIM, several envelopes, an accepted one
# and a message that is wrong.
PAGES = {
    "value": explain_page.page(case_of(BAD_DATE)),
    "octet": explain_page.page(case_of(CORPUS["russian: 1 octet of a subfile lost"].octets)),
    "foreign": explain_page.page(case_of(CORPUS["norwegian: gzip"].octets)),
    "many": explain_page.page(case_of(b"".join(RELEASED) * 20 + b"\n", shows_all=True)),
    "accepted": explain_page.page(case_of(NORWEGIAN.octets, shows_all=True)),
    "message": explain_page.page(case_of(CORPUS["norwegian: words missing"].octets)),
}


def test_follows_the_rules_of_accessible_pages(folder: str) -> None:
    with Controlled(folder) as asked:
        for name, page in PAGES.items():
            path = write_file(folder, f"{name}.html", page.encode())
            assert (name, broken_rules(asked, path)) == (name, [])
        # (and on paper)
        columns = printed_columns(asked, f"{folder}/octet.html")
        assert columns and columns == [[True, True, True]] * len(columns)


# A change of a page, and a word of the rule that it breaks.
BREAKING = [
    ("<p class=verdict>", "<p class=verdict style='color:#888'>", "contrast"),
    ("<th scope=col>", "<th>", "no scope"),
    (' lang="en"', "", "no language"),
    ("<a class=skip", "<a class=none", "no skip link"),
    ("tabindex=-1 ", "", "tab stops"),
    ("<main id=main>", "<main id=main><p style='width:1500px;margin:0'>wide</p>", "sideways"),
    ("padding: 2px 4px", "padding: 0", "target of"),
    (".verdict { font-size: 24px", ".verdict { font-size: 12px", "as large as the verdict"),
    ("white-space: pre-wrap }", "white-space: pre; overflow-x: auto }", "keyboard"),
    (".part li a {", ".part a {", "a broken row"),
    ("--lit: #4a3c00", "--lit: #6b5600", "contrast"),
    ("--dim: #4f5965", "--dim: #7d8894", "contrast"),
]


def test_detects_broken_rules(folder: str) -> None:
    page = PAGES["accepted"]
    with Controlled(folder) as asked:
        for old, new, word in BREAKING:
            assert old in page, old
            path = write_file(folder, "broken.html", page.replace(old, new).encode())
            found = [rule for broken in broken_rules(asked, path) for rule in broken.rules]
            assert any(word in rule for rule in found), (new, found)


def test_has_a_footer_that_is_evidence(folder: str) -> None:
    page = explain_page.page(case_of(BAD_DATE, name="ntb/wire.iim"))
    footer = page.partition("<footer class=evidence>")[2].partition("</footer>")[0]
    assert "File <b>wire.iim</b>, 246 octets" in footer
    assert f"<code>{hashlib.sha256(BAD_DATE).hexdigest()}</code>" in footer
    assert re.search(r"release \d+, at \d{4}-\d\d-\d\dT\d\d:\d\d:\d\dZ", footer), footer


def test_gives_the_time_in_utc(monkeypatch: pytest.MonkeyPatch) -> None:
    # (eleven hours before universal time: no clock shows the same)
    monkeypatch.setenv("TZ", "TST+11")
    time.tzset()
    try:
        page = explain_page.page(case_of(BAD_DATE))
    finally:
        monkeypatch.undo()
        time.tzset()
    (text,) = re.findall(r", at ([0-9TZ:-]+)</p>", page)
    given = datetime.datetime.strptime(text, "%Y-%m-%dT%H:%M:%SZ")
    now = datetime.datetime.now(datetime.timezone.utc).replace(tzinfo=None)
    assert datetime.timedelta(0) <= now - given < datetime.timedelta(minutes=30)


def test_lists_the_envelopes_of_the_file() -> None:
    octets = STORY * 99 + BAD_DATE
    page = explain_page.page(case_of(octets))
    table = page.partition("<h2>Envelopes</h2>")[2].partition("</table>")[0]
    rows = re.findall(r"<tr><th scope=row>([\d,]+)</th>(.*?)</tr>", table)
    numbers = [int(nth.replace(",", "")) for nth, _ in rows]
    assert numbers == [*range(1, 41), *range(60, 101)]
    for number, (_, cells) in zip(numbers, rows):
        at = (number - 1) * len(STORY)
        last = BAD_DATE.index(b"20230229") + 7
        own = re.findall(r"<td>(.*?)</td>", cells)
        if number < 100:
            want = [f"{at:,}", f"{len(STORY):,}", "TST", "00000002", "20240301", "accepted"]
        else:
            want = [f"{at:,}", str(last), "TST", "00000002", "?", "REFUSED"]
        assert own == want
    assert re.findall(r"colspan=7>(.*?)<", table) == ["... 19 envelopes between them"]


def test_shows_the_bytes_around_the_error() -> None:
    octets = STORY * 3 + BAD_DATE
    page = explain_page.page(case_of(octets))
    near = page.partition("<h2>Bytes around the error</h2><pre>")[2].partition("</pre>")[0]
    shown = re.sub(r"<span class=vh>.*?</span>|<[^>]*>", "", near)
    mark = 3 * len(STORY) + BAD_DATE.index(b"20230229") + 7
    rows = [line for line in shown.splitlines() if line]
    cells = "".join(re.sub(r"[\[\] ]", "", row[8:57]) for row in rows)
    assert bytes.fromhex(cells) == octets[mark - 64 : mark + 48]
    (marked,) = re.findall(r"\[([0-9A-F]{2})\]", shown)
    assert int(marked, 16) == octets[mark]


def test_links_causes_to_their_page(folder: str) -> None:
    headings = re.findall(r"^### (.*)$", Path(TOP, "docs/reference/causes.md").read_text(), re.M)
    anchors = {heading.lower().replace(" ", "-") for heading in headings}
    for name, (octets, _) in explained_samples().items():
        case = case_of(octets)
        if case.refusal is None:
            continue
        page = explain_page.page(case)
        links = [item["href"] for tag, item in elements(page) if tag == "a" and "href" in item]
        (anchor,) = [link.partition("#")[2] for link in links if "causes.md" in link]
        assert (name, anchor in anchors) == (name, True)
        assert f"#cause{case.refusal.cause}" in links, name
    assert len(list(causes.causes())) <= len(headings)


def test_has_no_marks_of_markdown() -> None:
    linked = 0
    for name, (octets, _) in explained_samples().items():
        page = explain_page.page(case_of(octets))
        told = re.sub(
            r"<article.*?</article>|<pre>.*?</pre>|<style>.*?</style>", "", page, flags=re.S
        )
        assert (name, "`" in told) == (name, False)
        linked += told.count('format.md">format.md</a>')
    assert linked > 3


def test_has_the_picture_that_the_guide_describes() -> None:
    guide = " ".join(Path(TOP, "docs/guide/explain.md").read_text().split())
    found = re.search(r"the page of `([^`]+)` in a window of ([\d,]+) by ([\d,]+) pixels", guide)
    assert found, "the guide has no picture"
    size = tuple(int(side.replace(",", "")) for side in found.groups()[1:])
    assert (found[1], size) == (PICTURED, WINDOW)
    picture = Path(TOP, "docs/explain.png").read_bytes()
    assert picture[:8] == b"\x89PNG\r\n\x1a\n"
    chunks = list(chunks_of(picture))
    kind, header = chunks[0]
    assert (kind, int.from_bytes(header[:4], "big"), int.from_bytes(header[4:8], "big")) == (
        b"IHDR",
        *size,
    )
    (digest,) = [data.partition(b"\0")[2] for kind, data in chunks if kind == b"tEXt"]
    again = "python3 -m support.bindings.browser docs/explain.png makes it anew"
    assert digest == digest_of(pictured_page()), again


def test_shows_notes_under_the_verdict(folder: str) -> None:
    page = explain_page.page(case_of(STORY), ["The file was changed <since>."])
    assert "</p><p class=note>The file was changed &lt;since&gt;.</p>" in page
