"""The numbers of explanations and of their pages, computed again from the file."""
from __future__ import annotations

import html
import re
from typing import Dict, List

import damages
import rules
from envelopes import SMALLEST, STORY
from iim.explain import page as explain_page
from newsroom import COPIES, NORWEGIAN
from support.bindings.explaining import case_of, explained_samples, printed_text
from support.bindings.sentences import Claim, claims, file_of, number


def refused_files() -> Dict[str, bytes]:
    """Return files that are refused, also after other envelopes."""
    files = {name: damage.octets for name, damage in damages.damages().items()}
    files.update(
        (name, octets)
        for name, (octets, lines) in explained_samples().items()
        if any(" refused at " in line for line in lines)
    )
    for at in (SMALLEST.index(b"X1"), STORY.index(b"TST0007") + 2, SMALLEST.index(b"20240301")):
        whole = STORY if b"TST0007" in STORY[at - 4 : at + 8] else SMALLEST
        files[f"octet {at} lost"] = whole[:at] + whole[at + 1 :]
        files[f"octet {at} doubled"] = whole[: at + 1] + whole[at:]
    front = NORWEGIAN.octets
    for name in list(files)[::7]:
        files[f"after another, {name}"] = front + files[name]
    return files


def wrong(found: List[Claim]) -> List[Claim]:
    """Return what was printed otherwise than computed."""
    return [each for each in found if each.printed != each.computed]


def test_prints_the_numbers_of_the_file() -> None:
    count = 0
    for name, octets in refused_files().items():
        found = list(claims(octets, printed_text(case_of(octets))))
        assert (name, wrong(found)) == (name, [])
        count += len(found)
    assert count > 3_000, f"{count} numbers"


def page_rows(page: str) -> List[str]:
    """Return the rows of bytes of a page, as text."""
    shown = re.sub(r"<span class=vh>.*?</span>", "", page)
    rows = re.findall(r"<i>(<b>[0-9A-F]{8}</b>.*?)\n</i>", shown)
    return [html.unescape(re.sub(r"<[^>]*>", "", row)) for row in rows]


def test_shows_the_bytes_of_the_file_on_pages() -> None:
    files = refused_files()
    for name in [*list(files)[::6], "norwegian: HTML as the object"]:
        octets = files[name]
        file = file_of(octets)
        page = explain_page.page(case_of(octets))
        for row in page_rows(page):
            at = int(row[:8], 16)
            assert at <= len(octets), (name, row)
            cells = [row[9 + 3 * nth : 11 + 3 * nth] for nth in range(16)]
            for nth, cell in enumerate(cells):
                if cell.strip():
                    octet = octets[at + nth]
                    shown = chr(octet) if 32 <= octet < 127 else "."
                    text = row[58:][nth]
                    assert (name, row, cell, text) == (name, row, f"{octet:02X}", shown)
            if "[" in row[8:57]:
                mark = at + (row.index("[", 8) - 8) // 3
                assert (name, mark) == (name, file.at + file.octet)


def test_shows_the_offsets_of_the_file_on_pages() -> None:
    for name, copy in COPIES.items():
        octets = SMALLEST + copy.octets
        page = explain_page.page(case_of(octets, shows_all=True))
        assert f"Envelope 2, at octet {len(SMALLEST):,} of the file" in page
        own = page.partition("<article id=envelope2>")[2]
        rows = re.findall(
            r"href=#e2o(\d+)><small>([\d,]+)</small><span>(\d):(\d\d+)[^<]*, ([\d,]+) octets?<", own
        )
        assert len(rows) == own.count("octet</span>") + own.count("octets</span>"), name
        for anchor, at, record, dataset, size in rows:
            tag = copy.octets[number(at) : number(at) + 5]
            assert (int(anchor), tag[0]) == (number(at), 0x1C)
            read = tag[1], tag[2], int.from_bytes(tag[3:], "big")
            assert (int(record), int(dataset), number(size)) == read
            assert f"<a id=e2o{anchor}></a>" in own, at


def test_says_how_much_a_page_leaves_out() -> None:
    lines = [b"A line of the story %06d, which is long enough." % nth for nth in range(9_000)]
    octets = rules.packed(
        [field for field in COPIES["norwegian"].fields],
        rules.object_of(NORWEGIAN.head, lines, b""),
        30_000,
    )
    page = explain_page.page(case_of(octets[:-1] + b"\0"))
    own = page.partition("<article")[2]
    shown = re.sub(r"<span class=vh>.*?</span>", "", own)
    found = re.search(
        r"<i><b>([0-9A-F]{8})</b>([^\n]*)\n</i><span class=cut>\.\.\. ([\d,]+) octets are left out"
        r"</span>\n<i><b>([0-9A-F]{8})</b>([^\n]*)",
        shown,
    )
    assert found, "nothing is left out"
    before, after = (re.sub(r"<[^>]*>", "", found[nth]) for nth in (2, 5))
    last = int(found[1], 16) + max(
        nth for nth in range(16) if before[3 * nth + 1 : 3 * nth + 3].strip()
    )
    first = int(found[4], 16) + min(
        nth for nth in range(16) if after[3 * nth + 1 : 3 * nth + 3].strip()
    )
    assert number(found[3]) == first - last - 1


def test_prints_both_ends_of_a_long_story() -> None:
    lines = [b"Line %03d" % nth for nth in range(100)]
    octets = rules.packed(NORWEGIAN.fields, rules.object_of(NORWEGIAN.head, lines, b""), 8_192)
    text = printed_text(case_of(octets, shows_all=True))
    shown = re.findall(r"line(?:, CR LF)? +(Line \d+)", text)
    assert shown == [line.decode() for line in [*lines[:20], *lines[-20:]]]
    (until,) = re.findall(r"\.\.\. octets up to ([\d,]+) are left out", text)
    assert number(until) == octets.index(lines[80])


def test_lists_all_lines_of_a_story() -> None:
    for name, copy in COPIES.items():
        page = explain_page.page(case_of(copy.octets, shows_all=True))
        shown = [
            html.unescape(value)
            for value in re.findall(r"<span>line[^<]*</span>(?:<bdi>(.*?)</bdi>)?</a>", page)
        ]
        # (a line that is in two subfiles is shown in two parts)
        lines = [line.decode(copy.encoding) for line in copy.lines]
        assert (name, "".join(shown)) == (name, "".join(lines))
    text = printed_text(case_of(STORY, shows_all=True))
    assert re.findall(r"line, CR LF +(.*)", text) == ["Rates stay."]
