"""Pages of explanations in Chromium."""
from __future__ import annotations
import pytest

import html
import re

from envelopes import STORY
from iim.explain import page as explain_page
from support.bindings.browser import Controlled, MARK, opened, pixels
from support.bindings.explaining import (
    longest_shown,
    BAD_DATE,
    case_of,
    elements,
    explained_samples,
)
from support.bindings.running import write_file


# The pairs of pages that are opened at most, and the time that the page of a long envelope may
# take, as a multiple of that of a plain page with the same text, in the best of these pairs.
PAIRS, MOST_TIMES = 30, 3.0


@pytest.mark.xdist_group("alone")
def test_opens_nearly_as_fast_as_a_plain_page(folder: str) -> None:
    page = explain_page.page(case_of(longest_shown()[:-1] + b"\0"))
    assert "left out" not in page and page.count("<li") > 1_150, "lines are left out"
    words = html.unescape(re.sub("<style>.*?</style>|<[^>]*>", "", page, flags=re.S))
    plain = f"<!doctype html><title>plain</title><pre>{html.escape(words)}</pre>"
    paths = [
        write_file(folder, f"{name}.html", text.encode())
        for name, text in (("long", page), ("plain", plain))
    ]
    best = float("inf")
    with Controlled(folder) as asked:
        for _ in range(PAIRS):
            # (one after the other, so that other work of the machine slows both)
            taken, baseline = map(asked.seconds, paths)
            best = min(best, taken / baseline)
            if best <= MOST_TIMES:
                break
    assert best <= MOST_TIMES, f"it takes {best:.1f} times as long as a plain page"


def test_opens_in_a_browser(folder: str) -> None:
    shown = [
        explained_samples()[f"damaged/{name}.iim"][0]
        for name in ("bad_value", "control_octet", "marker", "header_full")
    ]
    for octets in *shown, STORY * 30 + BAD_DATE, explained_samples()["damaged/truncated.iim"][0]:
        console, asked, picture = opened(folder, explain_page.page(case_of(octets)))
        assert (console, asked) == ([], [])
        ((count, _, _),) = pixels(picture, MARK)
        assert count > 60, f"{count} points of the marked octet"
    console, asked, picture = opened(folder, explain_page.page(case_of(STORY)))
    assert (console, asked, pixels(picture, MARK)[0][0]) == ([], [], 0)


def test_is_legible_dark_printed_and_without_colours(folder: str) -> None:
    page = explain_page.page(case_of(BAD_DATE))
    _, _, picture = opened(folder, page, more=["--blink-settings=preferredColorScheme=0"])
    (mark, _, _), (dark, _, _), (light, _, _) = pixels(
        picture, MARK, (0x14, 0x18, 0x1D), (0xF1, 0xF3, 0xF5)
    )
    assert mark > 60 and dark > 10_000 and light == 0, f"{mark}, {dark} and {light} points"
    # (the rules for print, on a screen)
    _, _, picture = opened(folder, page.replace("@media print", "@media screen"))
    assert pixels(picture, MARK)[0][0] > 60, "no mark on paper"
    plain = re.sub("<style>.*?</style>", "", page, flags=re.S)
    words = html.unescape(re.sub("<[^>]*>", "", plain))
    assert "32[refused: 39]1C" in words and "refused here" in words, words
    found = elements(page)
    assert [attributes.get("lang") for tag, attributes in found if tag == "html"] == ["en"]
    assert [
        bool(attributes.get("aria-label"))
        for tag, attributes in found
        if tag == "pre" and "role" in attributes
    ] == [True]
    assert (
        all(
            attributes.get("aria-label") or attributes.get("class") == "fixes"
            for tag, attributes in found
            if tag == "ol" and attributes
        )
        is True
    )
    assert [tag for tag, _ in found if tag in ("h1", "main", "header")] == ["header", "h1", "main"]


def test_detects_requests_and_console_errors(folder: str) -> None:
    page = explain_page.page(case_of(BAD_DATE))
    open_page = page.replace("default-src 'none'; style-src 'unsafe-inline'", "")
    console, _, _ = opened(
        folder, open_page.replace("</main>", "<script>nothing.at.all</script></main>")
    )
    assert console, "an error in the console is not found"
    _, asked, _ = opened(
        folder, open_page.replace("</main>", "<img src=http://planted.example/x.png></main>")
    )
    assert any("planted.example" in each for each in asked), f"a request is not found: {asked}"
    _, asked, _ = opened(
        folder, page.replace("</main>", "<img src=http://planted.example/x.png></main>")
    )
    assert asked == []
    _, _, picture = opened(folder, re.sub("<mark.*?</mark>", "", page))
    assert pixels(picture, MARK)[0][0] == 0


def test_highlights_both_sides(folder: str) -> None:
    page = explain_page.page(case_of(STORY, shows_all=True))
    found = elements(page)
    at_octets = {
        attributes.get("class", "").split(" ")[0]
        for tag, attributes in found
        if tag == "span" and "class" in attributes
    }
    of_meanings = {attributes.get("class") for tag, attributes in found if tag == "li"}
    keys = {each for each in of_meanings if each and each != "cut"}
    assert sorted(keys - at_octets) == []
    assert len(keys) > 30, f"{len(keys)} items"
    for key in keys:
        assert f".part:has(.{key}:hover) .{key}" in page, key
    anchors = {attributes.get("id") for _, attributes in found}
    assert [
        attributes["href"]
        for tag, attributes in found
        if attributes.get("href", "")[:1] == "#" and attributes["href"][1:] not in anchors
    ] == []
    # (a class stands in for the pointer, which the browser can't be made to move)
    (key, *_) = re.findall(r'<li class="(k\d+)"><a[^>]*><small>62</small>', page)
    for marked in f'<li class="{key}', f'<span class="{key} t':
        lit = page.replace(f"{key}:hover", f"{key}.lit").replace(marked, marked + " lit", 1)
        console, _, picture = opened(folder, lit)
        ((count, first, last),) = pixels(picture, (0xFF, 0xE0, 0x8A))
        assert count > 500 and first < 500 and last > 700, f"{count} points from {first} to {last}"
        assert console == []
