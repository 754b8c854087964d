"""Rules of accessible pages, checked in a browser at some widths, in both schemes and on paper.

The rules are those of WCAG 2.2 that a script can decide: contrast, sizes of targets, no sideways
scrolling, no hidden text, names and scopes, and few tab stops.
"""
from __future__ import annotations

import json
from typing import Any, List, NamedTuple

from support.bindings.browser import Controlled

WIDTHS = 390, 768, 1280
SCHEMES = "light", "dark"
# The tab stops of a page, and the columns of A4 between its margins, in CSS pixels.
STOPS, PAPER = 12, 703

RULES = """
(() => {
const found = [];
const say = (rule, element) => found.push(
  rule + ": " + element.outerHTML.slice(0, 120).replace(/\\s+/g, " "));
const numbers = (colour) => colour.match(/[\\d.]+/g).map(Number);
const light = ([r, g, b]) => [r, g, b].map((part) => part / 255).map((part) =>
  part <= 0.04045 ? part / 12.92 : ((part + 0.055) / 1.055) ** 2.4
).reduce((sum, part, at) => sum + part * [0.2126, 0.7152, 0.0722][at], 0);
const back = (element) => {
  for (let at = element; at; at = at.parentElement) {
    const colour = numbers(getComputedStyle(at).backgroundColor);
    if (colour.length < 4 || colour[3] > 0) return colour;
  }
  return [255, 255, 255];
};
// (what is pointed at has this colour behind it)
const lit = getComputedStyle(document.documentElement).getPropertyValue("--lit").trim().match(
  /[0-9a-f]{2}/gi).map((part) => parseInt(part, 16));
const hidden = (element) => element.closest(".vh, .skip") !== null;
const ratio = (one, other) => {
  const [high, low] = [light(one), light(other)].sort((a, b) => b - a);
  return (high + 0.05) / (low + 0.05);
};
if (document.documentElement.scrollWidth > innerWidth) found.push(
  "scrolls sideways: " + document.documentElement.scrollWidth + " > " + innerWidth);
if (!document.documentElement.lang) found.push("no language");
if (document.querySelectorAll("h1").length !== 1) found.push("not one h1");
for (const part of ["main", "header", "footer"]) {
  if (document.querySelectorAll("body > " + part).length !== 1) found.push("no " + part);
}
const ids = [...document.querySelectorAll("[id]")].map((element) => element.id);
if (new Set(ids).size !== ids.length) found.push("an id occurs twice");
let texts = 0;
for (const element of document.querySelectorAll("body *")) {
  const style = getComputedStyle(element);
  const box = element.getBoundingClientRect();
  const own = [...element.childNodes].some((node) => node.nodeType === 3 && node.data.trim());
  if (own && !hidden(element)) {
    texts += 1;
    const wanted = element.closest("mark") ? 3 : 4.5;
    const behind = [back(element)];
    if (element.closest(".part") && !element.closest("mark")) behind.push(lit);
    for (const under of behind) {
      const got = ratio(numbers(style.color), under);
      if (got < wanted) say("contrast " + got.toFixed(2), element);
    }
    if (box.right > innerWidth + 1 || box.left < -1) say("outside of the page", element);
    if (style.textOverflow === "ellipsis") say("ellipsis", element);
    if (element.scrollWidth > element.clientWidth + 1 && style.overflowX !== "visible"
      && style.display !== "inline") say("cut", element);
  }
  const scrolls = /auto|scroll/.test(style.overflowX + style.overflowY);
  if (scrolls && element.scrollWidth > element.clientWidth && element.tabIndex < 0) {
    say("scrolls, and the keyboard does not reach it", element);
  }
  if (element.matches("a[href]") && !hidden(element) && (box.height < 24 || box.width < 24)) {
    say("target of " + box.width.toFixed(0) + " x " + box.height.toFixed(0), element);
  }
  // (on a telephone a row of bytes is wrapped)
  const lines = box.height / parseFloat(style.lineHeight);
  if (innerWidth > 700 && element.matches("pre i") && lines > 1.5) say("a broken row", element);
  if (element.matches("th") && !element.hasAttribute("scope")) say("no scope", element);
  if (element.matches("[role=group]") && !element.hasAttribute("aria-label")) say("name", element);
}
if (!texts) found.push("no text");
const stops = [...document.querySelectorAll("a[href], [tabindex], button, summary")].filter(
  (element) => element.tabIndex >= 0);
if (stops.length > STOPS) found.push(stops.length + " tab stops");
const first = stops[0];
if (!first || !first.matches(".skip") || !document.querySelector(first.getAttribute("href"))) {
  found.push("no skip link");
}
const verdict = document.querySelector(".verdict");
const size = (element) => parseFloat(getComputedStyle(element).fontSize);
for (const element of document.querySelectorAll("body *")) {
  if (!verdict || (size(element) >= size(verdict) && !element.closest(".verdict"))) {
    say("as large as the verdict", element);
  }
}
return JSON.stringify(found.slice(0, 20));
})()
"""

PRINTED = """
JSON.stringify([...document.querySelectorAll(".part")].slice(0, 3).map((part) => {
  const [octets, list] = [...part.children].map((child) => child.getBoundingClientRect());
  return [octets.right <= list.left, list.right <= innerWidth + 1,
    part.querySelector("pre").scrollWidth <= part.querySelector("pre").clientWidth + 1];
}))
"""


class Broken(NamedTuple):
    """The rules that a page breaks.

    Attributes:
        scheme: "light", "dark" or "print".
        width: The width of the window.
        rules: The rules, each with an element.
    """

    scheme: str
    width: int
    rules: List[str]


def value_of(asked: Controlled, expression: str) -> Any:
    """Return the value of an expression in a page, which is written as JSON."""
    result = asked.ask("Runtime.evaluate", expression=expression, returnByValue=True)
    assert "exceptionDetails" not in result, result
    return json.loads(result["result"]["value"])


def broken_rules(asked: Controlled, path: str) -> List[Broken]:
    """Open a page at each width and in each scheme, and return the rules that it breaks."""
    found = []
    asked.seconds(path)
    script = RULES.replace("STOPS", str(STOPS))
    for width in WIDTHS:
        metrics = {"width": width, "height": 900, "deviceScaleFactor": 1, "mobile": False}
        asked.ask("Emulation.setDeviceMetricsOverride", **metrics)
        for scheme in SCHEMES:
            media = [{"name": "prefers-color-scheme", "value": scheme}]
            asked.ask("Emulation.setEmulatedMedia", media="screen", features=media)
            rules = value_of(asked, script)
            if rules:
                found.append(Broken(scheme, width, rules))
    return found


def printed_columns(asked: Controlled, path: str) -> List[List[bool]]:
    """Return whether bytes and meanings are side by side on A4, and fit, for the first parts."""
    asked.seconds(path)
    metrics = {"width": PAPER, "height": 1000, "deviceScaleFactor": 1, "mobile": False}
    asked.ask("Emulation.setDeviceMetricsOverride", **metrics)
    asked.ask("Emulation.setEmulatedMedia", media="print", features=[])
    columns: List[List[bool]] = value_of(asked, PRINTED)
    return columns
