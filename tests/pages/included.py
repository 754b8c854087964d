"""Copy programs into the guides. Each program is in a file that tests run.

A marker in the page names the file, and for a part of the file its first and last line:

    <!-- tests/write_pages: PATH -->
    <!-- tests/write_pages: PATH, BEGINNING OF THE FIRST LINE .. LAST LINE -->
    <!-- the end of the program -->
"""
from __future__ import annotations

import re
from pathlib import Path
from typing import Dict, List

from pages.items import TOP, text_of

# The pages that show programs.
PAGES = "docs/guide/*.md"
MARKER = re.compile(
    r"^<!-- tests/write_pages: (?P<path>[\w./]+)(?:, (?P<first>.+?) \.\. (?P<last>.+?))? -->\n"
    r"(?P<shown>.*?)^<!-- the end of the program -->$",
    re.M | re.S,
)
LANGUAGES = {".py": "python", ".rt": "rust", ".sh": "sh"}


def part(lines: List[str], first: str, last: str) -> List[str]:
    """Return the lines from the first one to the last one.

    The last line has the same indentation as the first.
    """
    start = next(at for at, line in enumerate(lines) if line.lstrip().startswith(first))
    indent = re.match(" *", lines[start])
    assert indent is not None
    return lines[start : lines.index(indent[0] + last, start) + 1]


def program(found: "re.Match[str]") -> str:
    """Return a marker and its end, with the program between them."""
    lines = text_of(f"{TOP}/{found['path']}").splitlines()
    if found["first"]:
        lines = part(lines, found["first"], found["last"])
    language = LANGUAGES.get(Path(found["path"]).suffix, "")
    head = found[0][: found.start("shown") - found.start()]
    return "\n".join([f"{head}```{language}", *lines, "```", "<!-- the end of the program -->"])


def wanted() -> Dict[str, str]:
    """Return each page that shows a program, with its text."""
    texts = {
        str(path.relative_to(TOP)): path.read_text(encoding="utf-8")
        for path in sorted(Path(TOP).glob(PAGES))
    }
    return {path: MARKER.sub(program, text) for path, text in texts.items() if MARKER.search(text)}
