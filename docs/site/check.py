"""Check the built pages: each link in them leads to a file, and to an anchor in it."""
from __future__ import annotations

import urllib.parse
from html.parser import HTMLParser
from pathlib import Path
from typing import Dict, Iterator, List, Optional, Set, Tuple

# What loads a file, by its element.
LINKS = {"a": "href", "link": "href", "img": "src", "script": "src"}


class Page(HTMLParser):
    """The links and the anchors of a page."""

    def __init__(self, text: str) -> None:
        """Read the page."""
        super().__init__()
        self.links: List[str] = []
        self.loaded: List[str] = []
        self.anchors: Set[str] = {""}
        self.feed(text)

    def handle_starttag(self, tag: str, attrs: List[Tuple[str, Optional[str]]]) -> None:
        """Note the link and the anchor of an element."""
        values = dict(attrs)
        self.anchors.update(filter(None, (values.get("id"), values.get("name"))))
        link = values.get(LINKS.get(tag, ""))
        if link:
            self.links.append(link)
            self.loaded += [link] if tag != "a" else []


def pages(folder: Path) -> Dict[Path, Page]:
    """Return the pages below a directory, by their paths."""
    found = sorted(folder.resolve().rglob("*.html"))
    return {path: Page(path.read_text(encoding="utf-8")) for path in found}


def faults(folder: Path) -> Iterator[str]:
    """Yield each link that leads nowhere, or out of the site to load something."""
    found = pages(folder)
    top = folder.resolve()
    for path, page in found.items():
        for link in page.links:
            url = urllib.parse.urlsplit(link)
            if url.scheme or url.netloc:
                if link in page.loaded and url.scheme != "data":
                    yield f"{path.relative_to(top)}: {link} is loaded from another site"
                continue
            there = (path.parent / urllib.parse.unquote(url.path)).resolve() if url.path else path
            name = path.relative_to(top)
            if top not in there.parents or not there.is_file():
                yield f"{name}: {link} leads to no file"
            elif there in found and urllib.parse.unquote(url.fragment) not in found[there].anchors:
                yield f"{name}: {link} leads to no anchor"
