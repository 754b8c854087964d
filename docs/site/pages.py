"""Lay out the pages of the repository for Sphinx: all pages, and the files that they link to."""
from __future__ import annotations

import posixpath
import re
import shutil
import subprocess
from pathlib import Path
from typing import Callable, List

# Pages that are in the repository, by pattern, without those of the toolchain.
PAGES = "README.md", "SECURITY.md", "CHANGELOG.md", "docs/*.md", "samples/*.md", "tests/*.md"
CALLERS = "crates/*/CALLING.md"
LINK = re.compile(r"(?<!`)(!?\[(?:[^\[\]`]|`[^`]*`)*\])\(([^)#:\s]*)(#[^)\s]*)?\)")
FENCE = re.compile(r"(^ *```.*?^ *```$)", re.M | re.S)


def tracked(top: Path, *patterns: str) -> List[str]:
    """Return the paths of the files of the repository that match."""
    listed = [
        "git",
        "-C",
        str(top),
        "ls-files",
        "--cached",
        "--others",
        "--exclude-standard",
        "--",
        *patterns,
    ]
    return subprocess.run(listed, stdout=subprocess.PIPE, text=True, check=True).stdout.split()


def on_site(path: str) -> str:
    """Return where a page is on the site: the front page is the README, and `docs/` is the top."""
    if path == "README.md":
        return "index.md"
    if path.startswith("docs/"):
        return re.sub(r"(^|/)README\.md$", r"\1index.md", path[len("docs/") :])
    if path.startswith("crates/"):
        return f"reference/calling/{path.split('/')[1]}.md"
    return re.sub(r"README\.md$", "index.md", path).lower()


class Layout:
    """The pages of the site, and the files that they link to."""

    def __init__(self, top: Path, to: Path) -> None:
        """Find the pages of the repository at `top`, to be laid out at `to`."""
        self.top, self.to = top, to
        self.pages = {
            path: on_site(path) for path in tracked(top, *PAGES, CALLERS) if path.endswith(".md")
        }

    def linked(self, page: str) -> Callable[["re.Match[str]"], str]:
        """Return a function that converts the links of a page to those of the site."""

        def convert(link: "re.Match[str]") -> str:
            text, target, anchor = link[1], link[2], link[3] or ""
            if not target:
                return link[0]
            path = posixpath.normpath(posixpath.join(posixpath.dirname(page), target))
            there = self.top / path
            if not there.exists():
                raise FileNotFoundError(f"{page} links to {target}, which is not there")
            if there.is_dir():
                # (a directory has no page, but for those with a README)
                if f"{path}/README.md" not in self.pages:
                    return text[1:-1]
                path += "/README.md"
            to = self.pages.get(path) or self.copied(path)
            here = posixpath.dirname(self.pages[page]) or "."
            return f"{text}({posixpath.relpath(to, here)}{anchor})"

        return convert

    def copied(self, path: str) -> str:
        """Copy a file that a page links to, and return where it is."""
        to = f"files/{path}"
        (self.to / to).parent.mkdir(parents=True, exist_ok=True)
        shutil.copyfile(self.top / path, self.to / to)
        return to

    def lay_out(self) -> None:
        """Write all pages, with the links of the site."""
        for page, to in self.pages.items():
            parts = FENCE.split((self.top / page).read_text(encoding="utf-8"))
            parts[::2] = [LINK.sub(self.linked(page), part) for part in parts[::2]]
            (self.to / to).parent.mkdir(parents=True, exist_ok=True)
            (self.to / to).write_text("".join(parts), encoding="utf-8")
