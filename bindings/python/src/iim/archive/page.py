"""Generate the HTML page of iim-archive's report, by jinja2, with charts by matplotlib.

The charts are part of the page. It has no script and loads nothing.
"""
from __future__ import annotations

import io
import os
import re
import urllib.parse
from pathlib import Path
from typing import List, Optional, Tuple

import jinja2
import matplotlib
from markupsafe import Markup

import iim
from iim.archive.report import Bars, Content, instant, named
from iim.archive.rows import open_regular
from iim.explain import page as explain_page
from iim.explain.case import Case
from iim.explain.walk import Source
from iim.explain.words import counted
from iim.safe_output import LINK, PAGE_HEAD, Input, OutputRefused, replace_file

# The maximum number of damaged files that get a page.
PAGES = 50

matplotlib.use("svg")
matplotlib.rcParams.update(
    {
        "svg.fonttype": "none",
        "svg.hashsalt": "report",
        "text.parse_math": False,
        "font.size": 10,
        "text.usetex": False,
    }
)

# The rest of the page, as a template of jinja2.
TEMPLATE = Path(__file__).with_name("report.html")


class Pages:
    """The pages of damaged files, in a directory beside the report."""

    def __init__(
        self, report: str, limits: Tuple[int, int], inputs: List[Input], force: bool
    ) -> None:
        """Choose the directory for a report.

        Args:
            report: The path of the report.
            limits: The limits on records 1 and 2.
            inputs: The files that must not be replaced.
            force: Whether to replace files that are no pages, and symbolic links.
        """
        self._folder = Path(f"{re.sub('[.]html?$', '', report)}.files")
        self._limits, self._count = iim.Limits(*limits), 0
        self._inputs, self._force = inputs, force

    def page_of(self, path: bytes, known: Tuple[int, int]) -> Optional[str]:
        """Write the page of a file, and return its link.

        Args:
            path: The path of the file.
            known: Its size, and the time of its last change in nanoseconds, as the index has them.

        Returns:
            The link, or `None` if the file can't be read, or if there are `PAGES` pages already.

        Raises:
            OSError: The page can't be written.
            OutputRefused: The page must not be written.
        """
        text = self._text_of(path, known) if self._count < PAGES else None
        if text is None:
            return None
        if self._folder.is_symlink() and not self._force:
            raise OutputRefused(f"{self._folder}: {LINK}")
        if not self._folder.is_dir():
            self._folder.mkdir()
        self._count += 1
        page = self._folder / f"{self._count}.html"
        with replace_file(str(page), [*self._inputs, path], force=self._force) as to:
            to.write(text)
        return f"{urllib.parse.quote(os.fsencode(self._folder.name))}/{page.name}"

    def _text_of(self, path: bytes, known: Tuple[int, int]) -> Optional[str]:
        """Return the page of a file, or `None` if it can't be read."""
        try:
            # (a path that is no longer a regular file could block without end)
            os.close(open_regular(path))
            with Source(os.fsdecode(path)) as source:
                status = os.fstat(source.given)
                notes = notes_of(known, (status.st_size, status.st_mtime_ns))
                return explain_page.page(Case(source, self._limits), notes)
        except OSError:
            return None


def notes_of(known: Tuple[int, int], now: Tuple[int, int]) -> List[str]:
    """Return the note on a file that differs from what the index has of it.

    Args:
        known: The size and the time of its last change, in nanoseconds, in the index.
        now: The same of the file.
    """
    if known == now:
        return []
    (old, before), (new, after) = known, now
    return [
        f"The file was changed after it was indexed: then it had {counted(old, 'octet')} of"
        f" {instant(before // 10**9)}, and now it has {counted(new, 'octet')} of"
        f" {instant(after // 10**9)}. This page shows the file as it is now."
    ]


def picture(bars: Bars) -> Markup:
    """Return a bar chart as SVG."""
    from matplotlib.figure import Figure

    names: List[str] = [name if len(name) <= 30 else name[:28] + ".." for name, _ in bars.rows]
    counts = [count for _, count in bars.rows]
    figure = Figure(figsize=(6.4, 0.5 + 0.24 * len(names)))
    axes = figure.add_subplot()
    drawn = axes.barh(range(len(names)), counts, color="#3a80b5", height=0.75)
    axes.bar_label(drawn, labels=[f"{count:,}" for count in counts], padding=3)
    axes.set_yticks(range(len(names)), names)
    axes.invert_yaxis()
    axes.set_xlim(0, 1.15 * (max(counts) or 1))
    axes.xaxis.set_visible(False)
    axes.tick_params(length=0)
    for side in axes.spines.values():
        side.set_visible(False)
    figure.patch.set_visible(False)
    axes.patch.set_visible(False)
    figure.tight_layout()
    out = io.StringIO()
    figure.savefig(out, format="svg", metadata={"Date": None, "Creator": None})
    # (the prolog before the element is for files)
    element = out.getvalue()[out.getvalue().index("<svg") :]
    return Markup(re.sub(r"<metadata>.*?</metadata>", "", element, flags=re.S))


def page(content: Content) -> str:
    """Return the page of a report."""
    text = PAGE_HEAD + TEMPLATE.read_text(encoding="utf-8")
    template = jinja2.Environment(autoescape=True).from_string(text)
    return template.render(content=content, picture=picture, named=named)
