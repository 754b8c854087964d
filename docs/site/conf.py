"""Settings of Sphinx for the site. `docs/build` copies this file to the pages that it lays out."""
from __future__ import annotations

import os
import re
import sys
from typing import Any, Dict, Iterator, List, Optional, Tuple

from pygments.lexers.rust import RustLexer
from pygments.token import Error, Text
from sphinx.application import Sphinx
from sphinx.ext.napoleon import Config
from sphinx.ext.napoleon.docstring import GoogleDocstring

# (the place of the Python package in the repository, from `docs/build`)
sys.path.insert(0, os.environ["IIM_PYTHON"])

project = "iimwire"
release = version = os.environ["IIM_RELEASE"]
author = copyright = "the iimwire maintainers"
extensions = ["myst_parser", "sphinx.ext.autodoc"]
root_doc = "index"
exclude_patterns = ["files"]
nitpicky = True
language = "en"

# Pages in Markdown: the anchors of their headings are those of the repository's pages.
myst_heading_anchors = 6
# (examples of JSON are shortened by two dots)
suppress_warnings = ["misc.highlighting_failure"]

# Docstrings have code in single backticks.
default_role = "code"
autodoc_member_order = "bysource"
autodoc_typehints = "signature"
autodoc_preserve_defaults = True
add_module_names = False
# Types of the standard libraries, and private names in annotations.
nitpick_ignore_regex = [
    ("c:identifier", r"u?int\d+_t|size_t|bool|uint8_t"),
    ("py:class", r"iim\.streams\.Item|iim\.receiver\.Sentinel"),
    ("py:.*", r"(typing|datetime|os|io|ctypes|threading)\..*|[a-z]+|_\w+|.*\._\w+"),
]

# Examples without a language are output.
highlight_language = "none"

html_theme = "furo"
html_title = f"iimwire {release}"
html_static_path = ["_static"]
html_css_files = ["site.css"]
html_show_sphinx = False
html_show_copyright = False
html_copy_source = False
html_show_sourcelink = False
html_last_updated_fmt = None
# Everything that a page loads is on the site.
html_theme_options: Dict[str, object] = {"footer_icons": [], "top_of_page_button": None}


class Rattle(RustLexer):
    """Colours Rattle as Rust: what Rust does not have is plain text."""

    def get_tokens_unprocessed(
        self, text: str, stack: Tuple[str, ...] = ("root",)
    ) -> Iterator[Tuple[int, Any, str]]:
        """Yield the tokens of a text."""
        for at, token, value in super().get_tokens_unprocessed(text, stack):
            yield at, Text if token is Error else token, value


def convert(
    app: Sphinx, what: str, name: str, obj: object, options: object, lines: List[str]
) -> None:
    """Convert a docstring in the style of Google, and examples in that of a module."""
    if what == "module":
        text = "\n".join(lines)
        lines[:] = re.sub(r"(?<=\n\n)(?=    )(?<!    \n\n)", "::\n\n", text).split("\n")
    elif what not in ("attribute", "data", "property"):
        config: Any = Config(napoleon_use_ivar=True)
        lines[:] = GoogleDocstring(lines, config, app, what, name).lines()


def skip(
    app: Sphinx, what: str, name: str, obj: object, skipped: bool, options: object
) -> Optional[bool]:
    """Skip the fields of a named tuple, which the docstring of its type describes."""
    return True if str(getattr(obj, "__doc__", "")).startswith("Alias for field number") else None


def setup(app: Sphinx) -> None:
    """Set the language of the examples, and of docstrings."""
    app.add_lexer("rust", Rattle)
    app.connect("autodoc-process-docstring", convert)
    app.connect("autodoc-skip-member", skip)
