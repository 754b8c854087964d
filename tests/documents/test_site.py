"""Build the site with docs/build, and check its pages, its links and how it looks in a browser."""
from __future__ import annotations

import ast
import importlib.util
import re
import shutil
import subprocess
from pathlib import Path
from types import ModuleType
from typing import List

import pytest

TOOLS = "/usr/share/doc/sphinx-common", "/usr/share/doc/furo", "/usr/share/doc/python3-myst-parser"
SECONDS = 600
# Shows pages in frames of some widths, and prints how wide each of them is.
FRAMES = """<html><body>%s<pre id="found"></pre><script>addEventListener('load', () => {
  found.textContent = [...document.querySelectorAll('iframe')].map(frame => {
    const page = frame.contentDocument.documentElement;
    return ['width', frame.name, page.clientWidth, page.scrollWidth].join(' ');
  }).join('\\n');
})</script></body></html>"""
FRAME = '<iframe name="{0} {1}" src="{0}.html" width="{1}" height="900" style="border: 0"></iframe>'
WIDTHS = 1280, 390
PAGES = "index", "reference/causes", "reference/format", "reference/c-api", "reference/python-api"


def module(top: Path, name: str) -> ModuleType:
    """Import a module of docs/site."""
    found = importlib.util.spec_from_file_location(name, top / "docs" / "site" / f"{name}.py")
    assert found and found.loader
    loaded = importlib.util.module_from_spec(found)
    found.loader.exec_module(loaded)
    return loaded


@pytest.fixture(scope="session")
def site(top: Path, tmp_path_factory: pytest.TempPathFactory) -> Path:
    """Return the directory of the site, built for these tests."""
    if not all(Path(tool).exists() for tool in TOOLS) or not shutil.which("doxygen"):
        pytest.skip("sphinx, furo, python3-myst-parser or doxygen is not installed: run .ci/setup")
    to = tmp_path_factory.mktemp("site") / "html"
    ran = subprocess.run(
        [top / "docs" / "build", to],
        stderr=subprocess.PIPE,
        text=True,
        timeout=SECONDS,
        check=False,
    )
    assert (ran.stderr, ran.returncode) == ("", 0)
    return to


def browse(site: Path, page: str, *options: str) -> str:
    """Return what a browser makes of a page of the site."""
    if not shutil.which("chromium"):
        pytest.skip("chromium is not installed: run .ci/setup")
    words = [
        "chromium",
        "--headless",
        "--no-sandbox",
        "--disable-gpu",
        "--virtual-time-budget=9000",
    ]
    ran = subprocess.run(
        [*words, "--dump-dom", *options, f"file://{site}/{page}"],
        stdout=subprocess.PIPE,
        stderr=subprocess.DEVNULL,
        text=True,
        timeout=SECONDS,
        check=True,
    )
    return ran.stdout


def names_of(page: Path) -> List[str]:
    """Return the names that a page documents, by their anchors."""
    return re.findall(r' id="((?:iim|c)\.[\w.]+)"', page.read_text(encoding="utf-8"))


def test_has_a_page_for_each_document(top: Path, site: Path) -> None:
    """Each page of the repository is a page of the site."""
    layout = module(top, "pages").Layout(top, site)
    assert len(layout.pages) > 60
    assert [
        to for to in layout.pages.values() if not (site / to).with_suffix(".html").is_file()
    ] == []


def test_leads_to_pages_and_anchors_only(top: Path, site: Path) -> None:
    """No link of the built pages is dead, and nothing is loaded from elsewhere."""
    check = module(top, "check")
    assert list(check.faults(site)) == []
    links = sum(len(page.links) for page in check.pages(site).values())
    assert links > 5_000


@pytest.mark.parametrize(
    "link, fault",
    [
        ('<a href="b.html#there">', ""),
        ('<a href="c.html">', "a.html: c.html leads to no file"),
        ('<a href="b.html#lost">', "a.html: b.html#lost leads to no anchor"),
        ('<a href="../a.html">', "a.html: ../a.html leads to no file"),
        ('<a href="https://example.org/">', ""),
        (
            '<img src="https://example.org/x.png">',
            "a.html: https://example.org/x.png is loaded from another site",
        ),
    ],
)
def test_rejects_dead_links_of_built_pages(
    top: Path, tmp_path: Path, link: str, fault: str
) -> None:
    """The check of the built pages finds a link that leads nowhere."""
    (tmp_path / "a.html").write_text(link)
    (tmp_path / "b.html").write_text('<p id="there">')
    assert list(module(top, "check").faults(tmp_path)) == ([fault] if fault else [])


@pytest.mark.parametrize(
    "link, rejected", [("b.md", False), ("lost.md", True), ("crates/x.rt", True)]
)
def test_rejects_dead_links_of_pages(top: Path, tmp_path: Path, link: str, rejected: bool) -> None:
    """A page of the repository that links to a file that is not there is not built."""
    subprocess.run(["git", "init", "-q", tmp_path], check=True)
    (tmp_path / "README.md").write_text(
        f"[A page]({link}), `[code]({link}x)`\n\n```\n[code]({link}x)\n```\n"
    )
    (tmp_path / "docs").mkdir()
    (tmp_path / "docs" / "c.md").write_text("[Front](../README.md)\n")
    (tmp_path / "SECURITY.md").write_text("")
    layout = module(top, "pages").Layout(tmp_path, tmp_path / "out")
    layout.top = tmp_path
    if link == "b.md":
        (tmp_path / "b.md").write_text("")
    if rejected:
        with pytest.raises(FileNotFoundError, match=link):
            layout.lay_out()
    else:
        layout.lay_out()
        assert (tmp_path / "out" / "c.md").read_text() == "[Front](index.md)\n"


def test_documents_the_python_api(top: Path, site: Path) -> None:
    """Each public name of the package is on the page of the Python API."""
    found = [
        *(top / "bindings" / "python").glob("src/iim/__init__.py"),
        top / "bindings" / "python" / "iim.py",
    ]
    source = next(path for path in found if path.is_file()).read_text(encoding="utf-8")
    listed = next(
        node.value
        for node in ast.parse(source).body
        if isinstance(node, ast.Assign) and getattr(node.targets[0], "id", "") == "__all__"
    )
    names = ast.literal_eval(listed)
    anchors = names_of(site / "reference" / "python-api.html")
    constants = {name for name in names if name.isupper()}
    assert len(names) > 25
    assert [name for name in names if f"iim.{name}" not in anchors and name not in constants] == []


def test_documents_the_c_api(top: Path, site: Path) -> None:
    """Each function, type and constant of the header is on the page of the C API."""
    text = (top / "bindings" / "c" / "iim.h").read_text(encoding="utf-8")
    code = re.sub(r"/\*.*?\*/", "", text, flags=re.S)
    names = set(re.findall(r"\b(iim_\w+)\(|^} (iim_\w+);|^ +(IIM_\w+) = ", code, re.M))
    anchors = names_of(site / "reference" / "c-api.html")
    wanted = {f"c.{name}" for found in names for name in found if name}
    assert len(wanted) > 80
    assert wanted - {*anchors} == set()


def test_finds_a_cause_by_search(site: Path) -> None:
    """The search of the site finds the page of the causes, without a server."""
    assert 'href="reference/causes.html' in browse(site, "search.html?q=CountRange")


def test_fits_the_width_of_the_window(site: Path) -> None:
    """No page scrolls to the side, on a desktop or on a phone."""
    (site / "wide.html").write_text('<div style="width: 2000px">wide</div>', encoding="utf-8")
    shown = [FRAME.format(page, width) for page in (*PAGES, "wide") for width in WIDTHS]
    (site / "frames.html").write_text(FRAMES % "".join(shown), encoding="utf-8")
    found = browse(site, "frames.html", "--allow-file-access-from-files", "--hide-scrollbars")
    *widths, desktop, phone = re.findall(r"width (\S+) (\d+) (\d+) (\d+)", found)
    assert widths == [(page, *[str(width)] * 3) for page in PAGES for width in WIDTHS]
    # (a page that is too wide is seen to be)
    assert all(int(wide[3]) > int(wide[2]) == int(wide[1]) for wide in (desktop, phone))
