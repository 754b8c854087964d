"""Reports of an archive, as text and as a page."""
from __future__ import annotations

import os
import re
import subprocess
from typing import List

import envelopes
import rules
from envelopes import SMALLEST
from support.bindings.accessibility import value_of
from support.bindings.browser import MARK, Controlled, opened, pixels
from support.bindings.explaining import archive_text, elements, explained_samples, indexed
from support.bindings.paths import environment, NOW, SECONDS
from support.bindings.running import python_with, text_of, write_file


def test_reports_an_archive_as_text(folder: str) -> None:
    status, out, errors = archive_text("report", indexed(folder), "--now", NOW)
    assert (status, errors) == (0, "")
    lines = out.splitlines()
    octets = sum(len(octets) for octets, _ in explained_samples().values())
    assert lines[0].endswith(f"tree.index at {NOW}") is True
    assert (
        lines[1]
        == f"38 files, {octets:,} octets, 11 envelopes, 9 repeated, 1 held, 0 expired, 30 refused,"
        " 0 empty, 0 failed, 0 linked, 0 gone"
    )
    counts = re.findall(
        r"^  (\d+ \w+) +(\d+) #", out.partition("REFUSALS BY CAUSE")[2].partition("\n\n")[0], re.M
    )
    want = [
        line.partition("cause ")[2]
        for _, lines in explained_samples().values()
        for line in lines
        if " refused " in line
    ]
    assert sorted(counts) == sorted((cause, str(want.count(cause))) for cause in set(want))
    for line in (
        "  2024-03-01                            11 #",
        "  11                                     1 #",
        "  TST 00000001 20240301  7",
    ):
        assert line in out, f"{line!r} is not in {out}"
    assert re.search(r"release.iim  1  TST 00000001 20240301  2024-03-01T13:00:00Z", out), out
    assert (
        "bad_value.iim: envelope 1, octet 54 of the file, 1:70, cause 15 BadValue (TST 00000001 ?)"
        in out
    ), out
    # (after the release no copy is held)
    later = archive_text("report", indexed(folder), "--now", "2024-03-01T13:00:00Z")[1]
    assert ("0 held" in later and "13:00:00Z\n" not in later.partition("HELD, AND")[2]) is True
    assert archive_text("report", f"{folder}/none")[::2] == (
        3,
        f"iim-archive: {folder}/none: there is no index\n",
    )


def test_reports_as_text_without_matplotlib(folder: str) -> None:
    index = indexed(folder)
    os.mkdir(f"{folder}/without")
    path = os.pathsep.join([f"{folder}/without", environment()["PYTHONPATH"]])
    for module in "matplotlib", "jinja2":
        write_file(folder, f"without/{module}.py", b"raise ImportError\n")
        printed = archive_text(
            "report",
            index,
            "--now",
            NOW,
            "--html",
            f"{folder}/out.html",
            PYTHONPATH=path,
        )
        assert printed[::2] == (
            0,
            "no page is written: python3-matplotlib or python3-jinja2 is not installed\n",
        )
        assert printed[1] == archive_text("report", index, "--now", NOW)[1]
        assert os.path.exists(f"{folder}/out.html") is False


def test_reports_an_archive_as_a_page(folder: str) -> None:
    python = python_with("jinja2", "matplotlib")
    evil = b"\x1b<script>$x$\xe2\x80\xae"
    os.mkdir(f"{folder}/tree")
    for nth, name in enumerate(("plain", "<script>\u202e", "a b#c?")):
        fields = [
            (record, number, b"<$x$>\xe2" if (record, number) == (1, 30) else octets)
            for record, number, octets in envelopes.SMALLEST_FIELDS
        ]
        octets = rules.packed(
            [*fields, (2, 250, evil)], rules.object_of(envelopes.SMALLEST_HEAD, [evil], b""), 1024
        )
        write_file(
            folder,
            f"tree/{name}.iim",
            SMALLEST + octets + octets[: -nth or None] + (b"\n" if nth == 0 else b""),
        )
    index = indexed(folder, f"{folder}/tree")
    status, out, errors = archive_text(
        "report", index, "--now", NOW, "--html", f"{folder}/out.html", python=python
    )
    assert (status, out, errors) == (0, "", "")
    page = text_of(f"{folder}/out.html")
    assert [each in page for each in ("<script", "\x1b", "\u202e")] == [False] * 3
    assert "&lt;script&gt;\\u202E.iim" in page and "&lt;$x$&gt;\\xE2" in page, page
    # (what an operator acts on comes first, and the legend has the words whose totals are not 0)
    assert re.findall(r"<h2>(.*?)</h2>", page)[:3] == ["Sums", "Damaged files", "Legend"]
    sums = re.findall(r"<div><dt>(\w+)</dt><dd>([\d,]+)</dd></div>", page)
    legend = page.partition("<dl class=legend>")[2].partition("</dl>")[0]
    assert re.findall(r"<dt>(\w+)</dt><dd>\w", legend) == [
        name for name, count in sums[3:] if count != "0"
    ]
    assert ("refused", "3") in sums and "<th>" not in page
    narrow, wide = widths_at(folder, f"{folder}/out.html")
    assert (narrow <= 390, wide <= 768) == (True, True), f"{narrow} and {wide}: sideways"
    links = [attributes["href"] for tag, attributes in elements(page) if tag == "a"]
    assert sorted(links) == [f"out.files/{nth}.html" for nth in (1, 2, 3)]
    for link in links:
        assert "<mark" in text_of(f"{folder}/{link}"), link
    console, asked, picture = opened(folder, page)
    assert (console, asked) == ([], [])
    ((count, _, _),) = pixels(picture, (0x3A, 0x80, 0xB5))
    assert count > 1_000, f"{count} points of the bars"
    # (a page that it links to, and a request that its policy prevents)
    console, asked, picture = opened(folder, text_of(f"{folder}/{links[0]}"))
    assert (console, asked) == ([], [])
    assert pixels(picture, MARK)[0][0] > 60, "no mark on the page of a damaged file"
    planted = page.replace("</main>", "<img src=http://planted.example/x.png></main>")
    assert opened(folder, planted)[1] == []
    _, asked, _ = opened(
        folder, planted.replace("default-src 'none'; style-src 'unsafe-inline'", "")
    )
    assert any("planted.example" in each for each in asked), f"a request is not found: {asked}"


def widths_at(folder: str, path: str) -> List[int]:
    """Return the width of a page in windows of 390 and of 768 pixels."""
    found: List[int] = []
    with Controlled(folder) as asked:
        asked.seconds(path)
        for width in 390, 768:
            metrics = {"width": width, "height": 900, "deviceScaleFactor": 1, "mobile": False}
            asked.ask("Emulation.setDeviceMetricsOverride", **metrics)
            found.append(value_of(asked, "String(document.documentElement.scrollWidth)"))
    return found


def test_draws_each_bar(folder: str) -> None:
    drawn = subprocess.run(
        [python_with("jinja2", "matplotlib"), "-c", DRAWN],
        capture_output=True,
        text=True,
        timeout=SECONDS,
        env=environment(),
    )
    assert (drawn.returncode, drawn.stdout, drawn.stderr) == (0, "1 True True\n0 False True\n", "")


DRAWN = """
import re
from iim.archive import page as archive_page, report as archive_report
bars = archive_report.Bars("Bars", [("one", 1), ("two & <three>", 1234567)])
printed = archive_report.Content("name", "now", [], [bars], [], [])
for each in printed, printed._replace(bars=[bars._replace(rows=[])]):
    page = archive_page.page(each)
    print(page.count("<svg"), "1,234,567</text>" in page, "<three>" not in page)
"""
