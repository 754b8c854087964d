"""Run `python3 -m iim explain`, also on hostile and on long files."""
from __future__ import annotations
from support.bindings.running import NO_ARGUMENTS

import os
import re
import subprocess
import sys

import envelopes
import rules
from envelopes import SMALLEST, STORY
from iim.explain import page as explain_page
from support.bindings.explaining import (
    longest_shown,
    case_of,
    iim_text,
    indexed,
    of_lines,
    on_a_terminal,
    tags_of,
    printed_text,
    unwrapped,
)
from support.bindings.paths import environment, SAMPLES, SECONDS, TOP
from support.bindings.running import text_of, write_file


def test_prints_text_and_writes_pages(folder: str) -> None:
    damaged = f"{SAMPLES}/damaged/bad_value.iim"
    status, out, errors = iim_text("explain", damaged)
    assert (status, errors, "Octet 54 of envelope 1" in out, "\033" in out) == (1, "", True, False)
    status, out, errors = iim_text(
        "explain", f"{SAMPLES}/story.iim", "--all", "--html", f"{folder}/page.html"
    )
    assert (
        status,
        errors,
        "Rates stay." in out,
        "Rates stay." in text_of(f"{folder}/page.html"),
    ) == (0, "", True, True)
    with open(damaged, "rb") as octets:
        assert iim_text("explain", "-", octets=octets.read())[0] == 1
    status, out, _ = iim_text("explain", f"{SAMPLES}/stream.iim", "--envelope", "2")
    assert (status, "ENVELOPE 2" in out, "ENVELOPE 1" in out) == (0, True, False)
    there_is = (
        f"python3 -m iim explain: {SAMPLES}/stream.iim: there is no envelope 3: the file has 2\n"
    )
    assert iim_text("explain", f"{SAMPLES}/stream.iim", "--envelope", "3")[::2] == (2, there_is)
    assert [
        iim_text("explain", *words)[0]
        for words in (NO_ARGUMENTS, [damaged, "--envelope", "0"], [damaged, "--limits", "0", "1"])
    ] == [2, 2, 2]
    assert (
        iim_text("explain", f"{SAMPLES}/damaged/too_many_fields.iim", "--limits", "65536", "600")[0]
        == 0
    )


def test_prints_the_output_of_the_guides(folder: str) -> None:
    guide, archive, readme = (
        text_of(f"{TOP}/{page}")
        for page in ("docs/guide/explain.md", "docs/guide/archive.md", "README.md")
    )
    words = next(
        block
        for block in re.findall(r"^```sh\n(.*?)^```$", guide, re.M | re.S)
        if "iim explain" in block
    )
    ran = subprocess.run(
        ["sh", "-e", "-c", words.replace("page.html", f"{folder}/page.html")],
        cwd=TOP,
        capture_output=True,
        text=True,
        timeout=SECONDS,
    )
    begins = guide.partition(words)[2].partition("\n```\n")[2].partition("```")[0]
    assert (ran.returncode, ran.stdout[: len(begins)], ran.stderr) == (1, begins, "")
    assert os.path.getsize(f"{folder}/page.html") > 1_000, "no page"
    printed = ran.stdout + iim_text("explain", f"{SAMPLES}/stream.iim")[1]
    titles = re.findall(r"^- `([A-Z][A-Z -]+)`", guide, re.M)
    assert (len(titles), [title for title in titles if f"\n{title}\n" not in printed]) == (4, [])
    assert (
        "\n$ iim-explain" + words.partition("iim explain")[2] in readme
    ), "README.md has another command"
    program = next(
        block
        for block in re.findall(r"^```python\n(.*?)^```$", guide, re.M | re.S)
        if "before.next" in block
    )
    write_file(folder, "next.py", program.encode())
    ran = subprocess.run(
        [sys.executable, f"{folder}/next.py", f"{SAMPLES}/damaged/bad_value.iim"],
        capture_output=True,
        text=True,
        env=environment(),
        timeout=SECONDS,
    )
    assert (ran.returncode, ran.stdout, ran.stderr) == (0, "54 data b'012345678'\n", "")
    words = next(
        block
        for block in re.findall(r"^```sh\n(.*?)^```$", archive, re.M | re.S)
        if "iim.archive report" in block
    )
    index = indexed(folder)
    words = words.replace("samples.index", index).replace("report.html", f"{folder}/report.html")
    ran = subprocess.run(
        ["sh", "-e", "-c", words], cwd=TOP, capture_output=True, text=True, timeout=SECONDS
    )
    assert ran.returncode == 0
    picture = re.findall(r"!\[[^]]*\]\((.*?)\)", readme)[0]
    with open(f"{TOP}/{picture}", "rb") as octets:
        assert octets.read(8) == b"\x89PNG\r\n\x1a\n"


def test_uses_colours_only_on_a_terminal(folder: str) -> None:
    words = ["explain", f"{SAMPLES}/damaged/bad_value.iim"]
    assert (b"\033[1;31m39\033[0m" in on_a_terminal(words)) is True
    assert (b"\033" in on_a_terminal(words, NO_COLOR="1")) is False


def test_escapes_hostile_bytes(folder: str) -> None:
    evil = b"\xe2\x80\xae<script>alert(1)</script>"
    fields = [*envelopes.SMALLEST_FIELDS, (2, 105, evil), (2, 250, b"\x1b[31m" + evil)]
    whole = rules.packed(
        fields, rules.object_of(envelopes.STORY_HEAD, [b"\x1b]0;x\7" + evil, evil], b""), 1024
    )
    named = f"{folder}/<script>\u202e\x1b.iim"
    for octets in whole, whole[:-1], whole.replace(b"\3\4", b"\2\4"):
        write_file(folder, os.path.basename(named), octets)
        words = [
            "explain",
            named,
            "--all",
            "--html",
            f"{folder}/page.html",
            "--encoding",
            "latin-1",
        ]
        status, out, errors = iim_text(*words)
        page = text_of(f"{folder}/page.html")
        assert (status, errors) == (int(octets is not whole), "")
        for text in out, page:
            assert [each in text for each in ("\x1b", "\u202e", "\x07")] == [False] * 3
            assert "\\x1B" in text and "â\\x80®" in text and "\\u202E" in text, text
        assert ("<script" in page) is False
        assert "&lt;script&gt;alert(1)" in page, page
        assert sorted(tags_of(page) - KNOWN_TAGS) == []


KNOWN_TAGS = set(
    "html head meta title style body header h1 h2 p main section div article pre span b u a mark"
    " ol li i small bdi strong code table thead tbody tr th td footer".split()
)


def test_bounds_the_size_of_a_page(folder: str) -> None:
    long, tiny = longest_shown(), of_lines(190, 1)
    many = rules.packed(
        [
            *envelopes.SMALLEST_FIELDS,
            *([(2, 25, b"x" * 50)] * 500),
            *([(2, 200, b"\1" * 8000)] * 4),
        ],
        envelopes.STORY_OBJECT,
        9,
    )
    for octets in (
        long,
        tiny,
        many,
        STORY * 400,
        SMALLEST * 850 + b"\n",
        long[:-1] + b"\0",
        tiny[:-1] + b"\0",
    ):
        page = explain_page.page(case_of(octets, shows_all=True))
        assert 50_000 < len(octets) <= 115_000, f"{len(octets)} octets"
        assert len(page.encode()) <= 2 << 20, f"{len(page):,} octets of a page of {len(octets):,}"
        assert (
            octets is not long or page.count("A line of the story that has some eighty") >= 1_140
        ), "lines are left out"
    assert ("left out" in explain_page.page(case_of(long, shows_all=True))) is False
    longer = of_lines(20_000)
    cut = explain_page.page(case_of(longer[:-1] + b"\0"))
    assert "left out" in cut and "<mark" in cut and len(cut) <= 2 << 20, f"{len(cut):,} octets"
    text = printed_text(case_of(longer, shows_all=True))
    assert (
        "are left out" in text and len(text.splitlines()) < 200
    ), f"{len(text.splitlines())} lines"


MEASURED = """
import resource, subprocess, sys
words = [sys.executable, "-m", "iim", "explain", sys.argv[1], "--html", sys.argv[2]]
status = subprocess.run(words).returncode
print("used", resource.getrusage(resource.RUSAGE_CHILDREN).ru_maxrss)
sys.exit(status)
"""


def test_explains_a_long_file_in_little_memory(folder: str) -> None:
    whole, one = of_lines(1_000), of_lines(600_000, 1 << 25)
    for octets, count, end in (whole, 600, whole[:-1] + b"\0"), (one[:-1] + b"\0", 1, b""):
        path = f"{folder}/long.iim"
        with open(path, "wb") as to:
            for _ in range(count):
                to.write(octets)
            to.write(end)
        # (measured in a separate process, since a process starts with the memory of its parent)
        ran = subprocess.run(
            [sys.executable, "-c", MEASURED, path, f"{folder}/page.html"],
            capture_output=True,
            text=True,
            env=environment(),
            timeout=SECONDS,
        )
        reported, _, used = ran.stdout.rpartition("used ")
        assert (ran.returncode, ran.stderr, "Cause 25" in unwrapped(reported)) == (1, "", True)
        assert int(used) < 48 << 10, f"{int(used) >> 10} MB for {os.path.getsize(path) >> 20} MB"
        assert len(reported.splitlines()) < 900, f"{len(reported.splitlines())} lines"
        assert os.path.getsize(f"{folder}/page.html") <= 2 << 20, "the page is long"
