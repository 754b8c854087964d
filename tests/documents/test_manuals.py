"""Check the manual pages and the causes against the sources, the help and the samples."""
from __future__ import annotations

import glob
import os
import re
import subprocess
import sys
from typing import Dict, Iterator, List, Tuple

from documents.reading import first_match, one_of, read_roff
from pages import causes
from pages.items import TOP, cells_of, text_of


def listed_in_the_manual(section: str) -> Iterator[Tuple[str, str]]:
    """Return the items of a list of the manual page, each with its tag and its text."""
    lines = text_of(f"{TOP}/docs/iimwire.1").split(f".SH {section}\n")[1].split(".PD\n")[0]
    for item in re.split(r"^\.TP \d+\n", lines, flags=re.M)[1:]:
        tag, *rest = read_roff(item).strip("\n").split("\n")
        yield tag, " ".join(line.removeprefix(".B ") for line in rest if line != ".br")


def test_names_all_datasets_in_the_manual() -> None:
    """Compare the datasets of the manual page with format.md."""
    rows = [
        cells[:2]
        for _, cells in cells_of(one_of("docs/reference/format.md"))
        if re.fullmatch(r"\d:\d+", cells[0]) and len(cells) == 6
    ]
    assert [list(item) for item in listed_in_the_manual("DATASETS")] == rows
    assert (len(rows), rows[0], rows[-1]) == (
        46,
        ["1:00", "Model Version"],
        ["9:10", "Confirmed ObjectData Size"],
    )


def test_names_all_causes_in_the_manual() -> None:
    """Compare the causes of the manual page with causes.md."""
    known = {
        cause.number: f"{cause.name} {cause.entries['Meaning'].replace('`', '')}"
        for cause in causes.causes()
    }
    assert [
        (int(number), reported) for number, reported in listed_in_the_manual("CAUSES")
    ] == sorted(known.items())
    assert (len(known) >= 40, known[14][:7]) == (True, "Missing")


def test_has_each_entry_of_each_cause() -> None:
    """Check the entries of causes.md."""
    assert causes.faults() == []


def test_names_the_samples_of_each_cause() -> None:
    """Compare the samples that causes name with those of samples/README.md."""
    rows = [cells for _, cells in cells_of(f"{TOP}/samples/README.md") if "damaged/" in cells[0]]
    wanted = sorted(
        (int(first_match(r"cause (\d+)", cells[2])[1]), cells[0].strip("`")) for cells in rows
    )
    named = [
        (cause.number, path)
        for cause in causes.causes()
        for path in re.findall(r"\[`([^`]+)`\]", cause.entries.get("Sample", ""))
    ]
    assert sorted(named) == wanted


PACKAGE = f"{TOP}/bindings/python/src"


def options_of(module: str, *words: str) -> List[str]:
    """Return the options that a program of the Python package prints for `--help`."""
    program = [sys.executable, "-B", "-m", module, *words, "--help"]
    env = {**os.environ, "COLUMNS": "200", "PYTHONPATH": PACKAGE}
    ran = subprocess.run(program, stdout=subprocess.PIPE, text=True, env=env, check=True)
    return sorted(set(re.findall(r"^ +(?:-h, )?(--[a-z-]+)", ran.stdout, re.M)))


def options_in_the_page(name: str, section: str) -> List[str]:
    """Return the options that have an entry in a section of a manual page of packages/python."""
    text = (
        read_roff(text_of(f"{TOP}/packages/python/{name}.1"))
        .split(f"\n.SH {section}\n")[1]
        .split("\n.SH ")[0]
    )
    tags = re.findall(r"^\.T[PQ]\n(.*)$", text, re.M)
    return sorted(set(re.findall(r"--[a-z-]+", " ".join(tags))))


# The sections of the manual page of iim-archive, by the command whose options they have.
SECTIONS: Dict[Tuple[str, ...], str] = {
    (): '"OPTIONS OF A RUN"',
    ("query",): '"OPTIONS OF QUERY"',
    ("report",): '"OPTIONS OF REPORT"',
    ("verify",): '"OPTIONS OF VERIFY"',
    ("manifest",): '"OPTIONS OF MANIFEST"',
}


def test_names_all_options_in_the_manuals() -> None:
    """Compare the options of the Python programs with their manual pages."""
    for words, section in SECTIONS.items():
        # (of all of them, the page has --help once)
        named = {*options_in_the_page("iim-archive", section), "--help"}
        assert (words, sorted(named)) == (words, options_of("iim.archive", *words))
    explain = read_roff(text_of(f"{TOP}/packages/python/iim-explain.1"))
    assert [
        option
        for option in options_of("iim", "explain")
        if option not in explain and option != "--help"
    ] == []


def help_of_archive(*words: str) -> str:
    """Return the help of a command of iim-archive, each option on one line."""
    program = [sys.executable, "-B", "-m", "iim.archive", *words, "--help"]
    env = {**os.environ, "COLUMNS": "1000", "PYTHONPATH": PACKAGE}
    return subprocess.run(program, stdout=subprocess.PIPE, text=True, env=env, check=True).stdout


def words_of(option: str, value: str, text: str) -> List[str]:
    """Return what the entry of an option must name: its value, or the values that it lists."""
    if value.startswith("{"):
        return re.findall(r"\w+", value)
    if value == "KIND":
        return re.findall(r"\w+", text.partition(": ")[2].replace(" or ", " "))
    if option in ("--where", "--fields"):
        return re.findall(r"\w+", re.split(": |one of ", text)[-1])
    return re.findall(r"\w+|%", value) + re.findall(r"\[default: ([0-9]+)", text)


def test_names_all_words_of_iim_archive_in_the_manual() -> None:
    """Compare the commands, values, choices and columns in the help with the manual page."""
    page = re.sub(r"\\f.", "", read_roff(text_of(f"{TOP}/packages/python/iim-archive.1")))
    named = set(re.findall(r"^\.B iim-archive (\w+)$", page.partition("\n.SH DESC")[0], re.M))
    assert named == set(re.findall(r"`(?:iim-archive )?(\w+)`? ", help_of_archive()))
    absent = []
    for command, section in SECTIONS.items():
        text = page.split(f"\n.SH {section}\n")[1].split("\n.SH ")[0]
        for option, value, use in re.findall(
            r"^  (--[a-z-]+)(.*?)(?:  +|\n +)(\S.*)$", help_of_archive(*command), re.M
        ):
            entry = entry_of(option, text)
            if "As for a run" in entry:
                entry += entry_of(option, page)
            if option == "--fields":
                entry += entry_of("--where", text)
            lost = [word for word in words_of(option, value, use) if not has_word(entry, word)]
            absent += [(*command, option, word) for word in lost]
    assert absent == []


def entry_of(option: str, text: str) -> str:
    """Return the first entry of an option in a manual page, with its tag."""
    return first_match(rf"^\.T[PQ]\n\.[BIR]+ {option}\b(?:.|\n(?!\.TP))*", text, re.M)[0]


def has_word(text: str, word: str) -> bool:
    """Check whether a text has a word."""
    return re.search(rf"(?<!\w){re.escape(word)}(?!\w)", text) is not None


def test_has_an_entry_for_each_option_of_iimwire() -> None:
    """Compare the options that the help prints with the manual page."""
    helps = [
        text_of(path).partition("\nOptions:\n")[2].partition("\n\n")[0]
        for path in glob.glob(f"{TOP}/tests/help/*.txt")
    ]
    printed = {
        option
        for text in helps
        for option in re.findall(r"^ +(?:-\w, |    )(--[a-z-]+)", text, re.M)
    }
    section = (
        read_roff(text_of(f"{TOP}/docs/iimwire.1")).split("\n.SH OPTIONS\n")[1].split("\n.SH ")[0]
    )
    entries = re.findall(
        r"--[a-z]+(?:-[a-z]+)*", " ".join(re.findall(r"^\.TP\n(.*)$", section, re.M))
    )
    assert (sorted(entries), len(printed) >= 7) == (sorted(printed), True)


def test_finds_the_manuals_by_apropos() -> None:
    """Check the summary line of each manual page."""
    pages = {
        "iimwire": "docs/iimwire.1",
        **{name: f"packages/python/{name}.1" for name in ("iim-archive", "iim-explain")},
    }
    for name, path in pages.items():
        text = text_of(f"{TOP}/{path}")
        line = first_match(r"^\.SH NAME\n(.*)\n\.SH SYNOPSIS$", text, re.M)[1]
        assert (name, read_roff(line).partition(" - ")[0]) == (name, name)
        assert (name, [word for word in ("IPTC", "newswire") if word not in line]) == (name, [])
