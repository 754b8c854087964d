"""The pages docs/reference/definitions.md and definitions-below.md.

They have the definitions that contracts cite, in reading order: the first page those of the
headline, the second page those that only the contracts below the headline cite. `READ_FIRST` and
`READ_NEXT` fix the order of the files; within a file, definitions keep their order. All else is
generated.
"""
from __future__ import annotations

import collections
import re
import textwrap
from typing import Callable, Dict, Iterable, Iterator, List, Tuple

from pages import cited
from pages.cited import Definition
from pages.items import TOP, text_of

FOLDER = "docs/reference"
PAGE, PAGE_BELOW = f"{FOLDER}/definitions.md", f"{FOLDER}/definitions-below.md"
WIDTH = 100
READ_FIRST = {
    "Octets and datasets": ["iim_dataset/Format/Octets", "iim_dataset/Format/Datasets"],
    "The tables": [f"iim_tables/Format/{name}" for name in ("Dates", "Kinds", "Rows", "Records")],
    "The records": ["iim_fields/Format/Records", "iim_fields/Format/Causes"],
    "The object": ["iim_object/Format/Objects", "iim_object/Format/Packing"],
    "The story and the message": ["wire_story/Format/Texts", "wire_message/Format/Messages"],
    "Packed envelopes": ["iim_pack/Format/Packed"],
    "Envelopes, refusals and results": [
        *(f"iim_places/Format/{name}" for name in ("Admitted", "Causes", "Open", "Streams")),
        "iim_unpack/Format/Pieces",
    ],
    "The contract of the headline": ["iim_round_trip/Format/RoundTrip"],
}
READ_NEXT = {
    "States of the readers": [
        *("iim_dataset/Format/Octets", "iim_dataset/States/Devices", "iim_dataset/States/Reading"),
        *("iim_fields/States/Stores", "iim_fields/States/Standing"),
        *("iim_object/Format/Objects", "iim_object/States/Reading", "iim_object/States/Writing"),
        *("wire_story/States/Reading", "wire_story/Format/Texts", "wire_message/States/Reading"),
    ],
    "The packer": ["iim_pack/Format/Orders", "iim_pack/States/Packing"],
    "The unpacker": ["iim_places/Format/Streams", "iim_unpack/States/Unpacking"],
}
FOREWORD = """# Definitions of the headline

Every definition that the contract of `unpack_packed` cites, directly or through others, and no
other: {count} definitions of {lines:,} lines, from {files} files. [`THEOREM.md`](../THEOREM.md) has
the contract, and says what it rests on besides.

This page is generated from `crates/CRATE/specs` by `tests/write_pages`, without imports. Each
definition cites only definitions above it, and the list below it links to them. Names without a
link are those of std (`Prelude`, lists), or types of the sources: those are listed
[at the end](#types-of-the-sources).
"""
FOREWORD_BELOW = """# Definitions of the contracts below the headline

The contracts of `Unpacker::feed`, `end_of_input`, `into_unpacked` and `pack` cite these beside the
[definitions of the headline](definitions.md): {count} definitions of {lines:,} lines. With those of
the headline they are {all_lines:,} lines. They define the states of readers, writers and sinks.

This page is generated from `crates/CRATE/specs` by `tests/write_pages`, as the other one is.
"""


def own_comment(lines: List[str]) -> List[str]:
    """Return the part of a comment that is about a definition, without titles of sections."""
    return [line for line in lines if not line.startswith("-- ----")]


def texts_of(file: str) -> Dict[str, Tuple[List[str], List[str]]]:
    """Return the comment and the code of each definition of a file, both as lines.

    A definition without a comment has the comment of the definition above it, which must name it.
    """
    lines = text_of(f"{TOP}/{cited.path_of(file)}").split("\n")
    begins = [
        (at, found[1]) for at, line in enumerate(lines) if (found := re.match(cited.BEGINS, line))
    ]
    texts, said, speaker = {}, [], ""
    for (at, name), (end, _) in zip(begins, begins[1:] + [(len(lines), "")]):
        code = [line for line in lines[at:end] if not re.match(r"--|(pub )?use ", line)]
        above = at
        while lines[above - 1].startswith("--"):
            above -= 1
        if own := own_comment(lines[above:at]):
            said, speaker = own, name
        beside = [] if speaker in ("", name) else [f"-- (with {speaker}) {said[0][3:]}", *said[1:]]
        texts[name] = own or beside, "\n".join(code).strip("\n").split("\n")
    return texts


def anchor(heading: str) -> str:
    """Return the anchor of a heading."""
    return re.sub(r"[^\w -]", "", heading.lower()).replace(" ", "-")


def kind_of(name: str) -> str:
    """Return the kind of a definition, by its name."""
    return "type" if name[0].isupper() else "function"


def headings(definitions: Iterable[Definition]) -> Dict[Definition, str]:
    """Return the heading of each definition.

    A heading is the name, and what distinguishes it from others whose heading had the same anchor.
    """
    listed = list(definitions)
    titles: Dict[Definition, str] = {}
    forms: List[Callable[[str, str], str]] = [
        lambda file, name: f"`{name}`",
        lambda file, name: f"`{name}` of `{file.split('/')[0]}`",
        lambda file, name: f"`{name}` of `{file.split('/')[0]}`, a {kind_of(name)}",
        lambda file, name: f"`{name}` of `{file}`",
    ]
    for title in forms:
        found = collections.Counter(
            anchor(each) for each in [*titles.values(), *READ_FIRST, *READ_NEXT]
        )
        titles.update(
            {
                each: title(*each)
                for each in listed
                if each not in titles or found[anchor(titles[each])] > 1
            }
        )
    return titles


def wrapped(words: str) -> List[str]:
    """Return a text in lines of the page."""
    return textwrap.wrap(words, WIDTH, break_long_words=False, break_on_hyphens=False)


def in_order(
    parts: Dict[str, List[str]], definitions: Iterable[Definition]
) -> Iterator[Tuple[str, str, List[Definition]]]:
    """Yield the part, the file and its definitions, file by file in reading order.

    Files that are in no part come last.
    """
    left = collections.defaultdict(set)
    for file, name in definitions:
        left[file].add(name)
    for part, files in [
        *parts.items(),
        ("Other files", sorted(set(left) - {file for files in parts.values() for file in files})),
    ]:
        for file in files:
            names = [name for name in cited.public_file(file)[1] if name in left[file]]
            yield part, file, [(file, name) for name in names]


def purpose(file: str) -> str:
    """Return the text of the comment at the top of a file."""
    top = re.match(r"((?:--.*\n)+)", text_of(f"{TOP}/{cited.path_of(file)}"))
    return " ".join(line[3:].strip() for line in own_comment(top[1].splitlines())) if top else ""


def part_of_definition(
    definition: Definition, titles: Dict[Definition, str], elsewhere: Dict[Definition, str]
) -> Iterator[str]:
    """Yield the lines of a definition.

    These are its heading, its comment, its code, and links to the definitions that it cites.
    """
    comment, code = texts_of(definition[0])[definition[1]]
    yield from ["", f"#### {titles[definition]}", "", "```text", *comment, *code, "```"]
    links = []
    for word, source in cited.cited_by(definition).items():
        at = (
            f"#{anchor(titles[source])}"
            if source in titles
            else f"{PAGE.split('/')[-1]}#{anchor(elsewhere[source])}"
        )
        links.append(f"[`{word}`]({at})")
    if links:
        yield from ["", *wrapped(f"Cites {', '.join(links)}.")]


def types_of(definitions: Iterable[Definition]) -> Dict[str, List[str]]:
    """Return the types and variants of the sources that definitions use, by source."""
    found = collections.defaultdict(set)
    for file, name in definitions:
        text = text_of(f"{TOP}/{cited.path_of(file)}")
        code = "\n".join(texts_of(file)[name][1])
        for crate, (room, *above), each, word in cited.imported(text):
            if room == "declared" and re.search(rf"(?<![\w'.]){word or above[-1]}(?![\w'])", code):
                path = [part for part in above if part != "TheVariants" and part[0].islower()]
                kind = next((part for part in above if part[0].isupper()), each or "")
                found[f"crates/{crate}/src/{'/'.join(path)}.rt"].add(kind)
    return {path: sorted(names) for path, names in sorted(found.items())}


def lines_of_page(
    parts: Dict[str, List[str]], definitions: Iterable[Definition], elsewhere: Dict[Definition, str]
) -> Iterator[str]:
    """Yield the lines of a page below its foreword, definition by definition."""
    listed = list(definitions)
    titles, last = headings(listed), None
    for part, file, each in in_order(parts, listed):
        if part != last:
            yield from ["", f"## {part}"]
            last = part
        yield from [
            "",
            f"### From `{file}`",
            "",
            *wrapped(f"{purpose(file)} ([source](../../{cited.path_of(file)}))"),
        ]
        for definition in each:
            yield from part_of_definition(definition, titles, elsewhere)
    yield from [
        "",
        "## Types of the sources",
        "",
        "Types and variants that the definitions use as the sources declare them:",
        "",
    ]
    for path, names in types_of(listed).items():
        yield from textwrap.wrap(
            f"[`{path}`](../../{path}): {', '.join(f'`{name}`' for name in names)}",
            WIDTH,
            initial_indent="- ",
            subsequent_indent="  ",
            break_long_words=False,
            break_on_hyphens=False,
        )


def wanted() -> Dict[str, str]:
    """Return both pages, with their texts."""
    headline, all_of_them = cited.believed(cited.HEADLINE), cited.believed(
        cited.HEADLINE + cited.BELOW
    )
    below = [each for each in all_of_them if each not in headline]
    files, lines = {file for file, _ in headline}, cited.lines_of(headline)
    text = FOREWORD.format(count=len(headline), lines=lines, files=len(files))
    text += "\n".join(lines_of_page(READ_FIRST, headline, {})) + "\n"
    text_below = FOREWORD_BELOW.format(
        count=len(below), lines=cited.lines_of(below), all_lines=cited.lines_of(all_of_them)
    )
    text_below += "\n".join(lines_of_page(READ_NEXT, below, headings(headline))) + "\n"
    return {PAGE: text, PAGE_BELOW: text_below}
