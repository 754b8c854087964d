"""The pages for callers, crates/CRATE/CALLING.md, which are generated from the sources.

A page has the comment at the root of the crate, the text of docs/CALLING.md for its callers, an
example that `CALLERS` names, which is cut out of its source, and all public items with their doc
comments, file by file.
"""
from __future__ import annotations

import functools
import os
import re
import textwrap
from typing import Dict, Iterator, List, Sequence, Tuple

from pages import items, shown
from pages.items import TOP

WIDTH = 140
HAND = f"{TOP}/docs/CALLING.md"
MADE = (
    "This page is generated from the sources and from [`docs/CALLING.md`](../../docs/CALLING.md) "
    "by `tests/write_pages`."
)
CLAUSES = "[`docs/reference/{0}.md`](../../docs/reference/{0}.md) has the clauses of each call."
LAW = (
    "A lemma is a function whose body is empty, or calls other lemmas only. "
    "A call makes its clauses available to the proof."
)
LAWS = "The clause of `{}` is a record: each lemma is a field of it."
# An item of docs/CALLING.md: the libraries that it is about, and its text.
ITEM = re.compile(r"^- ((?:`\w+`(?:, )?)+): ((?:.|\n  )+)", re.M)
# The caller that the page of each library shows: the names, their file, and what else is said.
EXPORTS = "crates/iim_exports/src/lib.rt"
WITH_PROOF = ", with a few lines of proof in the same crate"
CALLERS: Dict[str, Tuple[str, str, str]] = {
    "iim_dataset": ("pass_on", "crates/caller_tests/src/devices.rt", ""),
    "iim_tables": ("is_good", "crates/caller_tests/src/tables.rt", ""),
    "iim_fields": ("LIMITS FIELDS build", "crates/examples/src/send.rt", ""),
    "iim_object": ("known_plan", "crates/caller_tests/src/objects.rt", ""),
    "wire_story": ("count_words", "crates/caller_tests/src/stories.rt", WITH_PROOF),
    "wire_message": ("urgent_head", "crates/caller_tests/src/messages.rt", ""),
    "iim_places": ("octets_of_object", "crates/caller_tests/src/places.rt", WITH_PROOF),
    "iim_unpack": (
        "receive",
        "crates/receive_copy/src/main.rt",
        ", a complete program. `crates/examples/src/resume.rt` feeds chunks, saves and restores",
    ),
    "iim_pack": (
        "pack_line",
        "crates/caller_tests/src/packing.rt",
        f"{WITH_PROOF}. `crates/examples/src/send.rt` is a complete program, which packs the "
        "lines of its input while it reads them",
    ),
    "iim_audit": ("report_of", "crates/caller_tests/src/audits.rt", ""),
    "iim_round_trip": ("unpacked", "crates/caller_tests/src/round_trips.rt", ""),
    "iim_script": ("read_script", "crates/iim_pack_script/src/script.rt", ""),
    "iim_request": (
        "escaped_argument escaped_arguments printed_fault",
        "crates/iimwire/src/words.rt",
        "",
    ),
    "iim_output": ("flush_after_failure", "crates/iim_listing/src/list.rt", ""),
    "iim_listing": ("run_listing", "crates/iim_commands/src/running.rt", ""),
    "iim_pack_script": ("packed_form", "crates/iim_c/src/pack.rt", ""),
    "iim_commands": (
        "serve",
        "crates/iimwire/src/serve.rt",
        ". `crates/iimwire` is the program",
    ),
    "iim_files": ("run_next_file", "crates/iimwire/src/main.rt", ""),
    "iim_c": ("iim_check iim_cause_text iim_audit", EXPORTS, ", which exports them to C"),
    "iim_handle": (
        "iim_unpacker_open iim_unpacker_feed iim_unpacker_close",
        EXPORTS,
        ", which exports them to C",
    ),
    "trials": (
        "a_failing_reader_gives_what_came_before",
        "crates/layer_tests/src/datasets.rt",
        ". It prints `Ok(1) a`, and then `Err(Failed)`",
    ),
    "worked": (
        "sink_receives_two_lines_in_three_calls",
        "crates/envelope_tests/src/unpacking/calls.rt",
        ", a fault-injection test",
    ),
}


def wrapped(text: str, first: str = "", rest: str = "") -> List[str]:
    """Wrap a text at the width of the page."""
    return textwrap.wrap(
        text,
        WIDTH,
        initial_indent=first,
        subsequent_indent=rest,
        break_long_words=False,
        break_on_hyphens=False,
    )


def joined(words: List[str]) -> str:
    """Join words into a list for a sentence."""
    return " and ".join([", ".join(words[:-1]), words[-1]] if words[1:] else words)


def without_links(text: str) -> str:
    """Return the text of a doc comment with each link to code replaced by its code."""
    return re.sub(
        r"\[(`[^`\]]+`)\](?:\([\w:]+\))?", lambda link: link[1].replace("crate::", ""), text
    )


def paragraphs(doc: Sequence[str]) -> List[str]:
    """Return the paragraphs of a doc comment."""
    return [
        without_links(" ".join(part.split("\n")))
        for part in "\n".join(doc).strip().split("\n\n")
        if part
    ]


def said_of_file(path: str) -> List[str]:
    """Return the lines of the comment at the top of a file."""
    return [line[3:].strip() for line in items.text_of(path).split("\n") if line.startswith("//!")]


def told(item: items.Item) -> Iterator[str]:
    """Return the lines of an item of a list. A short comment stands on the line of the item."""
    said = paragraphs(item.doc)
    beside = f"- `{item.code}`: {said[0]}" if len(said) == 1 and item.kind != "fn" else ""
    if beside and len(beside) <= WIDTH:
        yield beside
        return
    yield f"- `{item.code}`"
    for at, part in enumerate(said):
        yield from [""] if at else []
        yield from wrapped(part, "  ", "  ")
    for name, _, words in items.laws_at(item):
        yield from wrapped(f"`{name}`: {words}", "  - ", "    ")


def trait_of(code: str) -> str:
    """Return the name of a trait that a type implements, and its bounds.

    Both are in the first line of the block.
    """
    head = re.match(r"impl(?:<(.*?)>)? (.*) for ", code)
    assert head is not None, code
    needs, name = head.groups()
    return f"`{name}`{f' (`{needs}`)' if needs and ':' in needs else ''}"


def traits_of(found: Sequence[items.Item]) -> Iterator[str]:
    """Return the lines on the traits that a type implements, and on the bounds of its calls."""
    needs = list(
        dict.fromkeys(
            re.sub(r"^impl<(.*?)> (?s:.*)", r"\1", item.code)
            for item in found
            if " for " not in item.code
        )
    )
    traits = [trait_of(item.code) for item in found if " for " in item.code]
    if needs:
        yield from [
            "",
            *wrapped(f"Its methods need {' and '.join(f'`{each}`' for each in needs)}."),
        ]
    if traits:
        yield from ["", *wrapped(f"It implements {', '.join(traits)}.")]


def part_of_type(found: Sequence[items.Item]) -> Iterator[str]:
    """Return the lines on a type or a trait, with its parts, its calls and its traits."""
    (head,) = [item for item in found if item.kind in items.BLOCKS]
    yield from ["", f"### `{head.code}`"]
    for part in paragraphs(head.doc):
        yield from ["", *wrapped(part)]
    yield from traits_of([item for item in found if item.kind == "impl"])
    listed = [
        item
        for kinds in (("part",), ("const",), ("ghost",), ("fn",))
        for item in found
        if item.kind in kinds
    ]
    if listed:
        yield ""
    for item in listed:
        yield from told(item)


def part_of_file(path: str, found: Sequence[items.Item], modules: set[str]) -> Iterator[str]:
    """Return the lines on a file: its types and traits, its functions, and its constants."""
    said = paragraphs(said_of_file(f"{TOP}/{path}"))
    title = re.split(r"\.(?: |$)", said[0])[0] if said else ""
    place = found[0].place
    depth = "###" if is_laws(path) else "##"
    yield from ["", f"{depth} In `{place}`: {title}" if place in modules else f"{depth} {title}"]
    types = list(dict.fromkeys(item.owner for item in found if item.owner))
    for name in types:
        yield from part_of_type([item for item in found if item.owner == name])
    free = [item for item in found if not item.owner]
    for kind, heading in (("fn", "Functions"), ("const", "Constants")):
        listed = [item for item in free if item.kind == kind]
        if listed:
            yield from ["", f"### {heading}", ""] if types or len(
                {item.kind for item in free}
            ) > 1 else [""]
        for item in listed:
            yield from told(item)


def is_laws(path: str) -> bool:
    """Return whether a file has laws."""
    return path.removesuffix(".rt").endswith("laws")


def files_of(crate: str) -> Iterator[Tuple[str, List[items.Item]]]:
    """Return the public items of a library, file by file.

    The files named on the front of the page come first, in that order, and the laws last. The calls
    of a type are in the file of the type.
    """
    front = " ".join(
        [
            *paragraphs(said_of_file(f"{TOP}/crates/{crate}/src/lib.rt")),
            by_hand().get(crate, ""),
        ]
    )
    found = items.items(crate)
    home = {item.name: item.path for item in found if item.kind in items.BLOCKS}
    files: Dict[str, List[items.Item]] = {}
    for item in found:
        files.setdefault(home.get(item.owner or "", item.path), []).append(item)

    def order(path: str) -> Tuple[bool, int, str]:
        named = [
            at
            for item in files[path]
            for at in [front.find(f"`{item.owner or item.name}")]
            if at >= 0
        ]
        return is_laws(path), min(named, default=len(front)), path

    for path in sorted(files, key=order):
        yield path, sorted(files[path], key=lambda item: item.path != path)


def parts_of_page(crate: str) -> Iterator[str]:
    """Return the lines on all public items, file by file."""
    _, modules = items.handed_on(crate)
    files = list(files_of(crate))
    laws = [path for path, _ in files if is_laws(path)]
    for path, found in files:
        records = [LAWS.format(item.name) for item in found if items.laws_at(item)]
        yield from ["", "## Lemmas", "", *wrapped(" ".join([LAW, *records]))] if path in laws[
            :1
        ] else []
        yield from part_of_file(path, found, modules)


def names_of(crate: str) -> Iterator[str]:
    """Return the lines on the paths of public items, and on those of other crates."""
    names, modules = items.handed_on(crate)
    own = ", ".join(
        f"`{module}`"
        for module in sorted(modules)
        if os.path.exists(f"{TOP}/crates/{crate}/src/{module}.rt")
    )
    at_root = {item.name for item in items.items(crate)} & names
    where = (
        f"All names are at the root{f', except those in {own}' if own else ''}."
        if at_root
        else f"Each name is in its module: {own}."
    )
    inner = ", ".join(f"`{name}`" for name in sorted(items.internals(crate)))
    where += (
        f" The module `internals` is for the layers above only, and promises nothing: {inner}."
        if inner
        else ""
    )
    others = list(items.of_others(crate))
    yield from wrapped(
        f"{where} {CLAUSES.format(crate)}"
        + (" Exported besides, as names or as modules:" if others else "")
    )
    yield from [""] if others else []
    for place, other, handed in others:
        listed = ", ".join(f"`{name}`" for name in handed)
        yield from wrapped(
            f"of [`{other}`](../{other}/CALLING.md){f' in `{place}`' if place else ''}: {listed}",
            "- ",
            "  ",
        )


@functools.cache
def by_hand() -> Dict[str, str]:
    """Return the text of docs/CALLING.md for each library."""
    return {
        crate: " ".join(text.split())
        for crates, text in ITEM.findall(items.text_of(HAND))
        for crate in re.findall(r"`(\w+)`", crates)
    }


def from_here(text: str) -> str:
    """Return a text of docs/CALLING.md with its links relative to the directory of a crate."""
    return re.sub(
        r"\]\(([^):]+)\)",
        lambda link: f"]({os.path.relpath(os.path.join('docs', link[1]), 'crates/any')})",
        text,
    )


def named_caller(crate: str) -> Tuple[List[str], str, str]:
    """Return the example of a library: its names, its file, and the text about it."""
    names, path, rest = CALLERS[crate]
    return names.split(), path, rest


def caller_of(crate: str) -> str:
    """Return the file with the example of a library."""
    return named_caller(crate)[1]


def page(crate: str) -> str:
    """Return the page for the callers of a library."""
    names, path, rest = named_caller(crate)
    root = paragraphs(said_of_file(f"{TOP}/crates/{crate}/src/lib.rt"))
    said = from_here(by_hand()[crate])
    lines = [f"# Calling `{crate}`", "", MADE]
    for part in [*root, said[0].upper() + said[1:]]:
        lines += ["", *wrapped(part)]
    lines += [
        "",
        *names_of(crate),
        "",
        "## Example",
        "",
        *wrapped(f"{joined([f'`{name}`' for name in names])} of `{path}`{rest}."),
        "",
    ]
    lines += ["```rust", shown.shown(path, names), "```"]
    lines += parts_of_page(crate)
    return "\n".join(lines) + "\n"


def wanted() -> Dict[str, str]:
    """Return each page with its text."""
    return {f"crates/{crate}/CALLING.md": page(crate) for crate in by_hand()}
