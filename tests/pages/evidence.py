"""The pages of evidence: what states each promise and each cause, and what detects each change.

Each page is generated from a file of lines, whose fields are separated by ` | `.
"""
from __future__ import annotations

import itertools
import textwrap
from typing import Dict, Iterator, List

from pages import causes
from pages.items import TOP, text_of

FOLDER = "docs/reference"
# The lines `CRATE/FILE | DEFINITIONS | FOUND BY`: what detects a change of a definition with its
# code.
DEFINITIONS = "tests/definition_tests.txt"
# The lines `PROMISE | PART | STATED BY | SHOWN BY`.
PROMISES = "tests/promises.txt"
# The lines `CAUSES | CONTRACT | SHOWN BY`.
REFUSALS = "tests/refusals.txt"

HEAD_OF_DEFINITIONS = """# How each definition is tested

A definition in `specs/` that contains a number or a text could be changed together with the code
that it describes, and everything would still be proved. This page lists, for each such definition
and for some others, what detects such a change: a lemma or a test (in backticks), or questions of
`vectors`, whose heading is in quotation marks. It is generated from `tests/definition_tests.txt`,
and `tests/documents` checks that the list is complete and that what it names exists.
"""
HEAD_OF_PROMISES = """# The five promises: contracts and evidence

Each part of the [five promises](../THEOREM.md#the-five-promises), the clauses that state it, and
what shows that these clauses can fail: mutants that the prover rejects, and tests.
[How to read the names](README.md#reading-an-entry). Generated from `tests/promises.txt`.
"""
HEAD_OF_REFUSALS = """# Refusals: cause, layer, contract, test

[`causes.md`](causes.md) says what each cause means and what to do. This page lists the contracts
that state when a cause is reported, and what shows that they can fail.
[How to read the names](README.md#reading-an-entry). Generated from `tests/refusals.txt`.
"""
# The lines `TOPIC | QUESTIONS | REPLIES`; without a question, what holds for all of the topic.
QUESTIONS = "tests/questions.txt"

HEAD_OF_QUESTIONS = """# The questions of `vectors`

Each question with its arguments, and what the program replies. [`VECTORS.md`](../VECTORS.md)
describes the form of arguments and replies. Generated from `tests/questions.txt`.
"""
# The section of promises that is a table of mutants, edits and lemmas.
TABLE = "Mutants that a lemma rejects"
HEAD_OF_TABLE = """These change a definition and its code in the same way, or the definition alone.

| Mutant | The edit | The lemma that rejects it |
|---|---|---|
"""


def records(path: str) -> List[List[str]]:
    """Return the fields of each line of a file."""
    lines = text_of(f"{TOP}/{path}").splitlines()
    return [[field.strip() for field in line.split(" |")] for line in lines]


def item(text: str) -> str:
    """Return an item of a list, in lines of at most 100 columns."""
    return textwrap.fill(
        f"- {text}", 100, subsequent_indent="  ", break_on_hyphens=False, break_long_words=False
    )


def definitions() -> Iterator[str]:
    """Yield the sections of the page on definitions."""
    yield HEAD_OF_DEFINITIONS
    for file, found in itertools.groupby(records(DEFINITIONS), lambda fields: fields[0]):
        items = [
            item(", ".join(f"`{name}`" for name in names.split(", ")) + f": {finds}")
            for _, names, finds in found
        ]
        yield f"## {file}\n\n" + "\n".join(items) + "\n"


def promise(part: str, stated: str, shown: str) -> str:
    """Return the item of one part of a promise."""
    if not stated:
        return item(part)
    return item(f"**{part}** {stated}" + (f" *Shown by* {shown}" if shown else ""))


def promises() -> Iterator[str]:
    """Yield the sections of the page on promises."""
    yield HEAD_OF_PROMISES
    for name, found in itertools.groupby(records(PROMISES), lambda fields: fields[0]):
        if name == TABLE:
            rows = [f"| {part} | {shown} | {stated} |\n" for _, part, stated, shown in found]
            yield f"## {name}\n\n{HEAD_OF_TABLE}" + "".join(rows)
        else:
            yield f"## {name}\n\n" + "\n".join(promise(*fields[1:]) for fields in found) + "\n"


def refusals() -> Iterator[str]:
    """Yield the sections of the page on refusals."""
    yield HEAD_OF_REFUSALS
    known = {cause.number: cause for cause in causes.causes()}
    for numbers, contract, shown in records(REFUSALS):
        named = [known[int(number)] for number in numbers.split()]
        entries = [("Layer", named[0].entries["Layer"])] if "Layer" in named[0].entries else []
        entries += [("Contract", contract), ("Shown by", shown)]
        heading = ", ".join(f"{cause.number} `{cause.name}`" for cause in named)
        items = [item(f"**{key}**: {text}") for key, text in entries]
        yield f"## {heading}\n\n" + "\n".join(items) + "\n"


def questions() -> Iterator[str]:
    """Yield the sections of the page on the questions of `vectors`."""
    yield HEAD_OF_QUESTIONS
    for topic, found in itertools.groupby(records(QUESTIONS), lambda fields: fields[0]):
        yield f"## {topic}\n"
        for asked, each in itertools.groupby(found, lambda fields: bool(fields[1])):
            texts = [item(f"{words}: {text}" if asked else text) for _, words, text in each]
            yield "\n".join(
                texts if asked else [text[2:].replace("\n  ", "\n") for text in texts]
            ) + "\n"


def wanted() -> Dict[str, str]:
    """Return the pages, with their texts."""
    pages = {
        "definition-tests": definitions,
        "promises": promises,
        "refusals": refusals,
        "questions": questions,
    }
    return {f"{FOLDER}/{name}.md": "\n".join(sections()) for name, sections in pages.items()}
