"""The lists in docs/reference/CRATE.md: each call of the crate with the clauses of its contract.

The list on a page is generated from the sources. For each call it has the first sentence of the doc
comment, the names of the clauses, each with the public definitions that it cites, and the mutants
of the function itself. For a record of lemmas it has each lemma. The rest of a page is written by
hand, and mostly names what only tests show.
"""
import glob
import itertools
import os
import re
import textwrap
from typing import Collection, Dict, Iterator, List, Sequence, Set

from pages import callers, items
from pages.items import TOP
from wrong import sources as wrong_bodies

FOLDER = "docs/reference"
# The pages by hand that cite clauses, mutants, tests and questions of `vectors`, beside those of
# the crates.
BY_HAND = [
    "docs/THEOREM.md",
    *(f"{FOLDER}/{name}.md" for name in ("README", "promises", "refusals")),
]
# The heading above a generated list.
HEAD = "## Calls\n\n"
# Where public definitions stand: what octets are, where readers and writers stand, and what the
# laws say.
ROOMS = ("Format", "States", "Laws")
# The longest clause without a name that a list has as it is.
SHORT = 60
LIST = re.compile(rf"^{HEAD}(?:(?:- |  ).*\n)+", re.M)
# The columns of a line.
WIDTH = 100


def first_sentence(doc: Sequence[str]) -> str:
    """Return the first sentence of a doc comment."""
    said = callers.paragraphs(doc)
    first = re.match(r".*?[.](?= |$)|.*", said[0]) if said else None
    return first[0] if first else ""


def brought_in(path: str) -> Set[str]:
    """Return the public definitions that a file imports, by the names that the file uses."""
    text = items.text_of(f"{TOP}/{path}")
    groups = re.findall(
        rf"^ *ghost use Rattle\.\w+\.specs\.(?:{'|'.join(ROOMS)})(?:\.[\w.]+)?\.\{{([^}}]*)\}};",
        text,
        re.M,
    )
    return {name.split(" as ")[-1].strip() for group in groups for name in group.split(",")}


def told_clause(clause: str, definitions: Collection[str]) -> str:
    """Return a clause as its name and the public definitions that it cites.

    A clause without a name is its definitions alone, or its text if the text is short.
    """
    head = re.match(r"\w+\*?(?: (\w+))?(.*)", " ".join(clause.split()))
    assert head is not None, clause
    name, body = head.groups()
    cited = list(
        dict.fromkeys(f"`{word}`" for word in re.findall(r"[\w']+", body) if word in definitions)
    )
    if name:
        return f"`{name}`" + (f" ({', '.join(cited)})" if cited else "")
    code = re.sub(r"\A *\{ ?(.*?) ?\}?;?\Z", r"\1", body)
    return (
        f"`{code}`" if len(code) <= SHORT and "|" not in code else ", ".join(cited) or "one clause"
    )


def told_clauses(item: items.Item, definitions: Collection[str]) -> str:
    """Return the clauses of a call: what it requires, and what it ensures."""
    needs = [told_clause(each, definitions) for each in item.clauses if each.startswith("requires")]
    promises = [
        told_clause(each, definitions) for each in item.clauses if each.startswith("ensures")
    ]
    return "; ".join(
        [f"needs {', '.join(needs)}" for _ in needs[:1]]
        + [", ".join(promises) for _ in promises[:1]]
    )


def path_of(item: items.Item) -> str:
    """Return the path of a function below its crate, as a mutant names it."""
    below = item.path.split("/src/")[1].removesuffix(".rt")
    module = "" if below == "lib" else below.replace("/", "::") + "::"
    trait, _, name = item.name.rpartition("::")
    return f"{module}{f'{item.owner}{trait}::' if item.owner else ''}{name}"


def name_of(item: items.Item) -> str:
    """Return the name of a call in the lists."""
    return (
        f"{item.owner}::{item.name}"
        if item.owner and item.kind == "fn"
        else f"{item.owner} as {item.name}"
        if item.owner
        else item.name
    )


def told(crate: str) -> Iterator[str]:
    """Yield the parts of a list: the calls of a crate, then the mutants of private functions."""
    bodies: Dict[str, List[str]] = {}
    for body in wrong_bodies.bodies(crate):
        bodies.setdefault(body.function, []).append(f"`{body.word}`")
    for item in (item for _, found in callers.files_of(crate) for item in found):
        if item.kind == "fn" or item.kind == "given" and (item.clauses or path_of(item) in bodies):
            held = bodies.pop(path_of(item), [])
            yield part(
                f"`{name_of(item)}`: {first_sentence(item.doc)}",
                told_clauses(item, brought_in(item.path)),
                held,
            )
            for name, statement, words in items.laws_at(item):
                yield part(f"`{name}`: {words}", f"`{statement}`", [], "  ")
    if bodies:
        yield part("Private functions.", "", sorted(itertools.chain(*bodies.values())))


def part(said: str, clauses: str, bodies: Sequence[str], indent: str = "") -> str:
    """Return a part of a list, in lines."""
    words = [
        said,
        *(f"*Clauses:* {clauses}." for _ in clauses[:1]),
        *(f"*Mutants:* {', '.join(bodies)}." for _ in bodies[:1]),
    ]
    return textwrap.fill(
        " ".join(words),
        WIDTH,
        initial_indent=f"{indent}- ",
        subsequent_indent=f"{indent}  ",
        break_long_words=False,
        break_on_hyphens=False,
    )


def page_of(crate: str) -> str:
    """Return the path of the page of a crate, below the repository."""
    return f"{FOLDER}/{crate}.md"


def pages() -> Dict[str, str]:
    """Return the pages of crates, by their crates, with their texts."""
    paths = sorted(glob.glob(f"{TOP}/{FOLDER}/*.md"))
    crates = [os.path.basename(path).removesuffix(".md") for path in paths]
    return {
        crate: items.text_of(path)
        for crate, path in zip(crates, paths)
        if os.path.isdir(f"{TOP}/crates/{crate}")
    }


def made(crate: str, page: str) -> str:
    """Return the page of a crate with its list generated anew, and all else as it is."""
    listed = list(told(crate)) if items.is_library(crate) else []
    return LIST.sub(lambda _: HEAD + "\n".join(listed) + "\n", page, count=1) if listed else page


def by_hand() -> str:
    """Return all that is written by hand on these pages, without code blocks."""
    texts = [
        LIST.sub("", text, count=1) if items.is_library(crate) else text
        for crate, text in pages().items()
    ]
    return re.sub(
        r"^```.*?^```\n",
        "",
        "".join([*(items.text_of(f"{TOP}/{path}") for path in BY_HAND), *texts]),
        flags=re.M | re.S,
    )


def wanted() -> Dict[str, str]:
    """Return the pages of crates, with their texts."""
    return {page_of(crate): made(crate, text) for crate, text in pages().items()}
