"""Find the public definitions that contracts cite, by the imports of the files that cite them.

A file of definitions is named by its path below `crates`, as `iim_dataset/Format/Octets`. A
definition is a pair of a file and a name.
"""
from __future__ import annotations

import functools
import re
from typing import Collection, Dict, Iterable, Iterator, List, Optional, Set, Tuple

from pages import items
from pages.clauses import ROOMS
from pages.items import TOP, text_of

Definition = Tuple[str, str]
# A crate, a type or None, and a function: whose contract is meant.
Contract = Tuple[str, Optional[str], str]
# Of each word the file that it is imported from, and its name there; no name if the word is that of
# the file.
Words = Dict[str, Tuple[str, Optional[str]]]
HEADLINE: List[Contract] = [("iim_round_trip", None, "unpack_packed")]
BELOW: List[Contract] = [
    ("iim_unpack", "Unpacker", name) for name in ("feed", "end_of_input", "into_unpacked")
] + [("iim_pack", None, "pack")]
# What a definition begins with, up to its name.
BEGINS = r"^(?:abbrev |unfoldable )?pub (?=(?:record |data )?([^\s({:]+))"


def imported(
    text: str, side: str = "specs"
) -> Iterator[Tuple[str, List[str], Optional[str], Optional[str]]]:
    """Yield the imports of a text from `specs` or `proofs`.

    Each import has the crate, the modules (and the type) above the name, the name, and the word
    that the text uses for it. A module has no name, and no word if it is not renamed.
    """
    uses = (
        rf"^ *(?:ghost |pub )?use Rattle\.(\w+)\.{side}\.([\w.]*?)"
        r"\.?(?:\{([^}]*)\})?(?: as (\w+))?;?$"
    )
    for crate, path, group, word in re.findall(uses, text, re.M):
        above = path.split(".") if path else []
        for each in group.split(",") if group else []:
            name, _, alias = each.strip().partition(" as ")
            *within, name = name.split(".")
            yield crate, above + within, name, alias or name
        if not group:
            yield crate, above, None, word


def brings_in(text: str) -> Words:
    """Return the public definitions that a text imports, by the words that it uses for them."""
    words: Words = {}
    for crate, (room, *path), name, word in imported(text):
        if room in ROOMS and word:
            file, within = path[:1], ".".join(path[1:])
            words[word] = "/".join([crate, room, *file]), (within or name) if name else None
    return words


def path_of(file: str) -> str:
    """Return the path of a file of definitions, below the repository."""
    crate, _, below = file.partition("/")
    return f"crates/{crate}/specs/{below}.antt"


@functools.lru_cache(maxsize=None)
def public_file(file: str) -> Tuple[Words, Dict[str, str], Dict[str, str]]:
    """Return the imports of a file, the code of its definitions, and the owner of each name.

    The owner of a name is the definition of that name, or the type whose part it is.
    """
    text = re.sub(" *--.*", "", text_of(f"{TOP}/{path_of(file)}"))
    parts = re.split(BEGINS, text, flags=re.M)
    codes = dict(zip(parts[1::2], parts[2::2]))
    forms = {
        form: name
        for name, code in codes.items()
        if code.startswith("data ")
        for form in re.findall(r"^  (\w+) :", code, re.M)
    }
    return brings_in(text), codes, {**forms, **{name: name for name in codes}}


def names_bound(code: str) -> Set[str]:
    """Return the names that a definition binds: its parameters, and names in its patterns."""
    groups = re.findall(r"[({]([\w' ]+?) :", code) + re.findall(r"λ ([\w' ]+)\.", code)
    left = " ".join(re.findall(r"^\w+ (.*?) =(?: |$)", code, re.M))
    return {*" ".join(groups).split(), *re.findall(r"(?<![\w'])[a-z][\w']*", left)}


def source_of(file: str, name: str) -> Optional[Definition]:
    """Return the definition that a name in a file refers to, or None.

    It is in the file itself, or the file exports it from another file.
    """
    words, _, owners = public_file(file)
    if name in owners:
        return file, owners[name]
    at, passed = words.get(name, (None, None))
    return source_of(at, passed) if at and passed else None


def cites(
    words: Words, file: Optional[str], code: str, bound: Collection[str] = ()
) -> Iterator[Tuple[str, Definition]]:
    """Yield the public definitions that code cites, each after the word that cites it.

    The code is in a file of definitions, or in none.
    """
    for word in re.findall(r"[^\s(){}\[\],;]+", code):
        first, _, rest = word.partition(".")
        at, name = words.get(first, (file, first))
        if at and first not in bound and (source := source_of(at, name or rest.split(".")[0])):
            yield (word if name is None else first), source


def cited_by(definition: Definition) -> Dict[str, Definition]:
    """Return the definitions that a definition cites, in the order of their first citations.

    Each definition is listed by the word that cites it.
    """
    file, name = definition
    words, codes, _ = public_file(file)
    found = cites(words, file, codes[name], names_bound(codes[name]))
    return {word: source for word, source in found if source != definition}


def believed(contracts: Iterable[Contract]) -> Dict[Definition, Set[Definition]]:
    """Return all public definitions that contracts cite, directly or through others.

    Each is returned with the definitions that it cites itself.
    """
    todo: List[Definition] = []
    found: Dict[Definition, Set[Definition]] = {}
    for crate, owner, name in contracts:
        for item in items.functions(crate):
            if (item.owner, item.name) == (owner, name):
                code = "\n".join(item.clauses)
                todo += (
                    source
                    for _, source in cites(brings_in(text_of(f"{TOP}/{item.path}")), None, code)
                )
    while todo:
        each = todo.pop()
        if each not in found:
            found[each] = {*cited_by(each).values()}
            todo += found[each]
    return found


def lines_of(definitions: Iterable[Definition]) -> int:
    """Return the number of lines of definitions, without comments and imports."""
    codes = [
        re.sub("^use .*", "", public_file(file)[1][name], flags=re.M) for file, name in definitions
    ]
    return sum(1 for code in codes for line in code.split("\n") if line.strip())
