"""Functions that a check takes at their word: `rt ci` has proved that they do what their contracts
say.

Of such a function the proof is a hole, which the prover takes by what it states. So no goal of it
is proved again. It has no body either, so that nothing is borrowed in it.
"""
from __future__ import annotations

import json
import os
import re
from typing import Collection, Iterable, List, Optional, Sequence, Set, Tuple

from wrong import code, sources

# With what a program begins: the file, and the function.
BEGINS = "main", "lib"

# A proof that says nothing.
HOLE = """use Rattle.{crate}.proofs.{path}.Statement.{{statement}}

pub {name}_spec : {{M : Type 1}} → statement M
{name}_spec = ?
"""


def texts(folder: str) -> List[Tuple[str, str]]:
    """The path of each source below a folder, from there, and its text."""
    paths = [f"{at}/{file}" for at, _, files in os.walk(folder) for file in files]
    return [(os.path.relpath(path, folder), sources.text_of(path)) for path in paths]


def listed(crate: str) -> Optional[List[List[str]]]:
    """The functions that the built library of a crate states, each by the words of its path; None
    where it is a program, which nobody links.
    """
    at = f"{sources.TOP}/crates/{crate}/out/rlib/{crate}.rlib/toolchain/checked.json"
    front, end = f"Rattle-{crate}-proofs.", ".TheLink"
    if not os.path.exists(at):
        return None
    with open(at, encoding="utf-8") as index:
        modules = [json.loads(line)[0].split("/")[-1] for line in index]
    # (what is made of closures and of dropping has a sign in its name; what `rt lib` built has a
    # link of the whole crate too)
    named = [
        name
        for name in modules
        if name.startswith(front)
        and name.endswith(end)
        and "+" not in name
        and len(name) > len(front + end)
    ]
    paths = [name[len(front) : -len(end)].split(".") for name in named]
    return [path for path in paths if path[-2:-1] not in traits(crate)]


def free(crate: str) -> List[List[str]]:
    """The free functions of a program, each by the words of its path, but that with which it
    begins.
    """
    found: List[List[str]] = []
    for path, text in texts(f"{sources.TOP}/crates/{crate}/src"):
        module = [word for word in path.removesuffix(".rt").split("/") if word not in BEGINS]
        found += [
            [*module, name]
            for name, start, *_ in code.functions(text)
            if code.is_free(text, start) and name not in BEGINS
        ]
    return found


def traits(crate: str) -> List[List[str]]:
    """The traits of a crate, each in a list: what they only declare has no proof."""
    return [
        [name]
        for _, text in texts(f"{sources.TOP}/crates/{crate}/src")
        for name in re.findall(r"\btrait (\w+)", text)
    ]


def owner(path: Sequence[str]) -> Sequence[str]:
    """The function of a closure, or the function itself: `a.fn.B.f.closure` is in
    `a.B.f`.
    """
    return [word for word in path[:-1] if word != "fn"] if "fn" in path else path


def empty(room: str, kept: Collection[str], only: Optional[Collection[str]]) -> Set[str]:
    """Empties the functions in the folder of a check, but those of the names that are kept, and
    where `only` names some no others. Returns the names of those that have a body.
    """
    whole: Set[str] = set()
    for path, text in texts(f"{room}/src"):
        text, named = code.emptied(text, kept, only)
        whole |= named
        with open(f"{room}/src/{path}", "w", encoding="utf-8") as source:
            source.write(text)
    return whole


def write(crate: str, room: str, asked: Iterable[str]) -> None:
    """Writes into the folder of a check proofs with holes for all functions but those that are
    asked for, and takes their bodies away. Of a program these are the free ones.
    """
    kept = {tuple(function.split("::")) for function in asked}
    linked = listed(crate)
    paths = free(crate) if linked is None else linked
    whole = empty(
        room,
        {path[-1] for path in kept},
        None if linked is not None else {path[-1] for path in paths},
    )
    for path in paths:
        own = owner(path)
        if tuple(own) in kept or ("fn" in path and own[-1] not in whole):
            continue
        at = f"{room}/proofs/{'/'.join(path)}"
        for name in ("Answers.antt", "Invariants.antt"):
            if os.path.exists(f"{at}/{name}"):
                os.remove(f"{at}/{name}")
        os.makedirs(at, exist_ok=True)
        with open(f"{at}/Proof.antt", "w", encoding="utf-8") as file:
            file.write(HOLE.format(crate=crate, path=".".join(path), name=path[-1]))
