"""The clauses that the function of a mutant has: a body that is held to another one would be in
a copy without any, which any body meets.
"""
from __future__ import annotations

import functools
import glob
import re
from typing import Iterable, List, Optional

from wrong import clauses, code, sources

NAMED = re.compile(r"ensures (\w+)")
IMPL = re.compile(r"^(?:pub(?:\(crate\))? )?(?:unsafe )?(impl|trait)\b([^{]*)", re.M)


def without_parameters(words: str) -> str:
    """Return the words of a type without its type parameters."""
    while words != (words := re.sub(r"<[^<>]*>", "", words)):
        pass
    return words


def owner_at(text: str, at: int) -> str:
    """Return in whose impl or trait a function is, as the paths of mutants name it: a type,
    and the trait after it if there is one.
    """
    if not text[:at].endswith("    "):
        at = text.rfind("\n", 0, at) + 1
    head = [*IMPL.finditer(text, 0, at)][-1][2]
    named = [
        part.split("::")[-1].split(":")[0]
        for part in without_parameters(head.replace("->", ""))
        .split(" where ")[0]
        .strip()
        .split(" for ")
    ]
    return "".join(
        re.sub(r"^&?\s*(?:mut )?(\w*)(?s:.*)", r"\1", part.strip()) for part in reversed(named)
    )


def contracts_in(text: str, owner: Optional[str], name: str) -> List[str]:
    """Return the contract of each function of a name in a source: those of an owner, or the free
    ones.
    """
    found = []
    for each, start, body, _ in code.functions(text):
        free = code.is_free(text, start)
        if each == name and (
            free if owner is None else not free and owner_at(text, start) == owner
        ):
            found.append(text[start:body])
    return found


@functools.cache
def declared(name: str) -> List[str]:
    """Return the contract of each method of a name that a trait of the repository declares, with a
    body or without one.
    """
    found = []
    for path in glob.glob(f"{sources.TOP}/crates/*/src/**/*.rt", recursive=True):
        text = sources.text_of(path)
        for start in re.finditer(
            rf"^    fn {name}\b[^{{;]*?(?:\{{|;|\n        ensures)", text, re.M
        ):
            heads = [*IMPL.finditer(text, 0, start.start())]
            if heads and heads[-1][1] == "trait":
                end = re.compile(r"\n    fn |\n    ghost |\n\}").search(text, start.end())
                found.append(text[start.start() : end.start() if end else len(text)])
    return found


def contracts_of(body: sources.Body) -> List[str]:
    """Return the contracts of a mutant's function: its own; those of the traits' methods of
    that name if its own promises nothing.
    """
    *above, name = body.function.split("::")
    owner = above.pop() if above and above[-1][0].isupper() else None
    paths = {f"src/{'/'.join(above)}.rt"} if above else {"src/lib.rt", "src/main.rt"}
    # (an impl may be in another file than its type, by which its functions are named)
    paths |= {path for path in sources.original(body) if path.startswith("src/")}
    texts = [
        sources.text_in(body.crate, path) for path in paths if sources.is_there(body.crate, path)
    ]
    own = [contract for text in texts for contract in contracts_in(text, owner, name)]
    return [*own, *([] if any(clauses.spans(contract) for contract in own) else declared(name))]


def lacks(body: sources.Body) -> bool:
    """Check whether the clause that a mutant is held to has a name that no contract of its
    function has.
    """
    named = NAMED.fullmatch(body.clause)
    return named is not None and named[1] not in {
        name for contract in contracts_of(body) for name, *_ in clauses.spans(contract)
    }


def check(bodies: Iterable[sources.Body]) -> None:
    """Raise `sources.Unread` for mutants whose clause their function does not have."""
    if lost := [
        f"{body.file}: {body.name}: {body.function} has no clause `{body.clause}`"
        for body in bodies
        if lacks(body)
    ]:
        raise sources.Unread("\n".join(lost))
