"""The clauses of a contract: a copy of a function has to show the one alone that its mutant is
held to.
"""
from __future__ import annotations

import re
from typing import List, Optional, Tuple

from wrong import code

# What a clause says that says nothing: any result is the same as itself. So the clause stands, and
# the goals keep their names.
NOTHING = "{ result ≡ result }"
HEAD = re.compile(r"\n *ensures(?: (\w+))? (?=\{)")


def spans(contract: str) -> List[Tuple[Optional[str], int, int]]:
    """Of each clause of a contract on what is returned its name, or None, and where what
    it says begins and ends.
    """
    return [
        (head[1], head.end(), code.end_of_group(contract, head.end()))
        for head in HEAD.finditer(contract)
    ]


def is_kept(clause: str, name: Optional[str]) -> bool:
    """Whether a copy of a function keeps the clause of this name, where its mutant is held to
    that one. All stay where it is held to one without a name, or to what the prover names
    otherwise, and none where it is held to a call, a loop or its type's invariant.
    """
    kind, _, held = clause.partition(" ")
    return kind == "ensures" and (name == held or not re.fullmatch(r"\w+", held))


def kept_alone(function: str, clause: str) -> str:
    """A function whose contract says what this clause says of what is returned, and no more.

    What it requires, its loops and its body stay.
    """
    contract = function[: code.functions(function)[0][2]]
    for name, first, end in reversed(spans(contract)):
        if not is_kept(clause, name):
            function = function[:first] + NOTHING + function[end:]
    return function


def answered(part: str) -> Optional[str]:
    """The clause whose goal an answer is for: its name, or None where it has none or the goal is no
    clause's of what is returned.
    """
    said = re.match(r"pub returns\S*-clause-(\w+?)(-\d+)? :", part)
    return said[1] if said else None


def answers_alone(text: str, clause: str) -> str:
    """A file of answers without those for clauses that say nothing in a copy.

    What stands between answers stays: others may cite it.
    """
    parts = re.split(r"\n(?=pub )|\n(?=\n\S)", text)
    return "\n".join(
        part
        for part in parts
        if not re.match(r"\n?pub returns", part) or is_kept(clause, answered(part.lstrip("\n")))
    )
