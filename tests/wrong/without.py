"""Takes away what the clause says that a mutant is held to: the runner has to name that one as
accepted then.
"""
from __future__ import annotations

import re
from typing import List, Tuple

from wrong import clauses, code, sources, verdicts


def contract_of(body: sources.Body) -> Tuple[str, str, int, int]:
    """The file in which a mutant's function stands, its text, and where its contract begins and
    ends.
    """
    texts = {path: sources.text_in(body.crate, path) for path in sources.original(body)}
    for path, name, before in code.places(texts, body) or ():
        if name == body.function.split("::")[-1]:
            _, start, first, _ = [each for each in code.functions(texts[path]) if each[0] == name][
                before
            ]
            return path, texts[path], start, first
    raise SystemExit(f"{body.name}: it does not change its function")


def clause_in(contract: str, clause: str) -> Tuple[int, int]:
    """The span of what a clause of a contract says."""
    held = clause.partition(" ")[2] or None
    for name, first, end in clauses.spans(contract):
        if name == held:
            return first, end
    raise SystemExit(f"the contract has no clause of the form {clause}")


def without_answers(text: str, clause: str) -> str:
    """A file of answers without those for the goals of a clause."""
    parts = re.split(r"\n(?=pub )", text)
    return "\n".join(
        part
        for part in parts
        if not (said := re.match(r"pub (\S+) :", part)) or not verdicts.of_clause(clause, said[1])
    )


def take_away(crate: str, name: str) -> List[sources.Body]:
    """Takes away what the clause says that the mutant of this name is held to, and the answers
    for its goals. Returns the mutants of its function.
    """
    bodies = sources.bodies(crate)
    body = next(body for body in bodies if name in (body.name, body.word))
    path, text, start, end = contract_of(body)
    first, last = clause_in(text[start:end], body.clause)
    sources.CHANGED[crate, path] = text[: start + first] + clauses.NOTHING + text[start + last :]
    answers = f"proofs/{body.function.replace('::', '/')}/Answers.antt"
    if sources.is_there(crate, answers):
        sources.CHANGED[crate, answers] = without_answers(
            sources.text_in(crate, answers), body.clause
        )
    return [each for each in bodies if each.function == body.function]
