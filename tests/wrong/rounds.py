"""Which mutants stand together in one check: as many as can be, each in a copy of its function
under another name.

A copy has a copy of its function's proof. The function itself stays right, and so nothing that
calls it is proved again. A method of a trait's impl can't be copied: such a mutant replaces
the function itself.
"""
from __future__ import annotations

import math
import os
import re
from typing import Dict, Iterable, List, Optional, Sequence, Set

from wrong import clauses, code, sources


def called(body: sources.Body) -> Set[str]:
    """The names that a mutant calls."""
    return {name for _, _, new in body.pairs for name in re.findall(r"\b(\w+)\(", new)}


def called_before(body: sources.Body) -> Set[str]:
    """The names that are called where a mutant changes something."""
    return {name for _, old, _ in body.pairs for name in re.findall(r"\b(\w+)\(", old)}


def last(path: str) -> str:
    """The last word of a function's path."""
    return path.split("::")[-1]


def shows_one(body: sources.Body, text: str) -> bool:
    """Whether a copy has to show one clause alone: not where its whole proof is written by hand and
    taken over, nor where its file lacks the sign of what says nothing.
    """
    by_hand = f"proofs/{'/'.join(body.function.split('::'))}/Proof.antt"
    return "◌≡◌" in text and (bool(body.whole) or not sources.is_there(body.crate, by_hand))


def copied(body: sources.Body, text: str, at: code.Place, named: str) -> Optional[str]:
    """A function under another name with the mutant in it, and of its contract the clause alone
    that the body is held to; None where it can't be so.
    """
    _, name, before = at
    first, end = code.span(text, name, before)
    copy = text[first:end]
    if code.of_trait(text, first):
        return None
    for _, old, new in body.pairs:
        if copy.count(old) != 1:
            return None
        copy = copy.replace(old, new)
    if body.whole:
        copy = code.with_body(copy, body.whole[1])
    copy = copy.replace(f"fn {name}", f"fn {named}", 1)
    return clauses.kept_alone(copy, body.clause) if shows_one(body, text) else copy


def copied_proof(body: sources.Body, text: str, named: str) -> Dict[str, str]:
    """The files of proof of a function for its copy of that name, without answers for clauses that
    the copy lacks. A body that is written whole has none: it uses the contract of the right
    function.
    """
    if body.whole:
        return {}
    crate, path = f"{sources.TOP}/crates/{body.crate}", body.function.split("::")
    own, other = "/".join(["proofs", *path]), "/".join(["proofs", *path[:-1], named])
    files = os.listdir(f"{crate}/{own}") if os.path.isdir(f"{crate}/{own}") else []
    word, instead = (f".proofs.{'.'.join([*path[:-1], last])}." for last in (path[-1], named))
    found = {
        file: sources.text_in(body.crate, f"{own}/{file}").replace(word, instead) for file in files
    }
    if "Answers.antt" in found and shows_one(body, text):
        found["Answers.antt"] = clauses.answers_alone(found["Answers.antt"], body.clause)
    return {f"{other}/{file}": proof for file, proof in found.items()}


class Round:
    """Mutants that stand together, the functions that are asked for them, and the texts of the
    files that they change.
    """

    def __init__(self, crate: str) -> None:
        self.crate = crate
        self.bodies: List[sources.Body] = []
        self.functions: Dict[str, str] = {}
        self.taken: Set[object] = set()
        self.texts = {path: text for (name, path), text in sources.CHANGED.items() if name == crate}

    def add(self, body: sources.Body, places: Set[code.Place]) -> bool:
        """Adds a mutant that changes these functions, in a copy or in its function itself, and
        returns whether it fits. A right one goes into a copy alone: the function itself is proved
        already.
        """
        return (
            self.add_copy(body, places)
            or not (body.whole or body.is_right)
            and self.add_itself(body, places)
        )

    def add_itself(self, body: sources.Body, places: Set[code.Place]) -> bool:
        """Adds a mutant in its function itself, where none of the functions that it changes is
        taken.
        """
        texts = sources.applied(self.texts, body)
        if texts is None or {body.function, *places} & self.taken or self.leads_back(body):
            return False
        self.note(body, body.function, texts, places)
        return True

    def leads_back(self, body: sources.Body) -> bool:
        """Whether a mutant calls what another of the round has changed to call its function:
        calls in a cycle are no crate.
        """
        found: Set[str] = set()
        more = called(body)
        while more - found:
            found |= more
            more = {
                name
                for each in self.bodies
                if last(self.functions[each.name]) in found
                for name in called(each)
            }
        return last(body.function) in found - called_before(body)

    def add_copy(self, body: sources.Body, places: Set[code.Place]) -> bool:
        """Adds a mutant in a copy of its function, which stays right: so all that calls it
        stays as it is proved.
        """
        (at,) = places if len(places) == 1 else (None,)
        if at is None or at[1] != last(body.function) or body.clause.startswith("lemma "):
            return False
        original, named = (
            sources.text_in(body.crate, at[0]),
            f"{at[1]}_{'right' if body.is_right else 'wrong'}_{len(self.bodies) + 1}",
        )
        copy = copied(body, original, at, named)
        if copy is None:
            return False
        text = self.texts.get(at[0], original)
        _, end = code.span(text, at[1], at[2])
        texts = {
            **self.texts,
            at[0]: f"{text[:end]}\n\n{copy}{text[end:]}",
            **copied_proof(body, original, named),
        }
        self.note(body, "::".join([*body.function.split("::")[:-1], named]), texts, ())
        return True

    def note(
        self,
        body: sources.Body,
        function: str,
        texts: Dict[str, str],
        places: Iterable[code.Place],
    ) -> None:
        """Notes a mutant that is in, the function that is asked for it, and those that it
        changes.
        """
        self.bodies.append(body)
        self.functions[body.name] = function
        self.texts = texts
        self.taken |= {function, *places}

    def asked(self) -> List[str]:
        """The functions whose proofs are asked."""
        return list(dict.fromkeys(self.functions.values()))

    def is_plain(self) -> bool:
        """Whether it is of one body, which is in its function itself, calls that, or is right."""
        return len(self.bodies) == 1 and (
            bool(self.bodies[0].whole)
            or self.bodies[0].is_right
            or self.asked() == [self.bodies[0].function]
        )


def alone(body: sources.Body) -> Round:
    """A round of one mutant, in its function itself, with all of its contract; in a copy where
    it calls that, or is right.
    """
    found = Round(body.crate)
    if body.whole or body.is_right:
        found.add_copy(body, code.places(sources.original(body), body) or set())
    else:
        found.add_itself(body, set())
    return found


def plan(crate: str, bodies: Sequence[sources.Body], most: int = 1000) -> List[Round]:
    """The rounds of a crate, about equal and each of N mutants at the most, the largest
    first. What changes more than the bodies of functions stands alone: proofs of others see it.
    """
    found: List[Round] = []
    apart: List[Round] = []
    parts = max(1, math.ceil(len(bodies) / most))
    most = math.ceil(len(bodies) / parts)
    for body in bodies:
        places = code.places(sources.original(body), body)
        if places is None:
            apart.append(alone(body))
        elif not any(len(these.bodies) < most and these.add(body, places) for these in found):
            found.append(Round(crate))
            found[-1].add(body, places)
    return sorted(found, key=lambda these: -len(these.bodies)) + apart
