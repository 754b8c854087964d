"""What the prover says of a function, and what a mutant comes to by that."""
from __future__ import annotations

import os
import re
from dataclasses import dataclass, field
from typing import Dict, List, Optional, Set, Tuple

from wrong.sources import Body

REFUSED, WEAK, OTHER, GONE, ACCEPTED, UNHEARD, UNTRIED = (
    "refused",
    "weak",
    "another clause",
    "a name is gone",
    "ACCEPTED",
    "not heard of",
    "not tried",
)
# Passes: the clause that it names refuses it. A right body passes if it is proved.
PASSED = REFUSED, WEAK
RIGHT = (ACCEPTED,)

# A goal that is open; what is wrong in a file of proofs; a function's line.
OPEN = re.compile(r"note: \S+?:\d+:\d+: .*? \(`([^`]+)`\)(.*)")
ERROR = re.compile(r"(?:note: )?\./proofs/(\S+?)\.antt:\d+:\d+: error: (?:`([^`]+)`: )?(.*)")
LINE = re.compile(r"fn \w+?::(\S+): (.*)")
# It is proved, whether or not what it calls is taken at its word.
PROVED = re.compile(r"proved|no holes|depends on a hole in")
WAITS = re.compile(r"note: `search` has not tried the goals of `\w+?::(\S+?)`")
# An answer by hand names what the edit took away (that a printed goal can't be pasted says nothing
# of this); it rests on a lemma that is refused; or its goal does not hold.
NAME_IS_GONE = re.compile(
    r"is not in scope(?! here, so what is shown)|has no field|has no `|is no name|no goal|names no"
)
RESTS = re.compile(r"depends on `([^`]+)`, which was not admitted")
NOT_FOUND = re.compile(r"`(?:search|omega|grind|simp|cc|arith)`|no proof of|the goal fails, at")
ANSWERS = "Answers", "Invariants", "Proof"


@dataclass
class Heard:
    """What is said of a function: its line, its goals that fail, those at which only an answer by
    hand fails, and names that are gone.
    """

    line: str = ""
    open: List[str] = field(default_factory=list)
    by_hand: List[str] = field(default_factory=list)
    gone: List[str] = field(default_factory=list)
    rests: List[str] = field(default_factory=list)
    waits: bool = False


def read_error(said: re.Match[str], errors: Dict[str, Heard]) -> None:
    """Notes what is wrong in a file of proofs: of a function's answers by the function, of lemmas
    by their file.
    """
    folder, file = os.path.split(said[1])
    owner = folder.replace("/", "::") if file in ANSWERS else f"{file}.antt"
    found = errors.setdefault(owner, Heard())
    if lemmas := RESTS.findall(said[3]):
        found.rests += lemmas
    elif NAME_IS_GONE.search(said[3]) or not said[2]:
        found.gone.append(said[2] or said[3][:80])
    elif NOT_FOUND.search(said[3]):
        found.open.append(said[2])
    else:
        found.by_hand.append(said[2])


def hear(text: str) -> Dict[str, Heard]:
    """What is said of each function, and of each file of lemmas."""
    found: Dict[str, Heard] = {}
    goals: List[str] = []
    errors: Dict[str, Heard] = {}
    waits: Set[str] = set()
    # (what goes on in lines below stands in one)
    for line in re.sub(r"\n  +(?=\S)", " ", text).splitlines():
        line = line.removeprefix("help: ")
        if said := ERROR.match(line):
            read_error(said, errors)
        elif said := WAITS.match(line):
            waits.add(said[1])
        elif said := OPEN.match(line):
            goals.append(said[1])
        elif said := LINE.match(line):
            named = re.search(r"did not prove (.*?)(;|$)", said[2])
            found[said[1]] = Heard(
                said[2], goals + re.findall(r"`([^`]+)`", named[1] if named else "")
            )
            goals = []
    for owner, error in errors.items():
        heard = found.setdefault(owner, Heard())
        heard.open += error.open
        heard.by_hand, heard.gone, heard.rests = error.by_hand, error.gone, error.rests
    for owner in waits & set(found):
        found[owner].waits = True
    return found


def of_clause(clause: str, goal: str) -> bool:
    """Whether a goal is of a clause."""
    kind, _, name = clause.partition(" ")
    if kind == "loop":
        return bool(re.search(r"-(init|preserved)(-\d+)?$", goal))
    if kind == "invariant":
        return goal.startswith("invariant_of")
    if kind == "requires":
        return bool(re.search(rf"(^|-){name.removeprefix('of ')}(-\d+)?-requires", goal))
    if not name:
        return goal.startswith("returns") and "-clause-" not in goal
    word = re.sub(r" ?of std's \w+$", "", name)
    return goal.startswith("returns") and (
        not word or bool(re.search(rf"-clause-{word}(-\d+)?$", goal))
    )


def whose(found: Dict[str, Heard], function: str) -> Optional[Heard]:
    """What is heard of a function, or None: its path may stand longer in its line, as where it is
    of an `impl` in a function.
    """
    if function in found:
        return found[function]
    return next((heard for path, heard in found.items() if path.endswith(f"::{function}")), None)


def by_lemma(clause: str, found: Dict[str, Heard]) -> Tuple[str, str]:
    """What a mutant comes to that is held to a lemma."""
    _, lemma, _, file = clause.split(" ")
    heard = found.get(file, Heard())
    failing = heard.open + heard.by_hand
    if lemma in failing:
        return REFUSED, lemma
    if failing or heard.gone:
        return (OTHER if failing else GONE), ", ".join(failing + heard.gone)
    elsewhere = [
        f"{goal} in {path}"
        for path, it in found.items()
        if path.endswith(".antt")
        for goal in it.open + it.by_hand
    ]
    return (OTHER if elsewhere else ACCEPTED), ", ".join(elsewhere)


def passing(body: Body) -> Tuple[str, ...]:
    """Return the verdicts with which a body passes, the plain one first."""
    return RIGHT if body.is_right else PASSED


def judge(body: Body, function: str, found: Dict[str, Heard]) -> Tuple[str, str]:
    """Return the verdict on a mutant of this function, and what the prover names."""
    if body.clause.startswith("lemma "):
        return by_lemma(body.clause, found)
    heard = whose(found, function)
    if heard is None or not heard.line:
        return UNHEARD, ""
    shown = [goal for goal in heard.open if of_clause(body.clause, goal)]
    if shown:
        return REFUSED, shown[0]
    by_hand = [goal for goal in heard.by_hand if of_clause(body.clause, goal)]
    if by_hand:
        return WEAK, by_hand[0]
    if others := heard.open + heard.by_hand + heard.rests:
        return OTHER, ", ".join(dict.fromkeys(others))
    if heard.gone:
        return GONE, ", ".join(heard.gone)
    return (ACCEPTED, "") if PROVED.match(heard.line) else (UNTRIED, heard.line[:120])
