"""The mutants as they are committed: crates/CRATE/wrong-bodies.edits.

A file has many, each with lines in front of what it changes:

# name: its name, a few words # function: whose proof is asked, by its path below the crate #
clause: what has to fail there, one of the forms below # means: a sentence, where the name doesn't
say enough # must-fail: yes of one or a few: `rt ci` tries them too, each by a whole check of its
crate file: src/x.rt what it changes: a text that stands there once, and what takes its place; each
is one line, old: TEXT and further pairs apply to what the earlier ones made new: TEXT

or, in the place of such pairs, a whole body, which can call the right function by its name:

file: src/x.rt body: TEXT what stands between its braces

A clause is `ensures` (one without a name, or where the prover doesn't say which of them fails),
`ensures NAME`, `requires of CALLEE`, `loop` (what holds at each turn), `invariant` (its type's),
`ensures of std's METHOD` or `ensures NAME of std's METHOD`, or `lemma NAME in FILE.antt` (a lemma
on which the function's proof stands).
"""
from __future__ import annotations

import os
import re
from dataclasses import dataclass, field
from typing import Dict, List, Optional, Tuple

TOP = os.path.dirname(os.path.dirname(os.path.dirname(os.path.realpath(__file__))))
FORMS = re.compile(
    r"ensures( \w+)?( of std's \w+)?|requires of \w+|loop|invariant|lemma [\w']+ in \w+\.antt"
)
WORDS = "name", "function", "clause", "means", "must-fail"

# Texts that stand in the place of a crate's own, by the crate and the file.
CHANGED: Dict[Tuple[str, str], str] = {}


class Unread(Exception):
    """What is wrong with a file of mutants."""


@dataclass
class Body:
    """A mutant: what it is, and its pairs of a file, the text there, and what takes its place;
    or the file of its function and all that is in its braces. Or the right body in the place of
    one.
    """

    crate: str
    file: str
    said: Dict[str, str] = field(default_factory=dict)
    pairs: List[Tuple[str, str, str]] = field(default_factory=list)
    whole: Optional[Tuple[str, str]] = None
    is_right: bool = False

    @property
    def name(self) -> str:
        """Its name."""
        return f"{self.said['name']} (its right body)" if self.is_right else self.said["name"]

    @property
    def function(self) -> str:
        """The path of its function below the crate."""
        return self.said["function"]

    @property
    def clause(self) -> str:
        """The clause that must fail."""
        return self.said["clause"]

    @property
    def word(self) -> str:
        """Its name as one word, by which pages cite it."""
        return self.name.replace(" ", "_")


def text_of(path: str) -> str:
    """Return the text of a file."""
    with open(path, encoding="utf-8") as text:
        return text.read()


def read_line(body: Body, line: str, changing: Dict[str, str]) -> None:
    """Adds a line of a file of mutants to its body; `changing` holds the file and the text
    that the next `new:` is for.
    """
    if said := re.fullmatch(r"# ([\w-]+): (.+)", line):
        if said[1] not in WORDS or said[1] in body.said:
            raise Unread(f"{body.file}: {line}")
        body.said[said[1]] = said[2]
    elif line.startswith("new:") and changing.get("old"):
        body.pairs.append((changing["file"], changing.pop("old"), line[4:].removeprefix(" ")))
    elif line.startswith("body: ") and changing.get("file") and not body.whole:
        body.whole = changing["file"], line[6:]
    elif said := re.fullmatch(r"(file|old): (.+)", line):
        changing[said[1]] = said[2]
    else:
        raise Unread(f"{body.file}: a line that is not read: {line}")


def read(crate: str, path: str) -> List[Body]:
    """The mutants of a file."""
    found: List[Body] = []
    changing: Dict[str, str] = {}
    for line in text_of(path).split("\n"):
        if line.startswith("# name: "):
            found.append(Body(crate, os.path.relpath(path, TOP)))
            changing = {}
        if line and not found:
            raise Unread(f"{path} has no `# name:` before its first line")
        if line:
            read_line(found[-1], line, changing)
    for body in found:
        if not (
            "function" in body.said
            and bool(body.pairs) != bool(body.whole)
            and FORMS.fullmatch(body.said.get("clause", ""))
        ):
            raise Unread(
                f"{body.file}: {body.name}: it lacks its function or what it changes, "
                "or its clause has no form that is known"
            )
    return found


def bodies(crate: str) -> List[Body]:
    """The mutants of a crate, in the order of their names."""
    found = (
        read(crate, f"{TOP}/crates/{crate}/wrong-bodies.edits")
        if is_there(crate, "wrong-bodies.edits")
        else []
    )
    return sorted(found, key=lambda body: body.name)


def order_of_crates() -> Dict[str, Tuple[List[str], bool]]:
    """Return the crates in the order of crates.txt, lowest first.

    Each has the libraries that it depends on, and whether C links it.
    """
    found = {}
    for line in text_of(f"{TOP}/crates.txt").splitlines():
        if line.strip() and not line.startswith("#"):
            front, _, below = line.partition(":")
            name, *kind = front.split()
            found[name] = below.split(), "staticlib" in kind
    return found


def crates() -> List[str]:
    """The crates that have mutants, lowest first."""
    return [crate for crate in order_of_crates() if is_there(crate, "wrong-bodies.edits")]


def text_in(crate: str, path: str) -> str:
    """The text of a file of a crate."""
    return CHANGED.get((crate, path)) or text_of(f"{TOP}/crates/{crate}/{path}")


def is_there(crate: str, path: str) -> bool:
    """Whether a crate has a file."""
    return os.path.exists(f"{TOP}/crates/{crate}/{path}")


def original(body: Body) -> Dict[str, str]:
    """The texts of the files that a mutant changes."""
    paths = [path for path, _, _ in body.pairs] + ([body.whole[0]] if body.whole else [])
    return {path: text_in(body.crate, path) for path in paths}


def applied(texts: Dict[str, str], body: Body) -> Optional[Dict[str, str]]:
    """The texts with the mutant in them, or None where a text that it replaces doesn't stand
    there once.
    """
    texts = {**original(body), **texts}
    for path, old, new in body.pairs:
        if texts[path].count(old) != 1:
            return None
        texts[path] = texts[path].replace(old, new)
    return texts
