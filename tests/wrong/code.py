"""The functions of a source file, and what of them a mutant changes."""
from __future__ import annotations

import functools
import re
from typing import TYPE_CHECKING, Container, Dict, List, Optional, Set, Tuple

if TYPE_CHECKING:
    from wrong.sources import Body

# A function of a file: the file, its name, and how many before it have that name.
Place = Tuple[str, str, int]

# What may stand between a function's signature and its body.
CLAUSE = re.compile(r"(requires|ensures|ghost(?! use)|decreases|where|\{)")
WORDS = re.compile(r"//[^\n]*|\"(?:\\.|[^\"\\])*\"|b?'(?:\\.[^']*|[^'\\])'", re.S)


def end_of_group(text: str, at: int) -> int:
    """Where the group that a brace begins ends."""
    depth = 0
    for brace in re.finditer(r"[{}]", text[at:]):
        depth += 1 if brace[0] == "{" else -1
        if depth == 0:
            return at + brace.end()
    return len(text)


def body_of(text: str, at: int) -> Optional[Tuple[int, int]]:
    """The span of a function's body: the last of its brace groups.

    None where it has none, as what a trait only declares.
    """
    while True:
        brace = re.compile(r"[{;}]").search(text, at)
        if not brace or brace[0] != "{":
            return None
        at = end_of_group(text, brace.start())
        if not CLAUSE.match(text, at + len(text[at:]) - len(text[at:].lstrip())):
            return None if text[at:].startswith(";") else (brace.start(), at)


def hidden(words: re.Match[str]) -> str:
    """Blanks in the place of words that hold no brace and no end of a function: of a comment, of a
    literal, of an array's type.
    """
    return " " * len(words[0])


@functools.lru_cache(maxsize=4096)
def functions(text: str) -> List[Tuple[str, int, int, int]]:
    """Of each function of a source its name, where it begins, and the span of its body."""
    blank = re.sub(r"\[(?:[^\[\]{}]|\[[^\[\]]*\])*;[^\[\]{}]*\]", hidden, WORDS.sub(hidden, text))
    found = []
    for start in re.finditer(r"\bfn (\w+)", blank):
        body = body_of(blank, start.end())
        if body:
            found.append((start[1], start.start(), *body))
    return found


def is_const(text: str, at: int) -> bool:
    """Whether the function whose name begins after this `fn` may be called where constants are
    made.
    """
    return bool(re.search(r"\bconst (?:unsafe )?$", text[:at]))


def is_free(text: str, at: int) -> bool:
    """Whether the function whose name begins after this `fn` is in no other item."""
    return not text[text.rfind("\n", 0, at) + 1 : at].startswith(" ")


def emptied(
    text: str, kept: Container[str], only: Optional[Container[str]] = None
) -> Tuple[str, Set[str]]:
    """A source whose functions have a body that is never reached, but those of the names that are
    kept, and where `only` names some no others; and the names of those that have theirs still. What
    makes constants keeps its body: it is run where they are made.
    """
    copied, past = 0, 0
    whole: Set[str] = set()
    parts: List[str] = []
    for name, start, body, end in functions(text):
        if body < past:
            continue
        past = end
        if name in kept or is_const(text, start) or (only is not None and name not in only):
            whole.add(name)
        else:
            parts += [text[copied:body], "{ unreachable!() }"]
            copied = end
    return "".join([*parts, text[copied:]]), whole


def place(path: str, text: str, old: str, new: str) -> Optional[Place]:
    """The function whose body alone a pair changes: its file, its name, and how many before it have
    that name. None where it is more.
    """
    at = text.find(old)
    first, last = at + len(old) - len(old.lstrip()), at + len(old.rstrip())
    found = functions(text)
    for number, (name, start, body, end) in reversed([*enumerate(found)]):
        # (after a contract that stays as it is a body may be put in front of the one that stands
        # there)
        if body <= first and last <= end or start <= first and last <= body and new.startswith(old):
            return path, name, sum(each[0] == name for each in found[:number])
    return None


def span(text: str, name: str, number: int) -> Tuple[int, int]:
    """Return where a function of a name with this index begins and ends, with its attributes."""
    _, start, _, end = [each for each in functions(text) if each[0] == name][number]
    lines = text[:start].split("\n")
    first = len(lines) - 1
    while lines[first - 1].lstrip().startswith("#["):
        first -= 1
    return len("\n".join(lines[:first])) + 1, end


def of_trait(text: str, at: int) -> bool:
    """Whether it is a method of a trait, or of a trait's impl: a trait says which
    methods there are.
    """
    heads = re.findall(r"^(?:pub(?:\(crate\))? )?(?:unsafe )?(?:impl|trait)\b.*", text[:at], re.M)
    return (
        text[at:].startswith(" ")
        and bool(heads)
        and bool(re.search(r"\btrait\b|\bfor\b", heads[-1]))
    )


def own_place(texts: Dict[str, str], body: Body) -> Optional[Place]:
    """The function of a mutant that is written whole: its file, its name, and how many before
    it have that name. None where it is not there, or where more than one of its type can be meant.
    """
    assert body.whole is not None
    *above, name = body.function.split("::")
    path, text = body.whole[0], texts[body.whole[0]]
    named = [start for each, start, *_ in functions(text) if each == name]
    owner = above[-1] if above and above[-1][0].isupper() else None
    own = [
        at
        for at, start in enumerate(named)
        if owner is None and is_free(text, start) or owner and is_of(text, start, owner)
    ]
    return (path, name, own[0]) if len(own) == 1 else None


def is_of(text: str, at: int, owner: str) -> bool:
    """Whether it is of a type's own impl."""
    heads = re.findall(r"^(?:unsafe )?impl\b.*", text[:at], re.M)
    return (
        not is_free(text, at)
        and bool(heads)
        and bool(re.match(rf"(?:unsafe )?impl(?:<[^{{]*?>)? {owner}\b(?!.* for )", heads[-1]))
    )


def parameters(function: str) -> List[str]:
    """The names of a function's parameters, `self` among them."""
    first = function.index("(", function.index("fn "))
    depth, start = 0, first + 1
    parts: List[str] = []
    for mark in re.finditer(r"->|[(\[<{>\]}),]", function[first:]):
        at = first + mark.start()
        if mark[0] in ("(", "[", "<", "{"):
            depth += 1
        elif mark[0] in (")", "]", ">", "}"):
            depth -= 1
        if depth == 0 or depth == 1 and mark[0] == ",":
            parts.append(function[start:at].strip())
            start = at + 1
        if depth == 0:
            break
    return [
        re.sub(r"^(&(?:'\w+ )?)?(?:mut )?", "", part).split(":")[0].strip()
        for part in parts
        if part
    ]


def with_body(function: str, text: str) -> str:
    """A function with its attributes and its contract, and another body."""
    _, _, body, _ = functions(function)[0]
    return f"{function[:body]}{{ {text} }}"


def called(function: str, path: str) -> str:
    """A call of a function with its own parameters."""
    *above, name = path.split("::")
    words = parameters(function)
    if words[:1] == ["self"]:
        return f"self.{name}({', '.join(words[1:])})"
    owner = f"{above[-1]}::" if above and above[-1][0].isupper() else ""
    return f"{owner}{name}({', '.join(words)})"


def places(texts: Dict[str, str], body: Body) -> Optional[Set[Place]]:
    """The functions that a mutant changes; None where it changes something outside of their
    bodies.
    """
    if body.whole:
        own = own_place(texts, body)
        return own and {own}
    texts = dict(texts)
    found: Set[Place] = set()
    for path, old, new in body.pairs:
        at = (
            place(path, texts[path], old, new)
            if path.startswith("src/") and texts[path].count(old) == 1
            else None
        )
        if at is None:
            return None
        found.add(at)
        texts[path] = texts[path].replace(old, new)
    return found
