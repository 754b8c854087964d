"""Cut an example out of its source: its functions, and the imports that they need."""
from __future__ import annotations

import re
from typing import List, Optional, Sequence

from pages.items import TOP, text_of


def cut(lines: Sequence[str], name: str) -> List[str]:
    """Return the lines of a function or a constant and the lines above it, without indentation."""
    (at,) = [
        at
        for at, line in enumerate(lines)
        if re.match(rf'\s*(?:pub(?:\(crate\))? )?(?:extern "C" )?(?:fn|const) {name}\b', line)
    ]
    margin = lines[at][: len(lines[at]) - len(lines[at].lstrip())]
    begin = at
    while re.match(r"\s*(///|#\[)", lines[begin - 1]):
        begin -= 1
    ends = (margin + "}", margin + "];", margin + "};")
    end = (
        at
        if lines[at].endswith(";")
        else next(end for end in range(at, len(lines)) if lines[end] in ends)
    )
    return [line.removeprefix(margin) for line in lines[begin : end + 1]]


def occurs(name: str, code: str) -> bool:
    """Return whether code contains a name, or all parts of a mixfix name."""
    name = name.split(" as ")[-1].strip()
    marked = [part for part in re.split("[◌]", name) if part]
    if "◌" in name or not re.fullmatch(r"[\w']+", name):
        return all(part in code for part in marked)
    return bool(re.search(rf"(?<![\w'.]){re.escape(name)}(?![\w'])", code))


def used(line: str, code: str) -> Optional[str]:
    """Return an import reduced to the names that the code uses, or None if it uses none of them."""
    if "{" not in line:
        return line if occurs(re.split(r"::|[.]", line.rstrip(";"))[-1], code) else None
    parts = re.fullmatch(r"(.*?)\{(.*)\};", line)
    assert parts is not None, line
    front, group = parts.groups()
    # (a module that is brought in with its own names is called by the last word before them)
    module = re.split(r"\W+", front.strip(":. "))[-1]
    kept = [
        name.strip()
        for name in group.split(",")
        if occurs(module if name.strip() == "self" else name.strip(), code)
    ]
    single = len(kept) == 1 and kept != ["self"] and not line.startswith("ghost")
    return f"{front}{kept[0] if single else '{' + ', '.join(kept) + '}'};" if kept else None


def shown(path: str, names: Sequence[str]) -> str:
    """Return the code of functions of a file, after the imports that they need."""
    text = text_of(f"{TOP}/{path}")
    code = "\n\n".join("\n".join(cut(text.split("\n"), name)) for name in names)
    lines = [
        re.sub(r",?\s+}", "}", re.sub(r"{\s+", "{", re.sub(r"\s+", " ", use)))
        for use in re.findall(r"^(?:ghost )?use [^;]*;", text, re.M)
    ]
    kept = [use for use in (used(line, re.sub("//.*", "", code)) for line in lines) if use]
    ghosts, plain = [use for use in kept if use.startswith("ghost")], [
        use for use in kept if not use.startswith("ghost")
    ]
    return "\n\n".join("\n".join(part) for part in (ghosts, plain, [code]) if part)
