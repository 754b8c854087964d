"""What is written from the mutants: docs/reference/mutants.md, and those in
crates/*/must-fail, which `rt ci` tries.
"""
from __future__ import annotations

import glob
import os
from typing import Dict, Iterator, List, Optional, Tuple, Union

from wrong import sources

PAGE = f"{sources.TOP}/docs/reference/mutants.md"
FOREWORD = """# Mutants

A contract that incorrect code meets, too, states little. A mutant is an edit of the code, of
definitions or of both that the prover must reject. There are {count}, in
`crates/CRATE/wrong-bodies.edits`, from which `tests/wrong_bodies --document` generates this page.

Each public function with a body has at least one mutant, of itself or of a function below it. A
lemma has none, since its body is empty. There is one more for each rule of the format that code
could skip, such as a repeated dataset, a count of nine octets, a line end, or the cause that is
reported first; and one for each pair of code and definition that could be wrong in the same way.
Two mutants are rejected by one clause of one function only if they break different rules.

## How they are judged

`tests/wrong_bodies` judges each mutant by itself. Many are in one check, each in a copy of its
function under another name, and the prover checks only these copies: everything else is assumed,
without its body, since `rt ci` has proved it. A copy requires what its function requires, and has
the same loop invariants. Of what the function ensures it has only the clause that the row names.

Some mutants have their body written in full: it calls the original function, of which the contract
is known, and fails in one case or returns another result. A method of a trait's impl can't be
copied and is edited in place, and so is code that several functions call. An edit of more than the
bodies of functions is made in a copy of its crate.

A mutant passes if the prover does not prove its copy and the goal that fails is of the clause that
its row names. What is not plainly rejected is tried again alone, in the function itself with its
complete contract. It fails if the function is proved, if another clause rejects it, or if only a
name is gone that a written answer cites. *Weak* mutants pass because an answer that is written by
hand for that clause no longer fits. That shows less, as the clause may be true all the same. The
run counts and names them.

A mutant that has passed is not judged again on that machine while nothing that its verdict depends
on changes: its crate, those below it, the toolchain and the judge. `--anew` judges all.

## How the judge is checked

`tests/wrong_bodies CRATE --without NAME` judges the mutants of one function with one clause saying
nothing, and reports those as accepted that the clause alone rejects.

In each copy the original body is judged too, beside the mutants: it must be proved, or "refused"
would say nothing about the mutants. For a mutant whose body is written in full, the original calls
the original function and nothing else. `tests/wrong_bodies --right` judges these alone. A row whose
clause its function does not have is rejected before anything is judged: a copy without any clause
would be proved whatever its body is.

`rt ci` tries one mutant besides, in `crates/CRATE/must-fail/`, by the toolchain's own judgement. It
takes a complete check of its crate, so this is a crate with a short check. `tests/wrong_bodies
--write` writes that file.

## The columns

- **Mutant**: its name, and what it means if the name does not state it.
- **Function**: the function in which it is rejected.
- **Clause**: what rejects it. `ensures` if the function has one clause without a name, or if the
  prover does not report which one fails; `ensures x` for the clause `x` (`of std's f` if a trait of
  std states it); `requires of f` if `f` may no longer be called; `loop` for a loop invariant;
  `invariant` for that of the function's type; `lemma x in F.antt` for a lemma that the function's
  proof uses, if an edit changes a definition and the code in the same way.
"""


def rows(crate: str) -> Iterator[str]:
    """The table of a crate."""
    yield f"\n## `{crate}`\n\n| Mutant | Function | Clause |\n|---|---|---|\n"
    for body in sources.bodies(crate):
        means = f": {body.said['means']}" if "means" in body.said else ""
        yield f"| `{body.name}`{means} | `{body.function}` | `{body.clause}` |\n"


def document() -> str:
    """The page."""
    crates = sources.crates()
    count = sum(len(sources.bodies(crate)) for crate in crates)
    return FOREWORD.format(count=count) + "".join(line for crate in crates for line in rows(crate))


def edit(body: sources.Body) -> str:
    """A mutant as `rt ci` reads it."""
    lines: List[str] = []
    path: Optional[str] = None
    for at, old, new in body.pairs:
        lines += [f"file: {at}"] if at != path else []
        lines += [f"old: {old}", f"new: {new}" if new else "new:"]
        path = at
    return "\n".join(lines) + "\n"


def tried(crate: str) -> Dict[str, str]:
    """Return the mutants of a crate that `rt ci` tries: the text of each file."""
    return {
        f"crates/{crate}/must-fail/{body.word}.edit": edit(body)
        for body in sources.bodies(crate)
        if "must-fail" in body.said
    }


def wanted() -> Dict[str, str]:
    """Each file that is written from the mutants, with its text."""
    edits = {path: text for crate in sources.crates() for path, text in tried(crate).items()}
    return {"docs/reference/mutants.md": document(), **edits}


def there() -> Dict[str, str]:
    """Each such file that there is, with its text."""
    paths = [PAGE, *glob.glob(f"{sources.TOP}/crates/*/must-fail/*")]
    return {os.path.relpath(path, sources.TOP): sources.text_of(path) for path in paths}


def write(names: Union[str, Tuple[str, ...]]) -> List[str]:
    """Write the files whose names have this prefix, and remove all others with it.

    Return the names of those that changed.
    """
    found, right = there(), wanted()
    changed = [
        path
        for path in sorted({*found, *right})
        if path.startswith(names) and found.get(path) != right.get(path)
    ]
    for path in changed:
        at = f"{sources.TOP}/{path}"
        if path not in right:
            os.remove(at)
            continue
        os.makedirs(os.path.dirname(at), exist_ok=True)
        with open(at, "w", encoding="utf-8") as file:
            file.write(right[path])
    return changed
