"""Asks the prover for the functions of a round."""
from __future__ import annotations

import os
import re
import resource
import shutil
import subprocess
import tempfile
from dataclasses import dataclass
from typing import TYPE_CHECKING, Dict, Iterable, List, Optional, Sequence, Tuple

from wrong import assumed, sources

if TYPE_CHECKING:
    from wrong.rounds import Round

PARTS = "src", "specs", "proofs"
# The octets of a file that a check may write: less than it makes of any function.
LONGEST = 100 * 1024
# The last line of a check that came to its end.
ENDED = re.compile(r"^only=\d+ (proved|holes)=\d+$", re.M)


class Missing(Exception):
    """What a check depends on and isn't there."""


@dataclass
class Said:
    """What the prover says, its status, and the seconds of processors that it took."""

    text: str
    status: int
    seconds: float


def kit() -> str:
    """The folder of the toolchain."""
    rt = shutil.which("rt")
    if not rt:
        raise Missing("rt, the command of Rattle's toolchain, is not on the path")
    return os.path.dirname(os.path.dirname(os.path.realpath(rt)))


def below(crates: Iterable[str]) -> Dict[str, str]:
    """The libraries that crates depend on, and the folders in which they are: those of the
    repository as `rt ci` has proved them.
    """
    at, listed = kit(), sources.order_of_crates()
    users: Dict[str, Optional[str]] = {"std": None}
    found: Dict[str, str] = {}
    for above in crates:
        users |= dict.fromkeys(listed[above][0], above)
    for name, crate in users.items():
        folder = f"{sources.TOP}/crates/{name}/out/rlib" if name in listed else f"{at}/rlibs"
        found[name] = f"{folder}/{name}.rlib"
        if not os.path.exists(found[name]):
            raise Missing(
                f"{crate}: the library {name} is not built: run `rt ci {crate}` first, "
                "or `rt lib` in the folders of those below it"
            )
    return found


def words_of(crates: Iterable[str]) -> List[str]:
    """The words of a check over the libraries that crates depend on, without what is in it and
    is asked for.
    """
    at, listed = kit(), sources.order_of_crates()
    words = [f"{at}/bin/rattle", "check", "--crate-name", "judged", "judged/src/lib.rt"]
    for name, path in below(crates).items():
        words += ["--extern", f"{name}={path}"]
    own = [f"{sources.TOP}/crates/{crate}/out/rlib" for crate in listed]
    for folder in [f"{at}/rlibs", *filter(os.path.isdir, own)]:
        words += ["-L", f"dependency={folder}"]
    words += [
        "--antt-project",
        f"{at}/rattle/logic/antt-project.json",
        "--logic-built",
        f"{at}/logic_built",
    ]
    return [*words, "--jobs", "1", "--allow-holes"]


def run(words: Sequence[str], room: str) -> Said:
    """Runs the words in a folder.

    No file gets as long as what is made of a function: where the prover can't write all that it
    makes, it gives its verdict, and doesn't check once more to print each goal that failed for
    whoever would answer it.
    """
    # (what ends a process that writes more is ignored here, and so it is there: the write fails)
    ran = subprocess.Popen(
        words,
        cwd=room,
        stdin=subprocess.DEVNULL,
        stdout=subprocess.PIPE,
        stderr=subprocess.STDOUT,
        restore_signals=False,
    )
    resource.prlimit(ran.pid, resource.RLIMIT_FSIZE, (LONGEST, LONGEST))
    assert ran.stdout is not None
    with ran.stdout as out:
        text = out.read().decode(errors="replace")
    _, status, used = os.wait4(ran.pid, 0)
    ran.returncode = os.waitstatus_to_exitcode(status)
    return Said(text, ran.returncode, used.ru_utime + used.ru_stime)


def lay(room: str, these: Round, name: str) -> None:
    """Lays a crate's folders with the texts of a round into the folder of a check, as a library of
    another name: of a program the function that begins it is one like others, and nothing that it
    calls is linked.
    """
    for part in PARTS:
        if os.path.isdir(f"{sources.TOP}/crates/{these.crate}/{part}"):
            shutil.copytree(f"{sources.TOP}/crates/{these.crate}/{part}", f"{room}/{part}")
    for path, text in these.texts.items():
        os.makedirs(os.path.dirname(f"{room}/{path}"), exist_ok=True)
        with open(f"{room}/{path}", "w", encoding="utf-8") as file:
            file.write(text)
    assumed.write(these.crate, room, these.asked())
    if os.path.exists(f"{room}/src/main.rt"):
        os.rename(f"{room}/src/main.rt", f"{room}/src/lib.rt")
    for path in (f"{at}/{file}" for at, _, files in os.walk(room) for file in files):
        text = (
            sources.text_of(path)
            .replace(f"Rattle.{these.crate}.", f"Rattle.{name}.")
            .replace("\nfn main(", "\nfn begin_program(")
        )
        with open(path, "w", encoding="utf-8") as file:
            file.write(text)


def said_of(text: str, room: str, name: str) -> str:
    """Return what is said of one of several crates, as it would be said of it alone."""
    lines = re.sub(r"\n  +(?=\S)", " ", text).splitlines()
    return "\n".join(
        line.replace(f"{room}/{name}/", "./")
        for line in lines
        if re.search(rf"{re.escape(room)}/{name}/|\b{name}::", line)
    )


def check(rounds: Sequence[Round]) -> Tuple[List[Optional[str]], Said]:
    """What the prover says of the functions of each of some rounds, and all that it says.

    They are in one check, each as a library of a separate name: what a check reads first, it
    reads once for all of them. None of any where the check came to nothing.
    """
    with tempfile.TemporaryDirectory(prefix="wrong-bodies-") as room:
        named = [(f"{these.crate}_{number}", these) for number, these in enumerate(rounds)]
        words = words_of(dict.fromkeys(these.crate for these in rounds))
        os.makedirs(f"{room}/judged/src")
        with open(f"{room}/judged/src/lib.rt", "w", encoding="utf-8") as file:
            file.write("//! Stands on what is judged.\n#![tactic(auto)]\n")
        for name, these in named:
            lay(f"{room}/{name}", these, name)
            words += ["--lib", f"{name}={room}/{name}/src/lib.rt"]
            words += [
                word for function in these.asked() for word in ("--only", f"{name}::{function}")
            ]
        said = run(words, room)
        ended = ENDED.search(said.text)
        return [said_of(said.text, room, name) if ended else None for name, _ in named], said
