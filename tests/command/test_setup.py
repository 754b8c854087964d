"""`.ci/setup`: it installs what is missing, and reports what it could not install."""
from __future__ import annotations

import re
import shutil
import subprocess
from pathlib import Path

from support.running import SECONDS, TOP, as_streams, write_program

# Stands in for apt-get: it logs its arguments, and makes each program that it is asked for, but
# none if a compiler is among them.
INSTALLER = """#!/bin/sh
here=${0%/*}
echo "$*" >>"$here/asked"
case " $* " in *" update "* | *" gcc "*) exit 100 ;; esac
while [ "$1" != --no-install-recommends ]; do shift; done
shift
for package; do ln -s true "$here/$package"; done
"""
SUDO = '#!/bin/sh\necho "sudo $1" >>"${0%/*}/asked"\nshift\nexec "$@"\n'
INSTALL = "-q install -y --no-install-recommends"
BOTH = {"parallel", "zsh"}


def programs() -> set[str]:
    """Return the programs that .ci/setup looks for on the path."""
    text = (TOP / ".ci/setup").read_text()
    rows = text.partition("packages='\n")[2].partition("'")[0].splitlines()
    return set(re.findall(r"^\S+ +([^\s/]+)$", "\n".join(rows), re.M))


def set_up(
    folder: Path, missing: set[str], user: int, sudo: str = ""
) -> tuple[int, list[str], list[str]]:
    """Run .ci/setup as a user, with all programs but these on the path.

    Returns its status, the lines that it prints, and the lines that apt-get and sudo log.
    """
    there = folder / "bin"
    there.mkdir(parents=True)
    assert missing <= programs()
    for name in "true", "ln":
        (there / name).symlink_to(shutil.which(name) or name)
    for name in programs() - missing | {"python3"}:
        (there / name).symlink_to("true")
    write_program(there / "apt-get", INSTALLER)
    write_program(there / "id", f"#!/bin/sh\necho {user}\n")
    if sudo:
        write_program(there / "sudo", sudo)
    options = as_streams({"env": {"PATH": str(there)}, "stdin": subprocess.DEVNULL}, b"")
    ran = subprocess.run([TOP / ".ci/setup"], timeout=SECONDS, **options)
    asked = there / "asked"
    log = asked.read_text().splitlines() if asked.exists() else []
    return ran.returncode, ran.stdout.decode().splitlines(), log


def test_installs_missing_packages(tmp_path: Path) -> None:
    assert set_up(tmp_path / "0", set(), 0) == (0, [], [])
    asked = ["-q update", f"{INSTALL} parallel zsh"]
    assert set_up(tmp_path / "1", BOTH, 0) == (0, ["installing parallel zsh"], asked)
    asked = [line for each in asked for line in ("sudo -n", each)]
    got = set_up(tmp_path / "2", BOTH, 1000, SUDO)
    assert got == (0, ["installing parallel zsh"], asked)


def test_reports_packages_it_cannot_install(tmp_path: Path) -> None:
    printed = ["installing parallel zsh", "missing still: parallel zsh"]
    assert set_up(tmp_path / "0", BOTH, 1000) == (1, printed, [])
    asked = ["-q update", f"{INSTALL} gcc zsh", f"{INSTALL} gcc", f"{INSTALL} zsh"]
    printed = ["installing gcc zsh", "missing still: gcc"]
    assert set_up(tmp_path / "1", {"cc", "zsh"}, 0) == (1, printed, asked)
