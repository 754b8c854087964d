"""An empty root of Debian, in which the packages are installed."""
from __future__ import annotations

import contextlib
import os
import pty
import re
import select
import shutil
import time
from pathlib import Path
from typing import Any, Iterator, Optional

from support.packages import ARCHITECTURES, SECONDS, Packages, run

ENVIRONMENT = {
    "PATH": "/usr/sbin:/usr/bin:/sbin:/bin",
    "HOME": "/root",
    "LC_ALL": "C.UTF-8",
    "DEBIAN_FRONTEND": "noninteractive",
    "TERM": "dumb",
}
# What dpkg and apt write about what they did, and what is made anew of what is installed.
CHANGING = (
    *("./var/lib/dpkg/", "./var/lib/apt/", "./var/cache/", "./var/log/", "./packages/"),
    *("./etc/ld.so.cache", "./proc/", "./dev/", "./tmp/"),
)
FIND_OURS = "find / -xdev -name '*iim*' ! -path '/packages/*' "
FIND_OURS += "! -path '/var/lib/apt/lists/*' ! -path '/var/cache/man/*'"


class Root:
    """A root directory in which commands run as on a separate machine.

    Its apt knows only our packages.
    """

    def __init__(self, path: Path, packages: Packages) -> None:
        """Add a directory with the packages to the sources of apt."""
        self.path = path
        there = path / "packages"
        shutil.rmtree(there, ignore_errors=True)
        there.mkdir()
        for name in ARCHITECTURES:
            shutil.copy(packages.path(name), there)
        (there / "Packages").write_text(
            run(["dpkg-scanpackages", "--multiversion", "."], cwd=there)
        )
        for old in path.glob("etc/apt/sources.list*/*"):
            old.unlink()
        sources = path / "etc/apt/sources.list"
        sources.parent.mkdir(parents=True, exist_ok=True)
        sources.write_text("deb [trusted=yes] file:/packages ./\n")
        self.run("apt-get update")

    def run(self, script: str, **more: Any) -> str:
        """Run a shell script in the root, and return its output."""
        return run(["chroot", self.path, "sh", "-ec", script], env=ENVIRONMENT, **more)

    @contextlib.contextmanager
    def folder(self, path: str) -> Iterator[Path]:
        """Make a directory, which is removed with all its files."""
        folder = Path(f"{self.path}{path}")
        shutil.rmtree(folder, ignore_errors=True)
        folder.mkdir(parents=True)
        try:
            yield folder
        finally:
            shutil.rmtree(folder)

    def files(self) -> list[str]:
        """Return all files that an installation must remove again."""
        found = self.run("find . -xdev ! -name __pycache__ ! -name '*.pyc' -print0").split("\0")
        return sorted(path for path in found if not path.startswith(CHANGING))

    @contextlib.contextmanager
    def installed(self, *names: str, by: Optional[str] = None) -> Iterator[None]:
        """Install packages with their dependencies, and remove them: nothing must remain."""
        before = self.files()
        self.run(by or f"apt-get install -y --no-install-recommends {' '.join(names)}")
        try:
            yield
        finally:
            self.run(f"apt-get purge -y --autoremove {' '.join(names)}")
        left = sorted(set(self.files()) ^ set(before))
        assert left == [], left
        assert self.run(FIND_OURS) == ""


def shell(root: Root) -> tuple[int, int]:
    """Start a login shell on a terminal in the root, and return its process and the terminal."""
    child, terminal = pty.fork()
    if child == 0:
        # The shell has the devices and processes of this machine, in mounts that end with it.
        mounts = 'mount -t proc proc "$0/proc" && mount --rbind /dev "$0/dev" '
        login = '&& exec chroot "$0" /bin/bash -l -i'
        env = {**ENVIRONMENT, "TERM": "xterm"}
        words = ["unshare", "--mount", "sh", "-c", f"{mounts}{login}", str(root.path)]
        os.execvpe("unshare", words, env)
    return child, terminal


def typed(root: Root, keys: bytes, until: bytes) -> str:
    """Return the output of a terminal after these keys are typed, up to a pattern."""
    child, terminal = shell(root)
    shown, is_sent, end = b"", False, time.monotonic() + SECONDS / 8
    try:
        while time.monotonic() < end and not (is_sent and re.search(until, shown)):
            if select.select([terminal], [], [], 0.5)[0]:
                shown += os.read(terminal, 4096)
            elif not is_sent and shown:
                # (the shell waits for input)
                os.write(terminal, keys)
                is_sent, shown = True, b""
    except OSError:
        pass
    finally:
        os.kill(child, 9)
        os.waitpid(child, 0)
        os.close(terminal)
    return shown.decode(errors="replace")
