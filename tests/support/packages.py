"""The packages of this release, and the files that each must have."""
from __future__ import annotations

import functools
import os
import re
import subprocess
from pathlib import Path
from typing import Any, Optional

from support.running import TOP, Argument

HERE = TOP / "packages"
TRIPLE = "x86_64-linux-gnu"
# What the packages are made of, besides the files of the repository.
INPUTS = (
    "crates/iimwire/out/iimwire",
    "crates/iim_exports/out/libiim_exports.a",
    "crates/iim_exports/out/module.bc",
)
SECONDS = 900
# The commands of the Python package.
COMMANDS = "iim-archive", "iim-explain"
# Debian's Python, which the packages are for, even if another is before it on the path.
PYTHON = "/usr/bin/python3"
SOURCE = "crates/iim_request/src/commands.rt"
RELEASE = re.findall(r'^const RELEASE: .* = "(\d+)";$', (TOP / SOURCE).read_text(), re.M)[0]
ARCHITECTURES = {
    "iimwire": "amd64",
    "libiim1": "amd64",
    "libiim-dev": "amd64",
    "python3-iim": "amd64",
    "iim-doc": "all",
}
ARCHIVE = f"iimwire-{RELEASE}-x86_64-linux.tar.gz"
WHEEL_TAG = "manylinux_2_17_x86_64"
WHEEL = f"iim-{RELEASE}-cp38-abi3-{WHEEL_TAG}.whl"
# The directories of the completions in a package.
BASH, ZSH = "usr/share/bash-completion/completions", "usr/share/zsh/vendor-completions"
# The directory of the site in the package iim-doc.
SITE = "usr/share/doc/iim-doc/html"
# Of each path the file of the repository that it is, or None.
Files = dict[str, Optional[str]]


def run(arguments: list[Argument], **more: Any) -> str:
    """Return what a program prints, which must exit with status 0."""
    options: dict[str, Any] = {"stdin": subprocess.DEVNULL, "capture_output": True, "text": True}
    ran = subprocess.run(arguments, timeout=SECONDS, **{**options, **more})
    words = " ".join(map(str, arguments))
    assert ran.returncode == 0, f"{words}\n{ran.stdout[-2000:]}{ran.stderr[-2000:]}"
    return str(ran.stdout)


@functools.lru_cache(maxsize=None)
def tracked(pattern: str) -> list[str]:
    """Return the files of the repository that git tracks below a path."""
    return run(["git", "-C", TOP, "ls-files", pattern]).split()


def files_in(folder: Path) -> list[str]:
    """Return the files of a directory, at any depth."""
    found = (os.path.join(at, name) for at, _, names in os.walk(folder) for name in names)
    return sorted(os.path.relpath(path, folder) for path in found)


def python_files(at: str) -> Files:
    """Return the files of the Python package, each with its source."""
    source = "bindings/python/src/"
    modules: Files = {f"{at}/{path[len(source):]}": path for path in tracked(f"{source}iim")}
    return {**modules, f"{at}/iim/_iim.abi3.so": "bindings/out/_iim.abi3.so"}


def guides(name: str, *pages: str) -> Files:
    """Return the guides of a package, with the format and the causes.

    In a package some links are plain text, so only the format is the same file.
    """
    docs = f"usr/share/doc/{name}/docs"
    names = ["reference/causes", *(f"guide/{it}" for it in pages)]
    made: Files = {f"{docs}/{it}.md": None for it in names}
    return {**made, f"{docs}/reference/format.md": "docs/reference/format.md"}


def files_of_packages() -> dict[str, Files]:
    """Return the files of each package, without those that each has in its own documents."""
    return {
        "iimwire": {
            "usr/bin/iimwire": None,
            f"{BASH}/iimwire": "completions/iimwire.bash",
            f"{ZSH}/_iimwire": "completions/_iimwire",
            "usr/share/man/man1/iimwire.1.gz": "docs/iimwire.1",
            **guides("iimwire", "command"),
            **{f"usr/share/doc/iimwire/{sample}": sample for sample in tracked("samples")},
        },
        "libiim1": {f"usr/lib/{TRIPLE}/libiim.so.1": "bindings/out/libiim.so.1"},
        "libiim-dev": {
            f"usr/lib/{TRIPLE}/libiim.so": None,
            f"usr/lib/{TRIPLE}/libiim.a": "bindings/out/libiim.a",
            f"usr/lib/{TRIPLE}/pkgconfig/libiim.pc": None,
            "usr/include/iim.h": "bindings/c/iim.h",
            "usr/include/iim_strerror.h": "bindings/c/iim_strerror.h",
            "usr/share/doc/libiim-dev/examples/headline.c": "bindings/c/headline.c",
            **guides("libiim-dev", "c"),
        },
        "python3-iim": {
            **python_files("usr/lib/python3/dist-packages"),
            **{f"usr/bin/{name}": f"packages/python/{name}" for name in COMMANDS},
            **{f"usr/share/man/man1/{it}.1.gz": f"packages/python/{it}.1" for it in COMMANDS},
            **{f"{BASH}/{name}": f"completions/{name}.bash" for name in COMMANDS},
            **{f"{ZSH}/_{name}": f"completions/_{name}" for name in COMMANDS},
            **guides("python3-iim", "python", "archive", "explain"),
        },
        # (packages/build has built the site)
        "iim-doc": {
            **{f"{SITE}/{path}": f"docs/out/{path}" for path in files_in(TOP / "docs" / "out")},
            "usr/share/doc-base/iim-doc.iim": "packages/debian/iim-doc.doc-base",
        },
    }


def text_of(name: str) -> str:
    """Return a text of the repository."""
    return (TOP / name).read_text()


def functions_of_the_header() -> list[str]:
    """Return the functions that the header declares."""
    return sorted(re.findall(r"^\w+ (iim_\w+)\(", text_of("bindings/c/iim.h"), re.M))


def by_number(version: str) -> list[int]:
    """Return the parts of a version, as numbers that can be compared."""
    return [int(part) for part in version.split(".")]


def newest_symbol(path: Path) -> str:
    """Return the newest version of the C library whose symbols a file needs."""
    versions = re.findall(r"\bGLIBC_([\d.]+)", run(["objdump", "-T", path]))
    return str(max(versions, key=by_number))


class Packages:
    """Built packages in a directory, and a directory into which they are unpacked."""

    def __init__(self, out: Path, work: Path) -> None:
        """Store the directories. Packages are unpacked at their first use."""
        self.out, self.work = out, work

    def path(self, name: str) -> Path:
        """Return the path of a package of Debian."""
        return self.out / f"{name}_{RELEASE}_{ARCHITECTURES[name]}.deb"

    def unpacked(self, name: str) -> Path:
        """Return a directory with the files of a package of Debian."""
        folder = self.work / name
        if not folder.exists():
            folder.mkdir()
            run(["dpkg-deb", "-x", self.path(name), folder])
        return folder

    def of_archive(self) -> Path:
        """Return a directory with the files of the archive."""
        folder = self.work / "archive"
        if not folder.exists():
            folder.mkdir()
            words = ["tar", "-xf", f"{self.out}/{ARCHIVE}", "-C", f"{folder}"]
            run([*words, "--strip-components", "1"])
        return folder

    def of_wheel(self) -> Path:
        """Return a directory with the files of the wheel."""
        folder = self.work / "wheel"
        if not folder.exists():
            run([PYTHON, "-m", "zipfile", "-e", self.out / WHEEL, folder])
        return folder

    def document(self, name: str, document: str) -> str:
        """Return a text of a package's own documents."""
        return (self.unpacked(name) / f"usr/share/doc/{name}/{document}").read_text()

    @property
    def command(self) -> Path:
        """Return the packaged command."""
        return self.unpacked("iimwire") / "usr/bin/iimwire"

    @property
    def shared_library(self) -> Path:
        """Return the packaged shared library."""
        return self.unpacked("libiim1") / f"usr/lib/{TRIPLE}/libiim.so.1"

    @property
    def static_library(self) -> Path:
        """Return the packaged static library."""
        return self.unpacked("libiim-dev") / f"usr/lib/{TRIPLE}/libiim.a"
