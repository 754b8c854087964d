"""Build a wheel for every Python from 3.8 on.

packages/build puts the library, the extension module, the file VERSION and the program that writes
the SBOM beside this file, and names the platform in the environment variable IIM_PLATFORM. Without
the library the wheel has no platform, and the package loads the library of the system.
"""
from __future__ import annotations

import os
import re
import subprocess
import sys
from pathlib import Path
from typing import Any, Tuple

from setuptools import Distribution, setup
from wheel.bdist_wheel import bdist_wheel

HERE = Path(__file__).resolve().parent
LIBRARY = HERE / "src" / "iim" / "libiim.so"


def read_version() -> str:
    """Return the release: from the file VERSION, or in a clone from the sources of the command."""
    written = HERE / "VERSION"
    if written.exists():
        return written.read_text(encoding="utf-8").strip()
    source = HERE.parents[1] / "crates" / "iim_request" / "src" / "commands.rt"
    release = re.search(r'^const RELEASE: .* = "(\d+)";$', source.read_text(encoding="utf-8"), re.M)
    if release is None:
        raise SystemExit(f"{source} has no constant RELEASE")
    return release[1]


class WithLibrary(Distribution):
    """A distribution that has a library for one platform, if the library is there."""

    def has_ext_modules(self) -> bool:
        """Check whether the wheel is for one platform."""
        return LIBRARY.exists()


class Wheel(bdist_wheel):
    """Tag the wheel for every Python from 3.8 on, and add its SBOM."""

    def get_tag(self) -> Tuple[str, str, str]:
        """Return the tags of Python, of its binary interface and of the platform."""
        if LIBRARY.exists():
            return "cp38", "abi3", os.environ["IIM_PLATFORM"]
        return "py3", "none", "any"

    def write_wheelfile(self, wheelfile_base: str, **more: Any) -> None:
        """Write the file WHEEL and the SBOM."""
        super().write_wheelfile(wheelfile_base, **more)
        facts, info = HERE / "facts.json", Path(wheelfile_base)
        if facts.exists():
            # (all other files are written by now, except RECORD, which lists the SBOM too)
            sbom = [sys.executable, str(HERE / "sbom"), "write", str(facts), "iim"]
            subprocess.run(
                [*sbom, str(info.parent), str(info / "sboms" / "iim.spdx.json")], check=True
            )


setup(version=read_version(), distclass=WithLibrary, cmdclass={"bdist_wheel": Wheel})
