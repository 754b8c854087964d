"""packages/build: the same bytes each time, and nothing changed if it fails."""
from __future__ import annotations

import os
import shutil
import subprocess
from pathlib import Path

import pytest

from support.packages import INPUTS, SECONDS, Packages, files_in, run
from support.running import TOP, write_program

# The habits of another user.
ODD = {"TZ": "Asia/Kathmandu", "LC_ALL": "C.UTF-8", "USER": "nobody"}


@pytest.mark.xdist_group("packages")
def test_is_made_again_of_the_same_bytes(packages: Packages, tmp_path: Path) -> None:
    # In a directory of another name and length, at another time: of what was compiled here, with
    # nothing else that was made.
    again = tmp_path / "another place/of another name"
    left_out = shutil.ignore_patterns("out", "__pycache__")
    shutil.copytree(TOP, again, symlinks=True, ignore=left_out, copy_function=shutil.copy)
    for built in INPUTS:
        (again / built).parent.mkdir(parents=True, exist_ok=True)
        shutil.copy(TOP / built, again / built)
    room = {"HOME": str(tmp_path), "TMPDIR": str(tmp_path), "GIT_CONFIG_GLOBAL": "/dev/null"}
    env = {**os.environ, **ODD, **room}
    run(["sh", "-c", 'umask 077; exec "$0"', again / "packages/build"], env=env)
    out = again / "packages/out"
    assert (out / "SHA256SUMS").read_text() == (packages.out / "SHA256SUMS").read_text()
    # A run that fails leaves the packages of the one before.
    write_program(tmp_path / "failing/gzip", "#!/bin/sh\nexit 1\n")
    env["PATH"] = f"{tmp_path}/failing:{env['PATH']}"
    words = [f"{again}/packages/build"]
    failed = subprocess.run(words, env=env, capture_output=True, timeout=SECONDS)
    assert (failed.returncode, files_in(out)) == (1, files_in(packages.out))
