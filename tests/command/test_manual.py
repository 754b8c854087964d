"""The manual pages: their options, and linters."""
from __future__ import annotations

import shutil
import subprocess

import pytest

from support.manual import manual, options_of
from support.running import SECONDS, TOP, Command
from support.streams import COMMANDS


@pytest.mark.parametrize("name", COMMANDS)
def test_manual_names_each_option(run: Command, name: str) -> None:
    options = options_of(run, name)
    assert [*options][-1] == "--help"
    assert [option for option in (*options, "-h") if option not in manual()] == []
    assert f"iimwire {name}\n" in manual()


LINTERS = [["mandoc", "-T", "lint"], ["groff", "-ww", "-man", "-Tutf8"]]
PAGES = "docs/iimwire.1", "packages/python/iim-archive.1", "packages/python/iim-explain.1"


@pytest.mark.parametrize("linter", LINTERS, ids=["mandoc", "groff"])
def test_manual_pages_pass_the_linters(linter: list[str]) -> None:
    if not shutil.which(linter[0]):
        pytest.skip(f"{linter[0]} is not there")
    for page in PAGES:
        ran = subprocess.run([*linter, TOP / page], capture_output=True, timeout=SECONDS)
        output = ran.stdout if linter[0] == "mandoc" else b""
        assert (output + ran.stderr, ran.returncode) == (b"", 0), page
