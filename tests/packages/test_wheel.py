"""The wheel: its files, and what it installs into an environment of Python."""
from __future__ import annotations

import json
import os
import re
import subprocess
import time
from pathlib import Path
from typing import Iterator, Mapping, Sequence

import pytest

from support.packages import COMMANDS, PYTHON, RELEASE, SECONDS, WHEEL, WHEEL_TAG, Files, Packages
from support.packages import files_in, python_files, run, text_of
from support.running import TOP

ABOUT = f"iim-{RELEASE}.dist-info"
FILES_ABOUT = ["METADATA", "RECORD", "WHEEL", "entry_points.txt", "top_level.txt"]
PIP = ["--no-cache-dir", "--disable-pip-version-check"]
INSTALL = ["install", "--no-index", "--no-deps"]


def test_has_the_same_files_in_the_wheel(packages: Packages) -> None:
    folder = packages.of_wheel()
    files: Files = {**python_files(""), "/iim/libiim.so": "bindings/out/libiim.so.1"}
    names = [path.lstrip("/") for path in files]
    about = [f"{ABOUT}/{name}" for name in (*FILES_ABOUT, "sboms/iim.spdx.json")]
    assert files_in(folder) == sorted([*names, "iim/COPYRIGHT", "iim/PROVENANCE", *about])
    for path, source in files.items():
        is_same = (folder / path[1:]).read_bytes() == (TOP / str(source)).read_bytes()
        assert is_same, path
    provenance = (folder / "iim/PROVENANCE").read_text()
    assert provenance == packages.document("iimwire", "PROVENANCE")
    copyright_ = (folder / "iim/COPYRIGHT").read_text()
    assert copyright_ == packages.document("iimwire", "copyright")


def test_states_what_the_wheel_needs(packages: Packages) -> None:
    about = packages.of_wheel() / ABOUT
    text = (about / "METADATA").read_text() + (about / "WHEEL").read_text()
    names = "Version|Requires-Python|Requires-Dist|Tag|Root-Is-Purelib"
    values = re.findall(rf"^(?:{names}): (.*)$", text, re.M)
    assert values == [RELEASE, ">=3.8", "false", f"cp38-abi3-{WHEEL_TAG}"]
    commands = re.findall(r"^([\w-]+) = ", (about / "entry_points.txt").read_text(), re.M)
    assert sorted(commands) == sorted(COMMANDS)


def clean_environment() -> dict[str, str]:
    """Return the environment without what concerns Python and libraries."""
    ours = "PYTHON", "IIM_", "LD_"
    kept = {name: value for name, value in os.environ.items() if not name.startswith(ours)}
    return {**kept, "PYTHONDONTWRITEBYTECODE": "1"}


def run_archive(words: Sequence[str], env: Mapping[str, str]) -> str:
    """Return what iim-archive prints of the samples: the sums are those of its guide."""
    options = ["--now", "2024-03-01T12:00:00Z", "--name", "*.iim", f"{TOP}/samples"]
    ran = subprocess.run([*words, *options], capture_output=True, text=True, env=env)
    sums = re.findall(r'^\{"files": 38, .*$', text_of("docs/guide/archive.md"), re.M)
    assert (ran.returncode, ran.stdout.splitlines()[-1:], ran.stderr) == (1, sums[:1], "")
    return ran.stdout


class Environment:
    """An environment of Python with the wheel."""

    def __init__(self, path: Path, packages: Packages, *options: str) -> None:
        """Make the environment, and install the wheel in it."""
        self.path, self.env = path, clean_environment()
        run([PYTHON, "-m", "venv", *options, path])
        self.before = files_in(path)
        self.pip(*INSTALL, "--no-compile", f"{packages.out}/{WHEEL}")

    def program(self, name: str) -> str:
        """Return the path of a program of the environment."""
        return f"{self.path}/bin/{name}"

    def pip(self, *words: str) -> None:
        """Run pip."""
        run([self.program("pip"), *PIP, *words], env=self.env)


@pytest.fixture()
def environment(packages: Packages, tmp_path: Path) -> Environment:
    """Return an environment with the wheel."""
    return Environment(tmp_path / "environment", packages)


def test_installs_the_wheel(environment: Environment) -> None:
    env, path = environment.env, environment.path
    code = "import iim\n"
    code += f"print([it.headline for it in iim.read('{TOP}/samples/story.iim')])\n"
    code += f"print(iim.__file__.startswith('{path}/'))"
    assert run([environment.program("python"), "-c", code], env=env) == "[b'Rates held']\nTrue\n"
    archive = environment.program("iim-archive")
    run_archive([archive], env)
    for words in "", " query":
        text = run([archive, *words.split(), "--help"], env=env)
        assert text.startswith(f"usage: iim-archive{words} [-h]")
        assert "archive.py" not in text
    text = run([environment.program("iim-explain"), f"{TOP}/samples/smallest.iim"], env=env)
    assert text.partition(": ")[2].startswith("114 octets, 1 envelope accepted\n")
    environment.pip("uninstall", "-y", "iim")
    assert files_in(path) == environment.before


PROGRAM = """import iim

for envelope in iim.read("copy.iim"):
    print(envelope.headline)
    print(envelope.headlin)
"""


def test_wheel_has_types(environment: Environment, tmp_path: Path) -> None:
    program = tmp_path / "program.py"
    program.write_text(PROGRAM)
    options = ["--strict", "--cache-dir", f"{tmp_path}/types"]
    python = ["--python-executable", environment.program("python")]
    words = [PYTHON, "-m", "mypy", *options, *python, str(program)]
    ran = subprocess.run(
        words, capture_output=True, text=True, timeout=SECONDS, env=environment.env
    )
    first, last = ran.stdout.splitlines()
    # (mypy suggests a name, or not, by where the attribute is defined)
    wrong = r'error: "Envelope" has no attribute "headlin"(; maybe "headline"\?)?  \[attr-defined\]'
    assert re.fullmatch(rf"{program}:5: {wrong}", first)
    assert last.startswith("Found 1 error in 1 file")


@pytest.fixture()
def scheduler(packages: Packages, tmp_path: Path) -> Iterator[tuple[Environment, str]]:
    """Return an environment with Debian's distributed, and the address of a scheduler in it.

    Of this project it has only the wheel: no directory of the repository is on any path.
    """
    environment = Environment(tmp_path / "with_dask", packages, "--system-site-packages")
    room, file = tmp_path / "dask", tmp_path / "dask/scheduler"
    room.mkdir()
    named = ["--no-dashboard", "--scheduler-file", f"{file}"]
    host = ["--host", "127.0.0.1", "--port", "0"]
    workers = ["--no-nanny", "--nthreads", "4", "--local-directory", f"{room}"]
    started = []
    try:
        for name, *words in ["scheduler", *host], ["worker", *workers]:
            program = [environment.program("python"), "-m", f"distributed.cli.dask_{name}"]
            with open(room / f"{name}.log", "wb") as log:
                process = subprocess.Popen(
                    [*program, *words, *named],
                    stdout=log,
                    stderr=log,
                    cwd=room,
                    env=environment.env,
                )
            started.append(process)
            end = time.monotonic() + SECONDS
            while not file.exists() and time.monotonic() < end and process.poll() is None:
                time.sleep(0.1)
        yield environment, json.loads(file.read_text())["address"]
    finally:
        for process in reversed(started):
            process.kill()
            process.wait()


def test_wheel_runs_the_archive_on_dask(scheduler: tuple[Environment, str]) -> None:
    environment, address = scheduler
    command = environment.program("iim-archive")
    want = run_archive([command], environment.env)
    words = [command, "--scheduler", address, "--batch", "4"]
    assert run_archive(words, environment.env) == want
