"""The programs of this directory, which call the library from other languages.

Their output is compared with that of the test oracle, tests/rules.py.
"""
from __future__ import annotations

import functools
import os
import shutil
import subprocess
from pathlib import Path
from typing import Callable, Dict, List, Sequence, Tuple

import pytest
import rules
from support.bindings.paths import BUILT, HEADER, TOP
from support.bindings.running import Name, samples, write_file

HERE = TOP / "bindings" / "examples"
HEADERS = HEADER.parent
JNA = Path("/usr/share/java/jna.jar")
SECONDS = 600
# (rustup's rustc and cargo are found by their home directories)
HOMES = (("RUSTUP_HOME", ".rustup"), ("CARGO_HOME", ".cargo"))


def environment(folder: str, **more: str) -> Dict[str, str]:
    """Return the environment of a compiler or a program."""
    own = {"LD_LIBRARY_PATH": str(BUILT), "HOME": folder, "GOCACHE": f"{folder}/cache"}
    homes = {name: str(Path(os.environ.get("HOME", "/"), at)) for name, at in HOMES}
    return {**homes, **os.environ, **own, "GO111MODULE": "off", **more}


def run(words: Sequence[Name], folder: str, **more: str) -> "subprocess.CompletedProcess[bytes]":
    """Run a compiler or a program in a directory."""
    return subprocess.run(
        words,
        cwd=folder,
        env=environment(folder, **more),
        stdin=subprocess.DEVNULL,
        capture_output=True,
        timeout=SECONDS,
    )


def make(words: Sequence[Name], folder: str, **more: str) -> None:
    """Run a compiler, which must succeed."""
    ran = run(words, folder, **more)
    printed = (ran.stdout + ran.stderr).decode(errors="replace")
    assert ran.returncode == 0, f"{words}\n{printed}"


def need(*commands: str) -> None:
    """Skip the test if one of the commands is not installed."""
    for command in commands:
        if not shutil.which(command):
            pytest.skip(f"{command} is not installed")


def java(folder: str) -> List[Name]:
    """Compile the program in Java."""
    need("java", "javac")
    if not JNA.exists():
        pytest.skip(f"{JNA} is not installed")
    strict = ["-Xlint:all", "-Werror"]
    make(["javac", *strict, "-cp", JNA, "-d", ".", HERE / "Check.java"], folder)
    return ["java", "-cp", f"{JNA}:.", f"-Djna.library.path={BUILT}", "Check"]


def go(folder: str) -> List[Name]:
    """Compile the program in Go."""
    need("go", "gofmt")
    flags = {"CGO_CFLAGS": f"-I{HEADERS}", "CGO_LDFLAGS": f"-L{BUILT}"}
    make(["sh", "-c", 'test -z "$(gofmt -l "$0")"', HERE / "check.go"], folder)
    make(["go", "build", "-o", "check", HERE / "check.go"], folder, **flags)
    return ["./check"]


def rust(folder: str) -> List[Name]:
    """Compile the program in Rust."""
    need("rustc")
    words = ["rustc", "-O", "--edition", "2021", "-D", "warnings"]
    crate = ["--crate-type", "lib", "--crate-name", "iim_sys", str(HERE / "iim-sys" / "lib.rs")]
    make([*words, *crate], folder)
    linked = ["--extern", "iim_sys=libiim_sys.rlib", "-L", str(BUILT)]
    make([*words, *linked, HERE / "check.rs"], folder)
    return ["./check"]


def c_sharp(folder: str) -> List[Name]:
    """Compile the program in C#."""
    need("mcs", "mono")
    make(["mcs", "-warnaserror", "-out:check.exe", HERE / "Check.cs"], folder)
    return ["mono", "check.exe"]


def node(folder: str) -> List[Name]:
    """Compile the addon of the program in JavaScript."""
    need("node", "cc")
    known = Path("/usr/include/node"), Path("/usr/include/nodejs/src")
    headers = [at for at in known if (at / "node_api.h").exists()]
    if not headers:
        pytest.skip("node_api.h is not installed")
    strict = ["-std=c11", "-O1", "-Wall", "-Wextra", "-Werror", "-shared", "-fPIC"]
    paths = [f"-I{headers[0]}", f"-I{HEADERS}", "-o", "iim.node"]
    make(["cc", *strict, *paths, HERE / "addon.c", BUILT / "libiim.a"], folder)
    return ["node", HERE / "check.js", "./iim.node"]


def php(folder: str) -> List[Name]:
    """Return the program in PHP."""
    need("php")
    if run(["php", "-r", "exit(class_exists('FFI') ? 0 : 1);"], folder).returncode != 0:
        pytest.skip("PHP here has no FFI")
    return ["php", HERE / "check.php", HEADERS / "iim.h", BUILT / "libiim.so.1"]


LANGUAGES: Dict[str, Callable[[str], List[Name]]] = {
    "Java": java,
    "Go": go,
    "Rust": rust,
    "C#": c_sharp,
    "Node": node,
    "PHP": php,
}


@functools.lru_cache(maxsize=None)
def inputs() -> Dict[str, bytes]:
    """Return inputs by name: each kind of result, a byte above 7F, several envelopes and none."""
    kept = ("stream", "subfiles", "damaged/truncated", "damaged/bad_value", "damaged/short")
    found = {name: samples()[f"{name}.iim"] for name in (*kept, "damaged/too_many_fields")}
    accented = samples()["story.iim"].replace(b"Rates held", b"R\xe4tes held")
    several = accented + samples()["smallest.iim"] + accented[:200]
    return {**found, "accented": several, "empty": b""}


def wanted(octets: bytes) -> Tuple[bytes, int]:
    """Return what a program must print for a file, and its status."""
    lines, number = b"", 1
    while octets:
        envelope = rules.read(octets)
        if not envelope.is_done:
            return lines + f"{number} {envelope.refusal or envelope.end()}\n".encode(), 1
        headline = rules.first(envelope.fields, 2, 105)
        lines += f"{number} accepted {envelope.at} octets\n".encode()
        lines += b"" if headline is None else headline + b"\n"
        octets, number = octets[envelope.at :], number + 1
    return lines, 0


@pytest.mark.parametrize("language", LANGUAGES)
def test_prints_as_the_rules(language: str, library: Path, folder: str) -> None:
    words = LANGUAGES[language](folder)
    for name, octets in inputs().items():
        path = write_file(folder, name.replace("/", "_"), octets)
        ran = run([*words, path], folder)
        got = name, ran.stdout, ran.returncode, ran.stderr
        assert got == (name, *wanted(octets), b"")
