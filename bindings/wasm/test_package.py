"""The package for JavaScript, as npm installs it."""
from __future__ import annotations

import json
import re
import shutil
import subprocess
from pathlib import Path
from typing import Callable

from support.bindings.javascript import WASM, node, require
from support.bindings.paths import SAMPLES, SECONDS, TOP

import iim

USE = (WASM / "tests" / "use.mts").read_text(encoding="utf-8")
WRONG = [
    'check("text");',
    "const one: string = check(new Uint8Array());",
    "new Receiver().feed([1, 2]);",
    "new Receiver({ limits: { octets: 1 } });",
    "for (const envelope of read(new Uint8Array())) void envelope;",
]


def test_passes_its_tests(installed: Path, count_cases: Callable[[int], None]) -> None:
    shutil.copy(WASM / "package" / "test" / "package.test.mjs", installed)
    ran = node(installed, "--test", "package.test.mjs")
    assert ran.returncode == 0, ran.stdout
    (passed,) = re.findall(r"^# pass (\d+)$", ran.stdout, re.M)
    count_cases(int(passed))


def test_contains_only_its_files(built: Path, installed: Path) -> None:
    package = installed / "node_modules" / "iim"
    found = sorted(str(path.relative_to(package)) for path in package.rglob("*") if path.is_file())
    layout = sorted(path.name for path in (WASM / "package" / "explain").glob("*.mjs"))
    names = ["README.md", "core.mjs", "errors.mjs", "iim.wasm", "index.d.ts", "index.mjs"]
    names += ["layout.mjs", "package.json", "receiver.mjs", "explain/tables.mjs"]
    assert found == sorted([*names, *(f"explain/{name}" for name in layout)])
    described = json.loads((package / "package.json").read_text(encoding="utf-8"))
    assert described["version"] == "2.0.0" and "dependencies" not in described
    assert (package / "iim.wasm").read_bytes() == (built / "iim.wasm").read_bytes()


def test_runs_the_example_of_its_readme(installed: Path) -> None:
    text = (WASM / "package" / "README.md").read_text(encoding="utf-8")
    (example,) = re.findall(r"```js\n(.*?)```", text, re.S)
    (installed / "example.mjs").write_text(example, encoding="utf-8")
    for name in ("story.iim", "stream.iim", "damaged/bad_value.iim"):
        expected, error = [], ""
        try:
            for envelope in iim.read(str(SAMPLES / name)):
                headline = envelope.first(2, 105) or b""
                expected.append(f"{envelope.nth} {headline.decode('latin-1')}")
        except iim.RefusedError as refusal:
            error = f"{refusal}\n"
        ran = node(installed, "example.mjs", str(SAMPLES / name))
        assert (ran.stdout.splitlines(), ran.stderr) == (expected, error), name
        assert ran.returncode == int(bool(error))


def test_has_strict_types(installed: Path) -> None:
    def errors(*names: str) -> str:
        words = "--strict --noEmit --target es2022 --module nodenext --moduleResolution nodenext"
        command = [require("tsc"), *words.split(), "--lib", "es2022,dom", *names]
        ran = subprocess.run(
            command, cwd=installed, capture_output=True, text=True, timeout=SECONDS
        )
        return ran.stdout

    (installed / "package.json").write_text('{"type": "module"}', encoding="utf-8")
    (installed / "use.mts").write_text(USE, encoding="utf-8")
    assert errors("use.mts") == ""
    names = [f"wrong{nth}.mts" for nth in range(len(WRONG))]
    for name, wrong in zip(names, WRONG):
        (installed / name).write_text(f"{USE}\n{wrong}\n", encoding="utf-8")
    found = errors(*names)
    assert [name for name in names if f"{name}(" not in found] == []


def test_declares_what_it_exports(installed: Path) -> None:
    ran = node(installed, "-e", 'import("iim").then((all) => console.log(Object.keys(all).join()))')
    package = installed / "node_modules" / "iim"
    types = (package / "index.d.ts").read_text(encoding="utf-8")
    declared = re.findall(r"^export (?:const|class|function) (\w+)", types, re.M)
    exported = ran.stdout.strip().split(",")
    # (the types of an envelope have no constructor: callers make none)
    assert sorted(declared) == sorted(set(exported) - {"Envelope"})
    assert (TOP / "bindings" / "c" / "iim.h").exists()
