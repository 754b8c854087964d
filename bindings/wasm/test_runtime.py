"""The module, its heap and its numbers of 128 bits, and the scripts that make it."""
from __future__ import annotations

import importlib.util
import json
import re
import subprocess
import sys
from pathlib import Path
from types import ModuleType
from typing import Dict, List

import pytest
from support.bindings.javascript import WASM, compiled, node
from support.bindings.paths import HEADER

TESTS = WASM / "tests"
# What JavaScript passes for a parameter or gets of a result, by its kind in the glue.
SMALL = "uint8_t", "bool", "int", "uint32_t"
# The functions of the heap that the module has beside those of the header.
OF_HEAP = ["__heap_base", "iim_heap_from", "iim_heap_grants", "iim_heap_out", "memory"]


def script(name: str) -> ModuleType:
    """Return a script of bindings/wasm as a module."""
    spec = importlib.util.spec_from_file_location(f"wasm_{name}", WASM / f"{name}.py")
    assert spec is not None and spec.loader is not None
    module = importlib.util.module_from_spec(spec)
    sys.modules[spec.name] = module
    spec.loader.exec_module(module)
    return module


def test_heap_keeps_and_moves_blocks(tmp_path: Path) -> None:
    program = compiled(tmp_path, TESTS / "heap_test.c", "-O1", "-fsanitize=undefined")
    ran = subprocess.run([program], capture_output=True, text=True)
    assert (ran.returncode, ran.stderr) == (0, ""), ran.stdout
    assert re.fullmatch(r"20000 steps, \d{4,} blocks moved, \d{3,} requests failed\n", ran.stdout)


def test_wide_numbers_are_the_processors(tmp_path: Path) -> None:
    program = compiled(tmp_path, TESTS / "wide_test.c", "-O2")
    ran = subprocess.run([program], capture_output=True, text=True)
    assert (ran.returncode, ran.stdout) == (0, "5000000 cases agree\n")


def test_layouts_are_the_compilers(tmp_path: Path) -> None:
    declared = script("declarations").declared(HEADER.read_text(encoding="utf-8"))
    lines = [
        "#include <stdio.h>",
        "#include <stddef.h>",
        f'#include "{HEADER}"',
        "int main(void) {",
    ]
    for name, each in declared["STRUCTS"].items():
        lines.append(f'printf("{name} %zu\\n", sizeof({name}));')
        lines += [
            f'printf("{name}.{member} %zu\\n", offsetof({name}, {member}));'
            for member in each["members"]
        ]
    lines += [f'printf("{name} %d\\n", (int){name});' for name in declared["CONSTANTS"]]
    source = tmp_path / "layouts.c"
    source.write_text("\n".join([*lines, "}"]), encoding="utf-8")
    found = subprocess.run([compiled(tmp_path, source)], capture_output=True, text=True).stdout
    expected: List[str] = []
    for name, each in declared["STRUCTS"].items():
        expected.append(f"{name} {each['size']}")
        expected += [f"{name}.{member} {of[0]}" for member, of in each["members"].items()]
    expected += [f"{name} {value}" for name, value in declared["CONSTANTS"].items()]
    assert found.splitlines() == expected
    assert len(declared["STRUCTS"]) == 14 and len(declared["FUNCTIONS"]) == 32


def test_rejects_a_struct_in_two_words() -> None:
    header = HEADER.read_text(encoding="utf-8")
    changed = header.replace("void iim_end(iim_limits limits", "void iim_end(iim_instant limits")
    assert changed != header
    with pytest.raises(ValueError, match="iim_instant is passed in two words"):
        script("declarations").declared(changed)


def word_of(kind: str) -> str:
    """Return the type of WebAssembly in which a parameter is passed."""
    return "i32" if kind in SMALL else "i64"


def test_module_has_the_functions_of_the_header(built: Path, tmp_path: Path) -> None:
    ran = node(tmp_path, str(TESTS / "types.mjs"), str(built / "iim.wasm"))
    found = json.loads(ran.stdout)
    assert found["imports"] == [] and "4" not in found["sections"] and "9" not in found["sections"]
    declared = script("declarations").declared(HEADER.read_text(encoding="utf-8"))["FUNCTIONS"]
    assert sorted(found["exports"]) == sorted([*declared, *OF_HEAP])
    for name, each in declared.items():
        result = [] if each["result"] == "void" else [word_of(each["result"])]
        assert found["exports"][name] == [[*map(word_of, each["parameters"])], result], name


@pytest.mark.parametrize(
    "line",
    [
        '  call void asm sideeffect "nop", ""()',
        "@x = thread_local global i8 0",
        "  %1 = call i32 @llvm.x86.rdtsc()",
        "@y = global x86_fp80 0",
    ],
)
def test_retargeting_rejects_code_of_a_processor(line: str) -> None:
    retargeted = script("retarget").retargeted
    head = 'target datalayout = "e-m:e"\ntarget triple = "x86_64-unknown-linux-gnu"\n'
    made = retargeted(head + '@s = global [3 x i8] c"asm"\n')
    assert 'target triple = "wasm64-unknown-unknown"' in made
    with pytest.raises(ValueError, match="the module has"):
        retargeted(head + line)
    with pytest.raises(ValueError, match="no target"):
        retargeted(line)


def test_keeps_a_table_with_elements() -> None:
    module = script("drop_table")
    head, table, code = b"\0asm\1\0\0\0", b"\4\4\1\x70\4\1", b"\x0a\1\0"
    assert module.without_table(head + table + code) == head + code
    with pytest.raises(ValueError, match="pointers"):
        module.without_table(head + table + b"\x09\1\0" + code)


def test_builds_are_equal(built: Path, tmp_path: Path) -> None:
    subprocess.run([WASM / "build", "--gate", "--to", tmp_path / "again"], check=True)
    names = sorted(path.name for path in built.iterdir() if path.is_file())
    assert len(names) == 3
    contents: Dict[str, bytes] = {name: (built / name).read_bytes() for name in names}
    assert {name: (tmp_path / "again" / name).read_bytes() for name in names} == contents
