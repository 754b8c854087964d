"""The structs and functions of iim.h, as the package declares them."""
from __future__ import annotations
from typing import List

import ctypes
import re
import shutil
import tempfile

import pytest
from iim import _library
from support.bindings.paths import TOP
from support.bindings.running import run, write_file


def header() -> str:
    """Return the text of iim.h without its comments."""
    with open(f"{TOP}/bindings/c/iim.h") as text:
        return re.sub(r"/\*.*?\*/", " ", text.read(), flags=re.S)


# Each struct of iim.h, and its class in iim.py.
STRUCTS = {
    "iim_limits": _library.Limits,
    "iim_answer": _library.Answer,
    "iim_span": _library.Span,
    "iim_dataset": _library.Dataset,
    "iim_message": _library.Message,
    "iim_object": _library.Object,
    "iim_packing": _library.Packing,
    "iim_rule": _library.Rule,
    "iim_octet_set": _library.OctetSet,
    "iim_begun": _library.Begun,
    "iim_instant": _library.Instant,
    "iim_so_far": _library.SoFar,
    "iim_audit_row": _library.AuditRow,
}
# What the package does not use: its receivers are objects of Python, which keep the state.
ONLY_IN_C = {
    "iim_error_text",
    "iim_unpacker",
    *("iim_unpacker_" + name for name in "close count end feed field fields header".split()),
    *("iim_unpacker_" + name for name in "open reset restore save sizes".split()),
}


def told_by_a_compiler(lines: List[str]) -> List[str]:
    """Return the output of a C program with these lines after iim.h."""
    compiler = shutil.which("cc")
    if compiler is None:
        pytest.skip("no C compiler is installed")
    with tempfile.TemporaryDirectory() as folder:
        lines = [
            "#include <stdio.h>",
            '#include "iim.h"',
            "int main(void) {",
            *lines,
            "return 0; }",
        ]
        path = write_file(folder, "reported.c", "\n".join(lines).encode())
        assert run([compiler, "-I", f"{TOP}/bindings/c", path, "-o", f"{folder}/reported"])[0] == 0
        return run([f"{folder}/reported"])[1].decode().splitlines()


def test_declares_the_structs_of_the_header() -> None:
    declared = re.findall(r"typedef struct (\w+) \{(.*?)\} \1;", header(), re.S)
    assert sorted(name for name, _ in declared if name not in ONLY_IN_C) == sorted(STRUCTS)
    want, lines = [], []
    for name, members in declared:
        if name in ONLY_IN_C:
            continue
        names = re.findall(r"(\w+)(?:\[\d+\])?;", members)
        kind = STRUCTS[name]
        assert (name, names) == (name, [each[0] for each in kind._fields_])
        lines.append(f'printf("{name} %zu\\n", sizeof({name}));')
        want.append(f"{name} {ctypes.sizeof(kind)}")
        for each in names:
            member = f"offsetof({name}, {each}), sizeof((({name} *)0)->{each})"
            lines.append(f'printf("{each} %zu %zu\\n", {member});')
            want.append(f"{each} {getattr(kind, each).offset} {getattr(kind, each).size}")
    assert told_by_a_compiler(lines) == want


def test_has_functions_and_statuses_of_the_header() -> None:
    functions = re.findall(r"^(\w+) (iim_\w+)\(([^)]*)\);", header(), re.M)
    kinds = {
        "void": None,
        "bool": ctypes.c_bool,
        "size_t": ctypes.c_size_t,
        "uint32_t": ctypes.c_uint32,
    }
    got = {name: (answers, len(takes)) for name, (answers, takes) in _library.FUNCTIONS.items()}
    assert ONLY_IN_C - {"iim_unpacker"} <= {name for _, name, _ in functions}
    assert got == {
        name: (kinds[answers], 0 if takes == "void" else takes.count(",") + 1)
        for answers, name, takes in functions
        if name not in ONLY_IN_C
    }
    statuses = "DONE MORE REFUSED TRUNCATED NONE SHORT NO_MEMORY".split()
    statuses += ["BAD_TICKET", "BAD_PACKING", "BAD_INSTANT"]
    names = [*(f"IIM_{name}" for name in statuses), "IIM_VERSION"]
    numbers = [*(getattr(_library, name) for name in statuses), _library.VERSION]
    printed = told_by_a_compiler([f'printf("%d\\n", (int){name});' for name in names])
    assert printed == [str(number) for number in numbers]
