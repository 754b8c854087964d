"""Compare an iim_unpacker with tickets by c/unpacker.c, and find planted faults with it."""
from __future__ import annotations

import re
import shutil
from pathlib import Path
from typing import Callable, List

import pytest
from support.bindings.harness import ALL, HERE, SANITIZERS, STRICT
from support.bindings.paths import BUILT
from support.bindings.running import Name, run_text

COUNTING = ["-Wl,--wrap=malloc", "-Wl,--wrap=realloc"]
FEW = [path for path in ALL if path.endswith(("smallest.iim", "story.iim", "bad_value.iim"))]

# Of each faulty function its result, its parameters and its body, which calls the real one.
FAULTS = {
    "save": (
        "void",
        "iim_unpacker *u, uint8_t *t, size_t n, iim_answer *a",
        "__real_iim_unpacker_save(u, t, n, a); a->ticket += 1;",
    ),
    "feed": (
        "void",
        "iim_unpacker *u, const uint8_t *p, size_t n, uint8_t *t, size_t m, iim_answer *a",
        "__real_iim_unpacker_feed(u, p, n, t, m, a); free(malloc(1));",
    ),
    "end": (
        "void",
        "iim_unpacker *u, iim_answer *a",
        "__real_iim_unpacker_end(u, a); a->cause = 3;",
    ),
    "reset": ("uint8_t", "iim_unpacker *u", "(void)u; return IIM_DONE;"),
    "fields": (
        "int",
        "iim_unpacker *u, uint8_t *t, size_t n, iim_dataset *d, size_t m, iim_answer *a",
        "int s = __real_iim_unpacker_fields(u, t, n, d, m, a); if (m > 1) d[1] = d[0]; return s;",
    ),
    "header": (
        "int",
        "iim_unpacker *u, uint8_t *t, size_t n, iim_message *m, iim_answer *a",
        "int s = __real_iim_unpacker_header(u, t, n, m, a); m->part = 0; return s;",
    ),
    "sizes": (
        "int",
        "iim_unpacker *u, uint8_t *t, size_t n, iim_object *o, iim_answer *a",
        "int s = __real_iim_unpacker_sizes(u, t, n, o, a); o->octets += 1; return s;",
    ),
    "field": (
        "int",
        "iim_unpacker *u, uint8_t r, uint8_t s, size_t n, uint8_t *o, size_t m, iim_answer *a",
        "return __real_iim_unpacker_field(u, r, s, n / 2, o, m, a);",
    ),
    "count": (
        "int",
        "iim_unpacker *u, uint8_t r, uint8_t s, iim_answer *a",
        "int c = __real_iim_unpacker_count(u, r, s, a); a->written |= 1; return c;",
    ),
}


def test_unpacker_agrees_with_tickets(
    compiled: Callable[..., Path], compiler: str, count_cases: Callable[[int], None]
) -> None:
    words = [str(BUILT / "libiim.a"), *COUNTING]
    program = compiled(compiler, "unpacker", "unpacker.c", words)
    status, output, errors = run_text([program, *ALL])
    counts = re.fullmatch(r"(\d+) passed, 0 failed\n", output)
    assert counts and (status, errors) == (0, ""), output[-2000:] + errors
    count_cases(int(counts[1]))


def test_unpacker_is_clean_under_the_sanitizers(
    compiled: Callable[..., Path], sanitizing_compiler: str
) -> None:
    words = [*SANITIZERS, str(BUILT / "libiim.a"), *COUNTING]
    program = compiled(sanitizing_compiler, "unpacker_sanitized", "unpacker.c", words)
    assert run_text([program, *ALL])[::2] == (0, "")


def test_unpacker_leaks_nothing(compiled: Callable[..., Path], compiler: str) -> None:
    if shutil.which("valgrind") is None:
        pytest.skip("valgrind is not installed")
    words = [str(BUILT / "libiim.a"), *COUNTING]
    program = compiled(compiler, "unpacker", "unpacker.c", words)
    check: List[Name] = ["valgrind", "-q", "--leak-check=full", "--error-exitcode=9"]
    status, _, errors = run_text([*check, program, *FEW])
    assert (status, errors) == (0, "")


@pytest.mark.parametrize("name", FAULTS)
def test_finds_a_planted_fault_of_the_unpacker(
    compiler: str, library: Path, tmp_path: Path, name: str
) -> None:
    result, parameters, body = FAULTS[name]
    function = f"iim_unpacker_{name}({parameters})"
    source = tmp_path / "fault.c"
    source.write_text(
        f'#include "iim.h"\n#include <stdlib.h>\n{result} __real_{function};\n'
        f"{result} __wrap_{function};\n{result} __wrap_{function} {{ {body} }}\n"
    )
    wrapped = f"-Wl,--wrap=iim_unpacker_{name}"
    words: List[Name] = [source, HERE / "unpacker.c", BUILT / "libiim.a", *COUNTING, wrapped]
    faulty = tmp_path / "faulty"
    assert run_text([compiler, *STRICT, "-O0", f"-I{HERE}", "-o", faulty, *words]) == (0, "", "")
    status, output, _ = run_text([faulty, *FEW])
    assert status == 1 and re.search(r"^\d+ passed, [1-9]\d* failed$", output, re.M)
