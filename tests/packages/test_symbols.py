"""The built files of the packages: their symbols, and how they are hardened."""
from __future__ import annotations

import re
from pathlib import Path

import pytest

from support.packages import HERE, TRIPLE, WHEEL_TAG, Packages
from support.packages import by_number, functions_of_the_header, newest_symbol, run, text_of
from support.running import TOP


def symbols(kind: str, path: Path) -> list[str]:
    """Return the names that a library defines for others."""
    lines = [line.split() for line in run(["nm", "--defined-only", kind, path]).splitlines()]
    return sorted(words[-1].split("@")[0] for words in lines if len(words) == 3)


def test_exports_only_functions_of_the_header(packages: Packages) -> None:
    functions = functions_of_the_header()
    assert symbols("-D", packages.shared_library) == functions
    assert symbols("-g", packages.static_library) == functions
    listed = (HERE / "debian/libiim1.symbols").read_text()
    assert re.findall(r"^ (\w+)@Base \d+$", listed, re.M) == functions


def test_links_beside_another_library(packages: Packages, tmp_path: Path) -> None:
    # (each library of the toolchain has the few functions of this archive)
    kit = Path(run(["rt", "doc"]).strip()).parent
    source, program = TOP / "bindings/c/headline.c", tmp_path / "both"
    other = ["-Wl,--whole-archive", f"{kit}/c/liblibc_c.a", "-Wl,--no-whole-archive"]
    include = f"-I{TOP}/bindings/c"
    run(["cc", "-o", program, include, source, packages.static_library, *other])
    assert run([program, TOP / "samples/story.iim"]) == "Rates held\n"


@pytest.fixture(params=["command", "library"])
def built_file(request: pytest.FixtureRequest, packages: Packages) -> Path:
    """Return the packaged command, or the packaged library."""
    return packages.command if request.param == "command" else packages.shared_library


def test_is_hardened_and_stripped(built_file: Path) -> None:
    text = run(["readelf", "-WdlS", built_file])
    # Position independent, bound at the start, read-only after that, with no executable stack.
    assert re.search(r"^Elf file type is DYN", text, re.M)
    assert "BIND_NOW" in text and "GNU_RELRO" in text
    assert re.findall(r"GNU_STACK .* (RWE|RW) ", text) == ["RW"]
    assert re.findall(r"\.(symtab|debug\w*|comment)\b", text) == []
    assert re.findall(r"\((?:RPATH|RUNPATH)\)", text) == []
    assert re.findall(r"NEEDED.*\[(.*)\]", text) == ["libc.so.6"]


def test_library_has_its_soname(packages: Packages) -> None:
    text = run(["readelf", "-Wd", packages.shared_library])
    assert re.findall(r"SONAME.*\[(.*)\]", text) == ["libiim.so.1"]
    link = packages.unpacked("libiim-dev") / f"usr/lib/{TRIPLE}/libiim.so"
    assert str(link.readlink()) == "libiim.so.1"


def has_cet(path: Path, archive: Path) -> bool:
    """Check whether a file has the note of CET, or its functions begin with the instruction."""
    if re.search("x86 feature:.*(IBT|SHSTK)", run(["readelf", "-Wn", path])):
        return True
    code = run(["objdump", "-d", "--no-show-raw-insn", archive])
    first = re.findall(r"^[0-9a-f]+ <iim_\w+>:\n +[0-9a-f]+:\t(\w+)", code, re.M)
    assert len(first) == len(functions_of_the_header())
    return "endbr64" in first


YES = {True: "yes", False: "no"}


def hardening_of(path: Path, archive: Path) -> dict[str, str]:
    """Return what a file has of each property that SECURITY.md lists, in its words."""
    headers, names = run(["readelf", "-Wdlh", path]), run(["objdump", "-T", path])
    is_library = path.name.endswith(".so.1")
    is_independent = re.search(r"Type: +DYN", headers) and (
        is_library or re.search(r"FLAGS_1\).*PIE", headers)
    )
    needed = re.findall(r"NEEDED.*\[(.*)\]", headers)
    is_fortified = re.search(r"__\w+_chk\b", names.replace("__stack_chk_fail", ""))
    writable = re.search(r"LOAD .* (RWE|WE) ", headers)
    paths = re.search(r"\((?:RPATH|RUNPATH)\)", headers)
    return {
        "position independent (PIE, or a shared library)": YES[bool(is_independent)],
        "full RELRO, `BIND_NOW`": YES["GNU_RELRO" in headers and "BIND_NOW" in headers],
        "stack not executable (NX)": YES[re.findall("GNU_STACK .* (RWE?) ", headers) == ["RW"]],
        "writable and executable segments": "some" if writable else "none",
        "`RPATH`, `RUNPATH`": "some" if paths else "none",
        "loads": "the C library alone" if needed == ["libc.so.6"] else "others",
        "CET (IBT, shadow stack)": YES[has_cet(path, archive)],
        "stack protector": YES["__stack_chk_fail" in names],
        "`_FORTIFY_SOURCE`": YES[bool(is_fortified)],
    }


def test_documents_state_the_hardening(packages: Packages) -> None:
    archive = packages.static_library
    command = hardening_of(packages.command, archive)
    library = hardening_of(packages.shared_library, archive)
    lines = [line for line in text_of("SECURITY.md").splitlines() if line.startswith("| ")]
    rows = [[cell.strip() for cell in line.strip("|").split("|")] for line in lines]
    first = rows.index(["Property", "`iimwire`", "`libiim.so.1`"]) + 1
    stated = [row for row in rows[first:] if len(row) == 3]
    assert stated == [[name, command[name], library[name]] for name in command]
    # These must be so, whatever is stated.
    for name in [*command][:3]:
        assert (command[name], library[name]) == ("yes", "yes"), name


def test_documents_name_the_oldest_system(packages: Packages) -> None:
    assert newest_symbol(packages.command) == "2.34"
    assert newest_symbol(packages.shared_library) == "2.14"
    page = " ".join(text_of("README.md").split())
    for words in "the command needs glibc 2.34", "the library needs glibc 2.14":
        assert words in page
        assert words in (HERE / "README").read_text().lower()


# The versions of glibc that have a manylinux tag, oldest first.
TAGS = "2.5", "2.12", "2.17", "2.28", "2.34", "2.39"


def test_tags_the_wheel_by_its_symbols(packages: Packages) -> None:
    files = "iim/libiim.so", "iim/_iim.abi3.so"
    needed = max((newest_symbol(packages.of_wheel() / it) for it in files), key=by_number)
    oldest = next(tag for tag in TAGS if by_number(tag) >= by_number(needed))
    assert f"manylinux_{oldest.replace('.', '_')}_x86_64" == WHEEL_TAG
