"""What the packages contain: their files, dependencies, pages and provenance."""
from __future__ import annotations

import gzip
import os
import re
import subprocess
from pathlib import Path

import pytest

from support.packages import ARCHITECTURES, ARCHIVE, RELEASE, SECONDS, WHEEL, Packages
from support.packages import files_in, files_of_packages, run, text_of
from support.running import TOP

OWN = "PROVENANCE", "changelog.gz", "copyright"


@pytest.mark.parametrize("name", ARCHITECTURES)
def test_has_each_file_and_no_other(packages: Packages, name: str) -> None:
    own = [f"usr/share/doc/{name}/{each}" for each in (*OWN, f"{name}.spdx.json")]
    assert files_in(packages.unpacked(name)) == sorted([*files_of_packages()[name], *own])


@pytest.mark.parametrize("name", ARCHITECTURES)
def test_has_the_files_of_the_repository(packages: Packages, name: str) -> None:
    for path, source in files_of_packages()[name].items():
        if source is not None:
            octets = (packages.unpacked(name) / path).read_bytes()
            octets = gzip.decompress(octets) if path.endswith(".gz") else octets
            # (the Python of Debian runs what Debian has packaged)
            octets = re.sub(b"^#! ?/usr/bin/python3\n", b"#!/usr/bin/env python3\n", octets)
            is_same = octets == (TOP / source).read_bytes()
            assert is_same, path


def test_has_the_proved_command(packages: Packages, tmp_path: Path) -> None:
    built, stripped = TOP / "crates/iimwire/out/iimwire", tmp_path / "stripped"
    run(["strip", "--remove-section=.comment", "-o", stripped, built])
    is_same = packages.command.read_bytes() == stripped.read_bytes()
    assert is_same


def links_of(text: str) -> list[str]:
    """Return the files that the links of a page lead to."""
    return [link for link in re.findall(r"\[[^]]*\]\(([^)#]*)", text) if link]


def without_links(text: str) -> str:
    """Return a page with the text of each link in its place."""
    return re.sub(r"\[([^]]*)\]\([^)]*\)", r"\1", text)


@pytest.mark.parametrize("name", ARCHITECTURES)
def test_has_pages_whose_links_lead_to_its_files(packages: Packages, name: str) -> None:
    docs = f"usr/share/doc/{name}"
    folder = packages.unpacked(name) / docs
    for path in (it for it in files_of_packages()[name] if it.endswith(".md")):
        page = os.path.relpath(path, docs)
        packed, source = (folder / page).read_text(), text_of(page)
        there = [it for it in links_of(source) if (folder / page).parent.joinpath(it).exists()]
        assert links_of(packed) == there, page
        assert without_links(packed) == without_links(source), page


DEPENDS = {
    "iimwire": r"libc6 \(>= 2[.\d]+\)",
    "libiim1": r"libc6 \(>= 2[.\d]+\)",
    "libiim-dev": rf"libiim1 \(= {RELEASE}\)",
    "python3-iim": (
        r"python3 \(>= [.\d]+~\), python3:any \(>= 3\.8~\), libc6 \(>= 2[.\d]+\), "
        rf"libiim1 \(>= {RELEASE}\)"
    ),
    "iim-doc": "",
}


@pytest.mark.parametrize("name", DEPENDS)
def test_needs_what_it_uses_and_no_more(packages: Packages, name: str) -> None:
    depends = run(["dpkg-deb", "-f", packages.path(name), "Depends"]).strip()
    assert re.fullmatch(DEPENDS[name], depends)
    assert run(["dpkg-deb", "-f", packages.path(name), "Version"]).strip() == RELEASE


def test_has_no_error_of_lintian(packages: Packages) -> None:
    files = [str(packages.path(name)) for name in ARCHITECTURES]
    words = ["lintian", "--allow-root", "--fail-on", "error", *files]
    ran = subprocess.run(words, capture_output=True, text=True, timeout=SECONDS)
    errors = [line for line in ran.stdout.splitlines() if line.startswith("E:")]
    assert (ran.returncode, errors) == (0, [])


def test_names_commit_toolchain_and_proofs(packages: Packages) -> None:
    commit = run(["git", "-C", TOP, "rev-parse", "HEAD"]).strip()
    changed = run(["git", "-C", TOP, "status", "--porcelain"])
    lines = (packages.out / "PROVENANCE").read_text().splitlines()
    more = ", with changes that are not committed" if changed else ""
    assert lines[0] == f"commit: {commit}{more}"
    assert lines[1] == f"toolchain: {run(['rt', 'version']).strip()}"
    proved, *crates = lines[2].split()
    assert proved == "proved:"
    assert {"iimwire", "iim_exports", "iim_dataset"} <= set(crates)
    assert "vectors" not in crates
    assert [crate for crate in crates if not (TOP / f"crates/{crate}/out").is_dir()] == []
    for name in ARCHITECTURES:
        assert packages.document(name, "PROVENANCE") == "\n".join(lines[:3]) + "\n"


def test_lists_the_sums_of_what_was_made(packages: Packages) -> None:
    lines = (packages.out / "PROVENANCE").read_text().splitlines()
    made = [line.partition(": ")[2] for line in lines if line.startswith("made: ")]
    assert made == (packages.out / "SHA256SUMS").read_text().splitlines()
    assert len(made) == 9
    words = "--check", "--strict", "--quiet", "SHA256SUMS"
    run(["sha256sum", *words], cwd=packages.out)


def test_documents_name_the_release(packages: Packages) -> None:
    page = text_of("README.md")
    assert re.findall(r"^This is release (\d+)", page, re.M) == [RELEASE]
    named = re.findall(r"`([\w.-]+\.(?:deb|whl|gz|tgz|html))`", page)
    debs = [packages.path(name).name for name in ARCHITECTURES]
    assert sorted(named) == sorted([ARCHIVE, WHEEL, *debs, f"iim-{RELEASE}.tgz", "iim.html"])
    there = {path.name for path in packages.out.iterdir()}
    assert sorted(there - {"PROVENANCE", "SHA256SUMS"}) == sorted(named)


def test_states_that_no_licence_is_named(packages: Packages) -> None:
    words = "The owner of this work has named no licence for it"
    for name in ARCHITECTURES:
        assert words in packages.document(name, "copyright")
    assert "named no licence" in text_of("README.md")
