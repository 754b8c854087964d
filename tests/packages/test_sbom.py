"""What the packages contain, as their SBOMs list it."""
from __future__ import annotations

import json
import time
from typing import Any, Callable, NamedTuple

import pytest

from support import spdx
from support.packages import ARCHITECTURES, RELEASE, Packages, run
from support.running import TOP

Document = dict[str, Any]


class Listed(NamedTuple):
    """Unpacked files with their SBOM."""

    folder: str
    # The name in the SBOM, its path, and the files that it leaves out.
    name: str
    sbom: str
    left_out: list[str]

    def text(self) -> str:
        """Return the SBOM."""
        with open(f"{self.folder}/{self.sbom}") as file:
            return file.read()

    def faults(self, document: Document) -> list[str]:
        """Return all that is wrong with a document in place of the SBOM."""
        return spdx.faults(self.text(), document, self.folder, self.left_out)


def listed(packages: Packages, name: str) -> Listed:
    """Return a package with its SBOM."""
    if name == "archive":
        sbom = "iimwire.spdx.json"
        return Listed(str(packages.of_archive()), "iimwire", sbom, [sbom])
    if name == "wheel":
        about = f"iim-{RELEASE}.dist-info"
        sbom = f"{about}/sboms/iim.spdx.json"
        return Listed(str(packages.of_wheel()), "iim", sbom, [sbom, f"{about}/RECORD"])
    sbom = f"usr/share/doc/{name}/{name}.spdx.json"
    return Listed(str(packages.unpacked(name)), name, sbom, [sbom])


# The crates of the toolchain that crates.txt names for what is linked, and one that they use.
LINKED = {"arrayvec", "byteorder", "clap", "itoa", "jiff", "memchr", "thiserror", "strsim"}


@pytest.mark.parametrize("name", [*ARCHITECTURES, "archive", "wheel"])
def test_lists_what_each_package_contains(packages: Packages, name: str) -> None:
    commit, seconds = run(["git", "-C", TOP, "log", "-1", "--format=%H %ct"]).split()
    created = time.strftime("%Y-%m-%dT%H:%M:%SZ", time.gmtime(int(seconds)))
    package = listed(packages, name)
    document = json.loads(package.text())
    assert package.faults(document) == []
    assert document["name"] == f"{package.name}-{RELEASE}"
    assert document["creationInfo"]["created"] == created
    named = {each["name"]: each for each in document["packages"]}
    assert named[package.name]["versionInfo"] == RELEASE
    assert named["iimwire-source"]["versionInfo"] == commit
    # No licence is known of anything.
    elements = document["packages"] + document["files"]
    assert {each["licenseConcluded"] for each in elements} == {"NOASSERTION"}


# The packages without code of the toolchain.
SCRIPTS = "python3-iim", "iim-doc"


@pytest.mark.parametrize("name", [*ARCHITECTURES, "archive", "wheel"])
def test_lists_the_crates_that_are_linked(packages: Packages, name: str) -> None:
    found = json.loads(listed(packages, name).text())["packages"]
    crates = {it["name"] for it in found if it["SPDXID"].startswith("SPDXRef-Crate-")}
    if name in SCRIPTS:
        assert crates == set()
        return
    assert LINKED <= crates
    (toolchain,) = [it["versionInfo"] for it in found if it["name"] == "rattle-toolchain"]
    assert toolchain == run(["rt", "version"]).strip()
    notices = packages.document("iimwire", "copyright")
    assert [crate for crate in sorted(crates) if f"\n---- {crate}\n" not in notices] == []


@pytest.fixture()
def found(packages: Packages) -> Callable[[Callable[[Document], object]], list[str]]:
    """Return a function that changes an SBOM, and returns the faults that are found."""
    package = listed(packages, "iimwire")

    def faults(change: Callable[[Document], object]) -> list[str]:
        document = json.loads(package.text())
        change(document)
        return package.faults(document)

    return faults


Found = Callable[[Callable[[Document], object]], list[str]]


def test_finds_faults_of_listed_files(found: Found, packages: Packages) -> None:
    assert found(lambda it: None) == []
    package = listed(packages, "iimwire")
    first = json.loads(package.text())["files"][0]["fileName"]
    sums = found(lambda it: it["files"][0]["checksums"][1].update(checksumValue="0" * 64))
    assert sums == [f"{first} has other sums"]
    assert f"{first} is not listed" in found(lambda it: it["files"].pop(0))
    gone = found(lambda it: it["files"][0].update(fileName="./gone"))
    assert "./gone is listed, and not there" in gone
    assert found(lambda it: it["relationships"].pop(0)) == ["nothing is described"]
    text, document = package.text() + "/home/user/x", json.loads(package.text())
    faults = spdx.faults(text, document, package.folder, package.left_out)
    assert faults == ["'/home/': a path of a machine"]


ELEMENTS = [("packages", spdx.PACKAGE), ("files", spdx.FILE), ("relationships", spdx.RELATIONSHIP)]


def test_finds_missing_members(found: Found) -> None:
    for member in spdx.DOCUMENT:
        assert f"document: {member} is None" in found(lambda it: it.pop(member)), member
    for member in "creators", "created":
        assert found(lambda it: it["creationInfo"].pop(member)), member
    for kind, members in ELEMENTS:
        for member in members:
            assert found(lambda it: it[kind][0].pop(member)), (kind, member)
