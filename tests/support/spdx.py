"""Checks an SBOM against SPDX 2.3 and against the files that it lists."""
from __future__ import annotations

import hashlib
import os
import re
from typing import Any, Iterator

IDENTIFIER = re.compile(r"SPDXRef-[A-Za-z0-9.-]+")
# The members that each kind of element must have, each with the form of its value where it is text.
DOCUMENT = {
    "spdxVersion": r"SPDX-2\.3",
    "dataLicense": r"CC0-1\.0",
    "SPDXID": "SPDXRef-DOCUMENT",
    "name": r"\S.*",
    "documentNamespace": r"[a-z][a-z0-9+.-]*:[^\s#]+",
}
PACKAGE = {
    "SPDXID": IDENTIFIER.pattern,
    "name": r"\S.*",
    "downloadLocation": r"NOASSERTION|NONE|[a-z+]+://\S+",
}
FILE = {"SPDXID": IDENTIFIER.pattern, "fileName": r"\./.+"}
RELATIONSHIP = {
    "spdxElementId": IDENTIFIER.pattern,
    "relationshipType": r"[A-Z_]+",
    "relatedSpdxElement": IDENTIFIER.pattern,
}
CREATION = {"created": r"\d{4}-\d\d-\d\dT\d\d:\d\d:\d\dZ"}
CREATOR = re.compile(r"(Person|Organization): .+|Tool: .+-[^-]+")
# The types of relationships that are used here, of those that the specification lists.
TYPES = {"DESCRIBES", "CONTAINS", "GENERATED_FROM", "STATIC_LINK", "BUILD_TOOL_OF"}
LENGTHS = {"SHA1": 40, "SHA256": 64}
# Where a path of the machine would begin.
OF_A_MACHINE = re.compile(r"/(?:tmp|home|root|work|opt|build|var)/")


def lacking(element: dict[str, Any], members: dict[str, str], where: str) -> Iterator[str]:
    """Yield each required member that an element lacks, or whose value has another form."""
    for name, form in members.items():
        value = element.get(name)
        if not isinstance(value, str) or not re.fullmatch(form, value):
            yield f"{where}: {name} is {value!r}"


def faults_of_members(document: dict[str, Any]) -> Iterator[str]:
    """Yield what a document lacks of the members that are required."""
    yield from lacking(document, DOCUMENT, "document")
    creation = document.get("creationInfo", {})
    yield from lacking(creation, CREATION, "creationInfo")
    creators = creation.get("creators") or [""]
    yield from (f"creator {each!r}" for each in creators if not CREATOR.fullmatch(each))
    for kind, members in ("packages", PACKAGE), ("files", FILE), ("relationships", RELATIONSHIP):
        for element in document.get(kind, []):
            yield from lacking(element, members, kind)
    for each in document.get("packages", []):
        if each.get("filesAnalyzed", True) and "packageVerificationCodeValue" not in each.get(
            "packageVerificationCode", {}
        ):
            yield f"packages: {each.get('name')} has no verification code"


def faults_of_relations(document: dict[str, Any]) -> Iterator[str]:
    """Yield identifiers that are not unique or not defined, and files that no package contains."""
    defined = [
        document.get("SPDXID"),
        *(each.get("SPDXID") for kind in ("packages", "files") for each in document.get(kind, [])),
    ]
    yield from (
        f"{each} is defined twice"
        for each in sorted({str(each) for each in defined if defined.count(each) > 1})
    )
    relations = [
        (each.get("spdxElementId"), each.get("relationshipType"), each.get("relatedSpdxElement"))
        for each in document.get("relationships", [])
    ]
    for of, kind, to in relations:
        if kind not in TYPES:
            yield f"{kind} is no type of relationship"
        yield from (f"{each} is not defined" for each in (of, to) if each not in defined)
    if not any(of == "SPDXRef-DOCUMENT" and kind == "DESCRIBES" for of, kind, _ in relations):
        yield "nothing is described"
    contained = {to for _, kind, to in relations if kind == "CONTAINS"}
    yield from (
        f"{each['fileName']} is in no package"
        for each in document.get("files", [])
        if each.get("SPDXID") not in contained
    )


def sums_of(path: str) -> dict[str, str]:
    """Return the checksums of a file."""
    with open(path, "rb") as file:
        content = file.read()
    return {
        "SHA1": hashlib.sha1(content).hexdigest(),
        "SHA256": hashlib.sha256(content).hexdigest(),
    }


def faults_of_files(document: dict[str, Any], folder: str, left_out: list[str]) -> Iterator[str]:
    """Yield the files that are not listed, those that are not there, and wrong sums."""
    listed = {
        each.get("fileName"): {
            s["algorithm"]: s["checksumValue"] for s in each.get("checksums", [])
        }
        for each in document.get("files", [])
    }
    paths = [os.path.join(at, name) for at, _, names in os.walk(folder) for name in names]
    there = {
        f"./{os.path.relpath(path, folder)}": path for path in paths if not os.path.islink(path)
    }
    yield from (
        f"{name} is not listed"
        for name in sorted(there.keys() - listed.keys() - {f"./{each}" for each in left_out})
    )
    yield from (f"{name} is listed, and not there" for name in sorted(listed.keys() - there.keys()))
    yield from (
        f"{name} has other sums"
        for name in sorted(listed.keys() & there.keys())
        if listed[name] != sums_of(there[name])
    )
    code = hashlib.sha1(
        "".join(sorted(sums.get("SHA1", "") for sums in listed.values())).encode()
    ).hexdigest()
    codes = [
        each.get("packageVerificationCode", {})
        for each in document.get("packages", [])
        if each.get("filesAnalyzed", True)
    ]
    if [each.get("packageVerificationCodeValue") for each in codes] != [code]:
        yield "the verification code is another"
    if [sorted(each.get("packageVerificationCodeExcludedFiles", [])) for each in codes] != [
        sorted(f"./{each}" for each in left_out)
    ]:
        yield "the excluded files are others"


def faults(text: str, document: dict[str, Any], folder: str, left_out: list[str]) -> list[str]:
    """Return all that is wrong with the SBOM of a folder, which leaves out these files."""
    found = [f"{path!r}: a path of a machine" for path in OF_A_MACHINE.findall(text)]
    return [
        *found,
        *faults_of_members(document),
        *faults_of_relations(document),
        *faults_of_files(document, folder, left_out),
    ]
