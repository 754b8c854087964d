"""Write the page of the C API in reStructuredText, from what doxygen reads in iim.h."""
from __future__ import annotations

import re
import subprocess
import tempfile
from pathlib import Path
from typing import Dict, Iterator, List, Tuple
from xml.etree import ElementTree

# An undocumented or misnamed parameter, member or function is an error.
SETTINGS = """\
INPUT = "{header}"
OUTPUT_DIRECTORY = "{folder}"
GENERATE_HTML = NO
GENERATE_LATEX = NO
GENERATE_XML = YES
XML_PROGRAMLISTING = NO
QUIET = YES
WARN_AS_ERROR = YES
OPTIMIZE_OUTPUT_FOR_C = YES
JAVADOC_AUTOBRIEF = YES
"""
# The comment that begins a section of the header, and one on all functions below it.
SECTION = re.compile(r"^/\* ---- (.*?) *\*/$|^/\*\n((?: \*.*\n)+?) \*/$", re.M)
SKIPPED = {"parameterlist", "simplesect"}


def read(header: Path) -> Dict[str, ElementTree.Element]:
    """Return what doxygen writes about the header: the header, and each struct by its name."""
    with tempfile.TemporaryDirectory() as folder:
        settings = Path(folder) / "Doxyfile"
        settings.write_text(SETTINGS.format(header=header, folder=folder), encoding="utf-8")
        subprocess.run(["doxygen", str(settings)], check=True)
        found = (Path(folder) / "xml").glob("*.xml")
        roots = [ElementTree.parse(path).getroot().find("compounddef") for path in found]
    return {str(root.findtext("compoundname")): root for root in roots if root is not None}


def inline(element: ElementTree.Element) -> str:
    """Return the text of an element as reStructuredText, without lists and sections in it."""
    said = escaped(element.text)
    for child in element:
        if child.tag == "computeroutput":
            said += f"``{''.join(child.itertext())}``"
        elif child.tag == "ref" and child.text and child.text.endswith("()"):
            said += f":c:func:`{child.text[:-2]}`"
        elif child.tag not in ("itemizedlist", *SKIPPED):
            said += inline(child)
        said += escaped(child.tail)
    return " ".join(said.split())


def escaped(text: "str | None") -> str:
    """Return text with what reStructuredText would interpret escaped, and constants as links."""
    plain = re.sub(r"([*`|\\]|_(?=\W|$))", r"\\\1", text or "")
    return re.sub(r"\bIIM_[A-Z_]+\b", r":c:macro:`\g<0>`", plain)


def blocks(description: ElementTree.Element) -> Iterator[str]:
    """Yield the paragraphs and lists of a description, in order."""
    for para in description.iter("para"):
        if para in nested(description):
            continue
        yield from paragraph(para)


def nested(description: ElementTree.Element) -> List[ElementTree.Element]:
    """Return the paragraphs inside of lists and parameters."""
    inner = [each for tag in ("itemizedlist", *SKIPPED) for each in description.iter(tag)]
    return [para for each in inner for para in each.iter("para")]


def paragraph(para: ElementTree.Element) -> Iterator[str]:
    """Yield a paragraph, and the lists in it."""
    parts: List[str] = [escaped(para.text)]
    for child in para:
        if child.tag == "itemizedlist":
            yield " ".join("".join(parts).split())
            yield "\n".join(f"- {inline_items(item)}" for item in child.iter("listitem"))
            parts = []
        elif child.tag not in SKIPPED:
            whole = ElementTree.Element("para")
            whole.append(child)
            tail, child.tail = child.tail, None
            parts.append(" " + inline(whole) if parts[-1].endswith((" ", "\n")) else inline(whole))
            child.tail = tail
            parts.append(escaped(tail))
            continue
        parts.append(escaped(child.tail))
    yield " ".join("".join(parts).split())


def inline_items(item: ElementTree.Element) -> str:
    """Return an item of a list on one line."""
    return " ".join(inline(para) for para in item.iter("para"))


def described(element: ElementTree.Element) -> List[str]:
    """Return the description of an element, as blocks."""
    parts = [element.find(f"{kind}description") for kind in ("brief", "detailed")]
    return [block for part in parts if part is not None for block in blocks(part) if block]


def fields(function: ElementTree.Element) -> List[str]:
    """Return the fields on the parameters and the result of a function."""
    found = []
    for item in function.iter("parameteritem"):
        (said,) = item.iter("parameterdescription")
        found.append(f":param {item.findtext('.//parametername')}: {inline_items(said)}")
    for said in function.iter("simplesect"):
        if said.get("kind") == "return":
            found.append(f":return: {inline_items(said)}")
    return ["\n".join(found)] if found else []


def directive(kind: str, name: str, content: List[str], depth: int = 0) -> str:
    """Return a directive with its content."""
    lines = [f".. c:{kind}:: {name}", ""]
    for block in content:
        lines += [*(f"   {line}" if line else "" for line in block.split("\n")), ""]
    return "\n".join(lines)


def function(member: ElementTree.Element) -> str:
    """Return the directive of a function: what it does, its parameters, and its status."""
    said = described(member)
    code = f"{member.findtext('definition')}{member.findtext('argsstring')}"
    return directive("function", code, said[:1] + fields(member) + said[1:])


def enumeration(member: ElementTree.Element) -> str:
    """Return the directives of an enumeration without a name."""
    values = [
        directive(
            "macro", str(value.findtext("name")), [f"{value_of(value)}{' '.join(described(value))}"]
        )
        for value in member.iter("enumvalue")
    ]
    return "\n\n".join([*described(member), *values])


def value_of(value: ElementTree.Element) -> str:
    """Return the number of an enumerator, as it begins its description."""
    number = str(value.findtext("initializer")).lstrip("= ")
    return f"``{number}``" + (": " if described(value) else "")


def struct(compound: ElementTree.Element) -> str:
    """Return the directive of a struct with its members."""
    members = [
        directive(
            "member",
            f"{each.findtext('definition')}{each.findtext('argsstring')}".replace(
                f"{compound.findtext('compoundname')}::", ""
            ),
            described(each),
        )
        for each in compound.iter("memberdef")
    ]
    return directive(
        "struct", str(compound.findtext("compoundname")), [*described(compound), *members]
    )


def line_of(element: ElementTree.Element) -> int:
    """Return the line of the header that defines an element."""
    location = element.find("location")
    assert location is not None
    return int(str(location.get("line")))


def items(found: Dict[str, ElementTree.Element]) -> Iterator[Tuple[int, str]]:
    """Yield what the header defines, with its line."""
    for name, compound in found.items():
        if compound.get("kind") == "struct":
            yield line_of(compound), struct(compound)
    for member in found["iim.h"].iter("memberdef"):
        if member.get("kind") == "function":
            yield line_of(member), function(member)
        elif member.get("kind") == "enum":
            yield line_of(member), enumeration(member)
        elif member.get("kind") == "define":
            yield line_of(member), directive(
                "macro", str(member.findtext("name")), described(member)
            )


def sections(header: Path) -> Iterator[Tuple[int, str]]:
    """Yield the headings of the header's sections and what they say, with their lines."""
    text = header.read_text(encoding="utf-8")
    for found in SECTION.finditer(text):
        said = " ".join(re.sub(r"^ \*", "", found[2] or "", flags=re.M).split())
        heading = said.replace("`", "``") or f"{found[1]}\n{'-' * len(found[1])}"
        yield text.count("\n", 0, found.start()) + 1, heading


def introduction(file: ElementTree.Element) -> List[str]:
    """Return what the comment at the top of the header says."""
    detailed = file.find("detaileddescription")
    assert detailed is not None
    said = [block for part in detailed if part.tag == "para" for block in paragraph(part) if block]
    for section in detailed.iter("sect2"):
        title = str(section.findtext("title"))
        said += [f"{title}\n{'-' * len(title)}"]
        said += [
            block for part in section if part.tag == "para" for block in paragraph(part) if block
        ]
    return said


def page(header: Path) -> str:
    """Return the page."""
    found = read(header)
    parts = [text for _, text in sorted([*items(found), *sections(header)])]
    return "\n\n".join(["The C API\n=========", *introduction(found["iim.h"]), *parts]) + "\n"
