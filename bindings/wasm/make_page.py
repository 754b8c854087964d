#!/usr/bin/env python3
"""Make the web page, one file, of the package for JavaScript and of page/.

  make_page.py PACKAGE OUT
"""
from __future__ import annotations

import base64
import hashlib
import re
import subprocess
import sys
from pathlib import Path
from typing import Dict, List

HERE = Path(__file__).resolve().parent
TOP = HERE.parents[1]
STYLE = TOP / "bindings" / "python" / "src" / "iim" / "explain" / "page.css"
# The modules of the worker, each after those that it imports.
MODULES = ["layout", "errors", "core", "receiver"]
MODULES += [f"explain/{name}" for name in ("tables", "charsets", "words", "walk", "tries")]
MODULES += [f"explain/{name}" for name in ("sections", "reasons", "case")]
IMPORT = re.compile(r'^import \{ (.*) \} from "([^"]*)";\n', re.M)
EXPORT = re.compile(r"^export (const|function\*?|class) (\[[^\]]*\]|\w+)", re.M)


def name_of(module: str) -> str:
    """Return the name by which modules are called in the script: that of the file."""
    return Path(module).stem


def bound(text: str) -> str:
    """Return a module as an expression that makes an object of its exports."""
    names: List[str] = []
    for _, found in EXPORT.findall(text):
        names += re.findall(r"\w+", found)
    code = IMPORT.sub(lambda each: f"const {{ {each[1]} }} = modules.{name_of(each[2])};\n", text)
    code = re.sub(r"^export ", "", code, flags=re.M)
    if re.search(r"^(import|export)\b", code, re.M):
        raise ValueError("a line that imports or exports is in another form")
    return f"(() => {{\n{code}return {{ {', '.join(names)} }};\n}})()"


def worker(package: Path) -> str:
    """Return the script of the worker, with all modules that it imports."""
    parts = ['"use strict";\nconst modules = {};\n']
    for name in MODULES:
        text = (package / f"{name}.mjs").read_text(encoding="utf-8")
        parts.append(f"modules.{name_of(name)} = {bound(text)};\n")
    parts.append(bound((HERE / "page" / "worker.mjs").read_text(encoding="utf-8")) + ";\n")
    return "".join(parts)


def sha256(text: str) -> str:
    """Return the source expression of an inline script or style in a policy."""
    return f"'sha256-{base64.b64encode(hashlib.sha256(text.encode()).digest()).decode()}'"


def policy(style: str, script: str) -> str:
    """Return the policy, which allows no connection."""
    return (
        f"default-src 'none'; script-src {sha256(script)} 'wasm-unsafe-eval'; worker-src blob:;"
        f" style-src {sha256(style)}; base-uri 'none'; form-action 'none'"
    )


def commit() -> str:
    """Return the commit of the sources, or `unknown` outside of a clone."""
    words = ["git", "-C", str(TOP), "rev-parse", "HEAD"]
    ran = subprocess.run(words, capture_output=True, text=True)
    return ran.stdout.strip() or "unknown"


def page(package: Path, release: str) -> str:
    """Return the text of the page."""
    of = {path.name: path.read_text(encoding="utf-8") for path in (HERE / "page").iterdir()}
    wasm = (package / "iim.wasm").read_bytes()
    script = f'"use strict";\n{of["page.mjs"]}'
    style = STYLE.read_text(encoding="utf-8") + of["page.css"]
    parts: Dict[str, str] = {
        "POLICY": policy(style, script),
        "STYLE": style,
        "RELEASE": release,
        "COMMIT": commit(),
        "SUM": hashlib.sha256(wasm).hexdigest(),
        "WASM": base64.b64encode(wasm).decode(),
        "WORKER": worker(package),
        "SCRIPT": script,
    }
    if any("</script" in parts[name] for name in ("WORKER", "SCRIPT")):
        raise ValueError("a script contains the end of its element")
    return re.sub(r"@([A-Z]+)@", lambda each: parts.get(each[1], each[0]), of["page.html"])


def main(arguments: List[str]) -> int:
    """Write the page, and return the status."""
    package, to = map(Path, arguments)
    release = re.findall(
        r'"version": "(\d+)\.', (package / "package.json").read_text(encoding="utf-8")
    )
    to.write_text(page(package, release[0]), encoding="utf-8")
    return 0


if __name__ == "__main__":
    sys.exit(main(sys.argv[1:]))
