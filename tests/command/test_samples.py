"""The samples, and the lines that samples/README.md shows of them."""
from __future__ import annotations

import re

from support.running import TOP, Command

SAMPLES = TOP / "samples"


def rows_of_samples() -> dict[str, list[str]]:
    """Return the files that samples/README.md lists, each with the lines that `check` prints."""
    page = (SAMPLES / "README.md").read_text()
    rows = re.findall(r"^\| `(\S+\.iim)` \| [^|]+ \| (.+) \|$", page, re.M)
    return {name: re.findall(r"`([^`]+)`", lines) for name, lines in rows}


def test_checks_the_samples(run: Command) -> None:
    rows = rows_of_samples()
    assert sorted(rows) == sorted(str(it.relative_to(SAMPLES)) for it in SAMPLES.rglob("*.iim"))
    for name, lines in rows.items():
        status = 1 if " refused " in lines[-1] else 0
        want = status, "".join(f"{line}\n" for line in lines).encode(), b""
        assert run(["check", SAMPLES / name]) == want, name
