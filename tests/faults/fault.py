"""A fault that is planted in code that is not proved, and the test that has to find it."""
from __future__ import annotations

from pathlib import Path
from typing import NamedTuple

TOP = Path(__file__).resolve().parents[2]
# Where the code and its tests are.
PACKAGE = "bindings/python/src/iim"
PYTHON_TESTS = "bindings/python/tests"
C = "bindings/c"
PACKAGES = "packages"


class Fault(NamedTuple):
    """An edit of a file.

    Attributes:
        file: The file, below the repository.
        old: A text that occurs in it once.
        new: What replaces it.
        test: The test that fails then: its file below the repository, `::`, and its name.
    """

    file: str
    old: str
    new: str
    test: str

    def is_applicable(self) -> bool:
        """Return whether the edit applies: its text occurs once, and it changes something."""
        text = (TOP / self.file).read_text(encoding="utf-8")
        return text.count(self.old) == 1 and self.old != self.new

    def apply(self, top: Path) -> None:
        """Plant the fault in a copy of the repository."""
        path = top / self.file
        text = path.read_text(encoding="utf-8")
        if text.count(self.old) != 1:
            raise ValueError(f"{self.file} has {text.count(self.old)} times: {self.old}")
        # (the file of the copy may share its contents with the original)
        mode = path.stat().st_mode
        path.unlink()
        path.write_text(text.replace(self.old, self.new), encoding="utf-8")
        path.chmod(mode)
