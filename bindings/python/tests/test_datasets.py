"""The generated properties of an envelope's datasets, and the names of release 2."""
from __future__ import annotations

import subprocess
import sys
import warnings
from pathlib import Path
from typing import Callable, List, Tuple

import iim
import pytest
import rules
from iim import _library, datasets, program

pytestmark = pytest.mark.usefixtures("way")

# The names that `import iim` had in release 2: those that it listed, and those of the command.
LISTED = """
AuditRow Auditor Envelope Fed Field Header Id Limits Octets PartId Place Receiver Refused Rule
ScriptRefused Sizes TicketRefused Truncated WIRE admits audit audit_blocks cause_name cause_text
check dataset_name layer_name pack read row script
""".split()
UNLISTED = "AnyFile AnyOctets BLOCK GREATEST GREATEST_LIMIT LAST_SECOND RawRow".split()
OF_PROGRAM = """
CannotWrite FAILED Failed STOPPED Terminated complain main naming print_line print_text program_name
""".split()

# The properties and methods of release 2, each with what replaces it.
OLD_OF_ENVELOPES = ("fields", "datasets"), ("lines", "story_lines"), ("as_json", "to_dict")
OLD_OF_RECEIVERS = (
    ("ticket", "current_ticket"),
    ("place", "current_position"),
    ("next", "next_bytes"),
)


def value_of(thing: object, name: str) -> object:
    """Return an attribute, or what a method without arguments returns."""
    value = getattr(thing, name)
    return value() if callable(value) else value


def test_generated_module_is_up_to_date(top: Path) -> None:
    generator = top / "bindings" / "python" / "write_datasets.py"
    assert subprocess.run([sys.executable, str(generator), "--check"]).returncode == 0


def test_each_named_dataset_has_a_property(
    library: Path, count_cases: Callable[[int], None]
) -> None:
    rows = [(record, number) for record in (1, 2) for number in range(256)]
    titles = {each: iim.dataset_name(*each) for each in rows}
    assert datasets.TITLES == {each: title for each, title in titles.items() if title is not None}
    found: List[Tuple[int, int]] = []
    for name, (record, number, repeats) in datasets.ATTRIBUTES.items():
        rule, made = rules.ROWS[record, number], getattr(datasets.NamedDatasets, name).fget
        kind = (
            "List[Octets]"
            if rule.repeats
            else "Octets"
            if rule.is_mandatory
            else "Optional[Octets]"
        )
        assert (name, made.__annotations__["return"], repeats) == (name, kind, rule.repeats)
        found.append((record, number))
    assert sorted(found) == sorted(datasets.TITLES)
    count_cases(len(rows))


def test_properties_have_the_values_by_number(library: Path, top: Path) -> None:
    (envelope,) = iim.read(top / "samples" / "story.iim")
    for name, (record, number, repeats) in datasets.ATTRIBUTES.items():
        by_number = envelope.all(record, number) if repeats else envelope.first(record, number)
        assert (name, getattr(envelope, name)) == (name, by_number)
    assert (envelope.headline, envelope.bylines) == (b"Rates held", [b"A. Moor", b"B. Lund"])


def test_has_the_names_of_release_2() -> None:
    assert [name for name in LISTED if name not in iim.__all__] == []
    assert [name for name in UNLISTED if not hasattr(iim, name)] == []
    for name in OF_PROGRAM:
        with pytest.warns(DeprecationWarning, match=f"^iim.{name} is deprecated: use iim.program"):
            assert getattr(iim, name) is getattr(program, name)
    with pytest.raises(AttributeError):
        iim.absent  # type: ignore[attr-defined]


def test_old_errors_are_the_new_ones() -> None:
    assert (iim.Refused, iim.Truncated) == (iim.RefusedError, iim.TruncatedError)
    assert (iim.TicketRefused, iim.ScriptRefused) == (iim.TicketError, iim.ScriptError)
    for kind in iim.RefusedError, iim.TruncatedError, iim.TicketError, iim.ScriptError:
        assert issubclass(kind, iim.IimError)
    assert issubclass(iim.TruncatedError, iim.RefusedError)


def test_old_attributes_warn_of_the_new_ones(library: Path, top: Path) -> None:
    (envelope,) = iim.read(top / "samples" / "story.iim")
    receiver = iim.Receiver()
    receiver.feed(b"\x1c\x01")
    for thing, names in (envelope, OLD_OF_ENVELOPES), (receiver, OLD_OF_RECEIVERS):
        for old, new in names:
            with pytest.warns(DeprecationWarning, match=f"^{old} is deprecated: use {new}"):
                value = value_of(thing, old)
            assert (old, value) == (old, value_of(thing, new))
    with pytest.warns(DeprecationWarning, match="^tries is deprecated: use try_bytes"):
        assert receiver.tries(b"\0") == receiver.try_bytes(b"\0") == (1, False)


def test_old_form_of_an_error_warns(library: Path) -> None:
    wanted = "1 refused at octet 5 by layer dataset on 1:00, cause 1 Marker"
    with pytest.warns(DeprecationWarning):
        assert str(iim.Refused(1, 0, "dataset", 1, 0, 5, 1, b"story")) == wanted
    with warnings.catch_warnings():
        warnings.simplefilter("error")
        refusal = iim.Refusal(1, 7, "dataset", 1, 0, 5, 1, cause_name="Marker")
        error = iim.RefusedError(refusal, story=b"story")
    assert (str(error), error.octet_in_file, error.story) == (wanted, 12, b"story")


def test_imports_without_the_library(top: Path) -> None:
    source = top / "bindings" / "python" / "src"
    code = "import iim, iim.archive.program, iim.explain.program; iim.Receiver(); iim.cause_name(1)"
    env = {"PYTHONPATH": str(source), "IIM_LIBRARY": "/nowhere/libiim.so", "PATH": "/usr/bin:/bin"}
    ran = subprocess.run([sys.executable, "-c", code], env=env, capture_output=True, text=True)
    assert ran.stderr.splitlines()[-1].startswith("ImportError: no libiim.so: bindings/build makes")
    # (only the last statement fails)
    assert "in cause_name" in ran.stderr


def test_clone_loads_the_library_it_builds(top: Path) -> None:
    package = top / "bindings" / "python" / "src" / "iim"
    built = top / "bindings" / "out" / "libiim.so"
    assert _library.library_paths() == [package / "libiim.so", built]
