"""Load the C library libiim.so, and declare its functions for ctypes.

At the first call the library is loaded from the path in the environment variable IIM_LIBRARY;
otherwise from the directory of this package; otherwise, in a clone, from bindings/out, where
bindings/build writes it; otherwise from the system's library path.

The extension module `_iim` does in C what the package does for each envelope, dataset and row. It
is optional. If it is missing, the package does the same by ctypes, more slowly.
"""
from __future__ import annotations

import ctypes
import functools
import importlib.machinery
import importlib.util
import os
from pathlib import Path
from types import ModuleType
from typing import Any, Dict, List, Optional, Tuple


class Limits(ctypes.Structure):
    """The struct iim_limits."""

    _fields_ = [("octets", ctypes.c_uint32), ("fields", ctypes.c_uint32)]


class Answer(ctypes.Structure):
    """The struct iim_answer."""

    _fields_ = [
        *((name, ctypes.c_uint8) for name in ("status", "layer", "cause", "rec", "set")),
        ("octet", ctypes.c_uint64),
        *((name, ctypes.c_size_t) for name in ("used", "written", "ticket")),
    ]


class Span(ctypes.Structure):
    """The struct iim_span."""

    _fields_ = [("offset", ctypes.c_size_t), ("count", ctypes.c_size_t)]


class Dataset(ctypes.Structure):
    """The struct iim_dataset."""

    _fields_ = [("rec", ctypes.c_uint8), ("set", ctypes.c_uint8), ("data", Span)]


class Message(ctypes.Structure):
    """The struct iim_message."""

    TEXTS = "source", "number", "priority", "category", "words", "info", "trailer"
    _fields_ = [("part", ctypes.c_uint8), *((name, Span) for name in TEXTS)]


class Object(ctypes.Structure):
    """The struct iim_object."""

    _fields_ = [
        *((f"has_{name}", ctypes.c_bool) for name in ("mode", "subfile", "announced", "maximum")),
        *(
            (name, ctypes.c_uint64)
            for name in ("mode", "subfile", "announced", "maximum", "subfiles", "octets")
        ),
    ]


class Packing(ctypes.Structure):
    """The struct iim_packing."""

    _fields_ = [
        ("subfile", ctypes.c_uint64),
        ("unknown", ctypes.c_bool),
        ("has_max", ctypes.c_bool),
        ("max", ctypes.c_uint64),
    ]


class Rule(ctypes.Structure):
    """The struct iim_rule."""

    _fields_ = [
        *((name, ctypes.c_uint64) for name in ("min", "max")),
        *((name, ctypes.c_uint8) for name in ("kind", "duty")),
        ("repeats", ctypes.c_bool),
    ]


class OctetSet(ctypes.Structure):
    """The struct iim_octet_set."""

    _fields_ = [("bits", ctypes.c_uint8 * 32)]


class Begun(ctypes.Structure):
    """The struct iim_begun."""

    _fields_ = [
        *(
            (name, ctypes.c_uint8)
            for name in ("kind", "section", "rec", "set", "part", "counter", "flag")
        ),
        *((name, ctypes.c_uint64) for name in ("count", "came", "left", "first", "token")),
        ("octets", Span),
    ]


class Instant(ctypes.Structure):
    """The struct iim_instant."""

    _fields_ = [("second", ctypes.c_int64), ("nanosecond", ctypes.c_uint32)]


class SoFar(ctypes.Structure):
    """The struct iim_so_far."""

    _fields_ = [
        *((name, ctypes.c_uint64) for name in ("at", "octets", "words")),
        ("inside", ctypes.c_bool),
    ]


class AuditRow(ctypes.Structure):
    """The struct iim_audit_row."""

    _fields_ = [
        *(
            (name, ctypes.c_uint64)
            for name in ("at", "octets", "size", "subfiles", "announced", "counted")
        ),
        ("age", ctypes.c_int64),
        *((name, Instant) for name in ("release", "expires")),
        *((name, ctypes.c_bool) for name in ("has_age", "has_release", "has_expires")),
        *((name, ctypes.c_uint8) for name in ("copy", "priority", "service_octets")),
        *(
            (name, ctypes.c_uint8 * count)
            for name, count in (("service", 10), ("number", 8), ("date_sent", 8))
        ),
    ]


(
    DONE,
    MORE,
    REFUSED,
    TRUNCATED,
    NONE,
    SHORT,
    NO_MEMORY,
    BAD_TICKET,
    BAD_PACKING,
    BAD_INSTANT,
) = range(10)

VERSION = 1

# The kind that iim_place returns if a dataset's data are partial.
DATA = 2

# Each function of iim.h: its result type and its argument types. Bytes are a pointer and a length.
OCTETS = [ctypes.c_void_p, ctypes.c_size_t]
TO_ANSWER = ctypes.POINTER(Answer)
FUNCTIONS: Dict[str, Tuple[Any, List[Any]]] = {
    "iim_check": (None, [Limits, *OCTETS, TO_ANSWER]),
    "iim_feed": (None, [Limits, *OCTETS, ctypes.c_uint64, *OCTETS, *OCTETS, *OCTETS, TO_ANSWER]),
    "iim_end": (None, [Limits, *OCTETS, ctypes.c_uint64, TO_ANSWER]),
    "iim_fields": (None, [*OCTETS, ctypes.c_size_t, *OCTETS, TO_ANSWER]),
    "iim_field": (None, [*OCTETS, ctypes.c_size_t, ctypes.POINTER(Dataset), TO_ANSWER]),
    "iim_header": (None, [*OCTETS, ctypes.POINTER(Message), TO_ANSWER]),
    "iim_sizes": (None, [*OCTETS, ctypes.POINTER(Object), TO_ANSWER]),
    "iim_next": (None, [Limits, *OCTETS, ctypes.POINTER(OctetSet), TO_ANSWER]),
    "iim_place": (None, [*OCTETS, ctypes.c_uint64, ctypes.POINTER(Begun), TO_ANSWER]),
    "iim_audit": (
        None,
        [
            Limits,
            *OCTETS,
            ctypes.POINTER(SoFar),
            *OCTETS,
            Instant,
            ctypes.POINTER(AuditRow),
            ctypes.c_size_t,
            *OCTETS,
            TO_ANSWER,
        ],
    ),
    "iim_pack": (None, [Packing, *OCTETS, *OCTETS, TO_ANSWER]),
    "iim_pack_size": (None, [Packing, *OCTETS, TO_ANSWER]),
    "iim_row": (ctypes.c_bool, [ctypes.c_uint8, ctypes.c_uint8, ctypes.POINTER(Rule)]),
    "iim_admits": (ctypes.c_bool, [ctypes.c_uint8, ctypes.c_uint8, *OCTETS]),
    "iim_cause_name": (ctypes.c_size_t, [ctypes.c_uint8, *OCTETS]),
    "iim_cause_text": (ctypes.c_size_t, [ctypes.c_uint8, *OCTETS]),
    "iim_layer_name": (ctypes.c_size_t, [ctypes.c_uint8, *OCTETS]),
    "iim_dataset_name": (ctypes.c_size_t, [ctypes.c_uint8, ctypes.c_uint8, *OCTETS]),
    "iim_version": (ctypes.c_uint32, []),
}


def built_paths(name: str) -> List[Path]:
    """Return the candidate paths of a built file that belongs to this package.

    They are its own directory and, in a clone, the output directory of bindings/build. Outside a
    clone a directory `out` may belong to another program, so it is not searched.
    """
    here = Path(__file__).resolve().parent
    paths = [here / name]
    if here.parts[-3:] == ("python", "src", "iim"):
        bindings = here.parents[2]
        if (bindings / "build").is_file() and (bindings / "c" / "iim.h").is_file():
            paths.append(bindings / "out" / name)
    return paths


def library_paths() -> List[Path]:
    """Return the candidate paths of a library that belongs to this package."""
    return built_paths("libiim.so")


def load() -> ctypes.CDLL:
    """Load the library from the first path that has it.

    Raises:
        ImportError: No library was found, or its version differs from this package's.
    """
    found = (str(path) for path in library_paths() if path.exists())
    path = os.environ.get("IIM_LIBRARY") or next(found, "libiim.so.1")
    try:
        loaded = ctypes.CDLL(path)
        for name, (result, arguments) in FUNCTIONS.items():
            function = getattr(loaded, name)
            function.restype, function.argtypes = result, arguments
    except (OSError, AttributeError) as fault:
        if isinstance(fault, AttributeError) and hasattr(loaded, "iim_version"):
            older = f"{path} is older than this module: install both from one release ({fault})"
            raise ImportError(older) from None
        missing = f"no libiim.so: bindings/build makes it, and IIM_LIBRARY may name it ({fault})"
        raise ImportError(missing) from None
    version = loaded.iim_version()
    if version != VERSION:
        other = f"{path} is of version {version}, and this module is for version {VERSION}"
        raise ImportError(other)
    return loaded


class Library:
    """The C library. It is loaded at the first call, so the module can be imported without it."""

    def __getattr__(self, name: str) -> Any:
        """Load the library, and return it as `loaded`, or one of its functions."""
        self.loaded = loaded = load()
        for each in FUNCTIONS:
            setattr(self, each, getattr(loaded, each))
        return loaded if name == "loaded" else getattr(loaded, name)


library = Library()


def import_extension() -> Optional[ModuleType]:
    """Import the extension module from the first path that has it, or return `None`.

    The environment variable IIM_EXTENSION names another path. If it is 0, none is imported.
    """
    named = os.environ.get("IIM_EXTENSION", "")
    if named == "0":
        return None
    for path in [Path(named)] if named else built_paths("_iim.abi3.so"):
        if path.exists():
            loader = importlib.machinery.ExtensionFileLoader("iim._iim", str(path))
            spec = importlib.util.spec_from_file_location("iim._iim", path, loader=loader)
            assert spec is not None
            try:
                module = importlib.util.module_from_spec(spec)
                loader.exec_module(module)
            except ImportError:
                # (it is for another processor or interpreter)
                return None
            return module
    return None


@functools.lru_cache(maxsize=None)
def extension() -> Any:
    """Return the extension module, or `None` if it is missing or the library is older than it.

    It calls the library that is loaded here. An older library lacks some functions.
    """
    module: Any = import_extension()
    if module is None:
        return None
    loaded = library.loaded
    if not all(hasattr(loaded, name) for name in module.NAMES):
        return None
    addresses = {
        name: ctypes.cast(getattr(loaded, name), ctypes.c_void_p).value for name in module.NAMES
    }
    module.bind(addresses)
    return module


# A buffer that the library writes to. It knows its own length, so that the length of one buffer is
# never used with the bytes of another; a slice of it is `bytes`, and never longer than the buffer.
Buffer = Any


def buffer(size: int) -> Buffer:
    """Return a new buffer of `size` bytes, and of at least one."""
    return ctypes.create_string_buffer(max(1, size))
