"""Fixtures of the tests of the Python package."""
from __future__ import annotations

from typing import Iterator

import pytest
from iim import _library

WAYS = ["extension", "ctypes"]


@pytest.fixture(scope="module", params=WAYS)
def way(request: pytest.FixtureRequest) -> Iterator[str]:
    """Run the tests of a file with the extension module, and again without it.

    Return the name of the way. If the module is not built, its tests are skipped.
    """
    name: str = request.param
    if name == "extension" and _library.extension() is None:
        pytest.skip("bindings/build has not made _iim.abi3.so")
    with pytest.MonkeyPatch.context() as patch:
        if name == "ctypes":
            patch.setattr(_library, "extension", lambda: None)
        yield name
