"""Iterators over the contents of a file."""
from __future__ import annotations

from types import TracebackType
from typing import Any, Generator, Iterator, Optional, Type, TypeVar

Item = TypeVar("Item")
Self = TypeVar("Self", bound="Stream[Any]")


class Stream(Iterator[Item]):
    """An iterator over the contents of a file, which is open until the iterator ends or is closed.

    It is a context manager, too:

        with iim.read("copy.iim") as envelopes:
            first = next(envelopes)
    """

    def __init__(self, items: Generator[Item, None, None]) -> None:
        """Create an iterator over what a generator yields."""
        self._items = items

    def __iter__(self) -> Iterator[Item]:
        """Return the generator, which is faster than this object."""
        return self._items

    def __next__(self) -> Item:
        """Return the next item."""
        return next(self._items)

    def close(self) -> None:
        """Close the file, unless the caller opened it. The iterator has ended then."""
        self._items.close()

    def __enter__(self: Self) -> Self:
        """Return the iterator."""
        return self

    def __exit__(
        self,
        kind: Optional[Type[BaseException]],
        error: Optional[BaseException],
        trace: Optional[TracebackType],
    ) -> None:
        """Close the iterator."""
        self.close()
