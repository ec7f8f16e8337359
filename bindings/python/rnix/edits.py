"""Edits of a text."""

from __future__ import annotations

import bisect

from rnix import library, ranges
from rnix.ranges import EditError
from rnix.tree import Element, Tree

__all__ = ["EditError", "Edits"]


class Edits:
    """Edits of a text: disjoint byte ranges, each with its replacement."""

    def __init__(self, text: str | bytes) -> None:
        self._source = library.source_of(text)
        self._edits: list[tuple[int, int, bytes]] = []
        # The last tree that was seen to be one of this text.
        self._tree: Tree | None = None

    def _range_of(self, element: Element) -> tuple[int, int]:
        """Returns the range of an element; raises EditError if it is of another text."""
        if element.tree is not self._tree:
            if element.tree.source != self._source:
                raise EditError(f"{element!r} is of another text")
            self._tree = element.tree
        return element.range

    def replace(self, what: Element | tuple[int, int], new: str) -> None:
        """Replaces a node, a token or a byte range. An element must be of a tree of this text.

        Edits may be added in any order. Insertions at the same offset are applied in the order in which they were added.
        """
        start, end = ranges.checked(self._source, *(self._range_of(what) if isinstance(what, Element) else what))
        at = bisect.bisect_right(self._edits, (start, end), key=lambda edit: edit[:2])
        if (at > 0 and self._edits[at - 1][1] > start) or (at < len(self._edits) and end > self._edits[at][0]):
            raise EditError(f"{start}..{end} overlaps another edit")
        self._edits.insert(at, (start, end, new.encode()))

    def apply(self) -> str:
        """Returns the edited text. Every byte outside the replaced ranges stays as it was."""
        pieces = []
        kept = 0
        for start, end, new in self._edits:
            pieces += [self._source[kept:start], new]
            kept = end
        return b"".join([*pieces, self._source[kept:]]).decode()
