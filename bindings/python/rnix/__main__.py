"""Prints the errors and the tree of each file, or of standard input, as `rnix tree` does. Usage: python -m rnix [FILE..]

The exit status is 0 without errors, 1 with some, and 2 if a text is refused or cannot be read.
"""

from __future__ import annotations

import sys
from typing import Iterator

import rnix

# The greatest depth that is shown by indentation.
INDENTED = 100


def margin(depth: int) -> str:
    """Returns the start of a line: two spaces per level, or the depth as a number where it is greater than INDENTED."""
    return "  " * depth if depth <= INDENTED else f"{depth} "


def lines(tree: rnix.Tree) -> Iterator[str]:
    """Yields a line for each error of a text, then for each element of its tree."""
    for error in tree.errors:
        yield f"error: {error}\n"
    depths: dict[rnix.Element, int] = {}
    for element in tree.root.walk():
        parent = element.parent
        depth = depths[element] = 0 if parent is None else depths[parent] + 1
        yield f"{margin(depth)}{element.kind}@{element.start}..{element.end}\n"


def read(name: str | None) -> bytes:
    """Returns the bytes of a file, or of standard input."""
    if name is None:
        return sys.stdin.buffer.read()
    with open(name, "rb") as file:
        return file.read()


def main() -> int:
    """Prints each tree, and returns the exit status."""
    status = 0
    try:
        names: list[str | None] = [*sys.argv[1:]]
        for name in names or [None]:
            tree = rnix.parse(read(name))
            sys.stdout.writelines(lines(tree))
            status = 1 if tree.errors else status
        sys.stdout.flush()
    except (OSError, MemoryError, rnix.Refused) as refusal:
        print(f"rnix: {refusal}", file=sys.stderr)
        status = 2
    return status


if __name__ == "__main__":
    sys.exit(main())
