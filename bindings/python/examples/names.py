"""Prints each name in a text with its line and column. Usage: names.py < FILE"""

from __future__ import annotations

import sys

import rnix


def main() -> None:
    """Prints a line for each name."""
    tree = rnix.parse(sys.stdin.buffer.read())
    for name in tree.root.find(rnix.ast.Ident):
        line, column = name.position
        print(f"{line}:{column}: {name}")


if __name__ == "__main__":
    main()
