"""Sets string attributes of a file, and leaves all other bytes as they are. Usage: pins.py FILE NAME=VALUE.."""

from __future__ import annotations

import pathlib
import sys

import rnix


def quoted(value: str) -> str:
    """Returns a Nix string literal with this value."""
    for special in ("\\", '"', "${"):
        value = value.replace(special, "\\" + special)
    return f'"{value}"'


def updated(text: bytes, new: dict[str, str]) -> str:
    """Returns the text with the new values at the attributes of these names."""
    edits = rnix.Edits(text)
    for entry in rnix.parse(text).root.find(rnix.ast.AttrpathValue):
        match entry.attrpath, entry.value:
            case rnix.ast.Attrpath() as path, rnix.ast.Str() as value if str(path) in new:
                edits.replace(value, quoted(new[str(path)]))
    return edits.apply()


def main() -> None:
    """Updates the file."""
    file = pathlib.Path(sys.argv[1])
    new = dict(argument.split("=", 1) for argument in sys.argv[2:])
    file.write_bytes(updated(file.read_bytes(), new).encode())


if __name__ == "__main__":
    main()
