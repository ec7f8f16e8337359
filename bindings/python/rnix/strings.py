"""The parts of strings and paths."""

from __future__ import annotations

from rnix.ast import Interpol, PathAbs, PathHome, PathRel, PathSearch, Str
from rnix.tree import Group

_INTERPOL = Group(Interpol)


def parts(string: Str) -> list[str | Interpol]:
    """Returns the parts of a string: texts, with escapes replaced and the indentation removed, and interpolations.

    They are as in rnix: where a string has an escaped line feed or a carriage return, Nix may make another value of it.
    The first call for a tree reads the parts of all its strings.
    """
    interpolations = iter(string._children(_INTERPOL))
    found = string.tree._string_parts().get(string._number, ())
    return [next(interpolations) if part is None else part for part in found]


def value(string: Str) -> str | None:
    """Returns the text of a string's parts, or None if it has interpolations.

    This is its value, except for some strings that have an escaped line feed or a carriage return, which Nix reads in another way than rnix.
    """
    found = string.tree._string_parts().get(string._number, ())
    return None if None in found else "".join(part for part in found if part is not None)


def path_parts(path: PathAbs | PathRel | PathHome | PathSearch) -> list[str | Interpol]:
    """Returns the parts of a path, as they are written."""
    return [child if isinstance(child, Interpol) else child.text for child in path]
