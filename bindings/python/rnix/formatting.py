"""Texts with another layout, in the style of Nixpkgs, as `rnix format` writes them."""

from __future__ import annotations

import ctypes

from rnix import library
from rnix.library import LIBRARY


class FormatError(Exception):
    """A text that is not formatted.

    It has errors, or the new text would differ in more than its layout, or change if formatted again, which is a bug of the formatter.
    """


def formatted(text: str | bytes) -> str:
    """Returns a text without errors in the style of Nixpkgs: the same tokens, comments included, with other white space between them.

    Strings in '' are indented with the code; their values stay the same. Patterns may have other commas, and comments with # may be in place of those in
    /* */. Apart from this, the new text is read as the same tree but for white space.
    Raises FormatError if the text has errors.
    """
    source = library.source_of(text)
    guess = len(source) + len(source) // 4

    def call(room: object, count: int) -> int:
        result = int(LIBRARY.rnix_format(source, len(source), room, count))
        if result == library.HAS_ERRORS:
            raise FormatError("the text has errors")
        if result == library.DIFFERENT:
            raise FormatError("the new text would differ in more than its layout, or change again")
        return result

    made, count = library.listed(ctypes.c_char, call, guess)
    return memoryview(made).cast("B")[:count].tobytes().decode()
