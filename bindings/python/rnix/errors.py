"""Parse errors."""

from __future__ import annotations

import ctypes
from typing import Any

from rnix import library
from rnix.library import KINDS, LIBRARY, NO_KIND, NO_NUMBER, NOT_WANTED

VARIANTS = (
    "Unexpected",
    "UnexpectedExtra",
    "UnexpectedWanted",
    "UnexpectedDoubleBind",
    "UnexpectedEOF",
    "UnexpectedEOFWanted",
    "DuplicatedArgs",
    "RecursionLimitExceeded",
)


class ParseError:
    """A parse error; `str` returns its message.

    `variant` is one of VARIANTS, `range` a pair of byte offsets or None, `found` the kind of the unexpected token or None, and `wanted` the kinds
    that were expected, in rnix's order.
    """

    __slots__ = ("found", "message", "range", "variant", "wanted")

    def __init__(self, fault: library.Fault, message: str) -> None:
        self.variant: str = VARIANTS[fault.variant]
        self.range: tuple[int, int] | None = None if fault.start == NO_NUMBER else (fault.start, fault.end)
        self.found: str | None = None if fault.found == NO_KIND else KINDS[fault.found]
        self.wanted: tuple[str, ...] = tuple(KINDS[number] for number in fault.wanted if number != NOT_WANTED)
        self.message = message

    def __str__(self) -> str:
        return self.message

    def __repr__(self) -> str:
        return f"<ParseError {self.message!r}>"


def errors_of(source: bytes, faults: Any, count: int) -> list[ParseError]:
    """Returns the errors of a text that has `count` of them. `faults` has the first ones."""
    if count > len(faults):
        faults, _ = library.listed(
            library.Fault,
            lambda room, room_len: LIBRARY.rnix_errors(source, len(source), room, room_len),
            guess=count,
        )
    texts, texts_len = library.listed(
        ctypes.c_char,
        lambda room, room_len: LIBRARY.rnix_error_texts(source, len(source), room, room_len),
        guess=128 * count,
    )
    messages = texts.raw[:texts_len].decode().split("\n")
    return [ParseError(fault, message) for fault, message in zip(faults[:count], messages)]
