"""The tokenizer."""

from __future__ import annotations

from typing import NamedTuple

from rnix import library
from rnix.library import KINDS, LIBRARY


class Lexeme(NamedTuple):
    """A token: the name of its kind, and its range in bytes."""

    kind: str
    start: int
    end: int


def tokenize(text: str | bytes) -> list[Lexeme]:
    """Returns the tokens of a text; concatenated, they are the text."""
    source = library.source_of(text)
    found, count = library.listed(
        library.Token,
        lambda room, room_len: LIBRARY.rnix_tokens(source, len(source), room, room_len),
        guess=len(source),
    )
    longs = memoryview(found).cast("B").cast("Q")[: 3 * count]
    kinds = memoryview(found).cast("B").cast("I")[4 : 6 * count : 6]
    return [Lexeme(KINDS[kind], start, end) for start, end, kind in zip(longs[0::3], longs[1::3], kinds)]
