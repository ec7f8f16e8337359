"""Byte ranges of a text that are edited."""

from __future__ import annotations


class EditError(ValueError):
    """An edit that was refused: its range is not in the text, splits a character, or overlaps that of another edit, or its node is of another tree."""


def _is_inside_char(source: bytes, offset: int) -> bool:
    return offset < len(source) and source[offset] & 0xC0 == 0x80


def checked(source: bytes, start: int, end: int) -> tuple[int, int]:
    """Returns a range of a text that can be edited; raises EditError if it is none."""
    if not 0 <= start <= end <= len(source):
        raise EditError(f"{start}..{end} is not in the text")
    if _is_inside_char(source, start) or _is_inside_char(source, end):
        raise EditError(f"{start}..{end} starts or ends inside a character")
    return start, end
