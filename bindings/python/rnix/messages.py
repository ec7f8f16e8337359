"""What is wrong with a text, in words for people: its syntax errors or, if it has none, what the lints find. Also fixes."""

from __future__ import annotations

import ctypes
from dataclasses import dataclass
from typing import Any

from rnix import library
from rnix.library import CODES, LIBRARY, NO_NUMBER
from rnix.tree import Tree

# The names of enum rnix_severity.
SEVERITIES = {1: "error", 2: "warning"}


@dataclass(frozen=True)
class Fix:
    """A range of a text, and what to write instead."""

    range: tuple[int, int]
    """The range to replace, in bytes; empty where something is inserted."""
    text: str
    """The new text."""


@dataclass(frozen=True)
class Note:
    """A note on a diagnostic."""

    range: tuple[int, int] | None
    """The range that it is about, in bytes, if that is not the range of the diagnostic."""
    message: str
    """The message."""
    replacement: Fix | None
    """What to write instead, if it proposes something. On a syntax error this is a guess, and `fix` says which of the guesses helps."""


@dataclass(frozen=True)
class Diagnostic:
    """What is wrong with a range of a text."""

    range: tuple[int, int]
    """The range to mark, in bytes; empty if something is missing at the end."""
    message: str
    """The message, such as `expected ";" after the value of "a", found "}"`."""
    code: str
    """The name of what it reports, such as `syntax-error`, `repeated-attribute` or `unused-name`. It is the same in every version."""
    severity: str
    """`error`, if Nix refuses the text or this library does not parse all of it, or `warning`."""
    notes: tuple[Note, ...]
    """Notes that may help: what is not closed, where an attribute is defined first, what may be meant."""


def _note(one: library.Note, texts: bytes) -> Note:
    """Returns what an encoded note is, with the joined texts."""
    new = texts[one.text_start : one.text_end].decode()
    return Note(
        None if one.start == NO_NUMBER else (one.start, one.end),
        texts[one.message_start : one.message_end].decode(),
        None if one.replaced_start == NO_NUMBER else Fix((one.replaced_start, one.replaced_end), new),
    )


def _diagnostic(one: library.Diagnostic, notes: Any, texts: bytes) -> Diagnostic:
    """Returns what an encoded diagnostic is, with its encoded notes and the joined texts."""
    return Diagnostic(
        (one.start, one.end),
        texts[one.message_start : one.message_end].decode(),
        CODES[one.code],
        SEVERITIES[one.severity],
        tuple(_note(note, texts) for note in notes),
    )


def diagnostics(tree: Tree) -> list[Diagnostic]:
    """Returns the diagnostics of a text: its syntax errors, in their order, or, if it has none, what the lints find, as docs/lints.md lists it, and the
    unused names. One may stand for several errors in a row."""
    source = tree.source
    guess = len(tree.errors) or len(source) // 64 + 16
    (found, count), (notes, _), (joined, length) = library.listed_all(
        (library.Diagnostic, library.Note, ctypes.c_char),
        lambda *rooms: LIBRARY.rnix_diagnostics(source, len(source), *rooms),
        (guess, guess, 128 * guess),
    )
    texts = memoryview(joined).cast("B")[:length].tobytes()
    ends = [one.note_end for one in found[:count]]
    return [_diagnostic(one, notes[first : one.note_end], texts) for one, first in zip(found[:count], [0, *ends])]


def fix(tree: Tree, diagnostic: int) -> Fix | None:
    """Returns a fix for the syntax error of an index in `diagnostics(tree)`, or None if none is known. With it, the text has fewer errors.

    A text without syntax errors has no such fix: what the lints propose is in the notes.
    """
    source = tree.source
    found = library.Fix()
    guess = 64
    while True:
        room = library.room_for(ctypes.c_char, guess)
        answer = LIBRARY.rnix_fix(source, len(source), diagnostic, ctypes.byref(found), room, guess)
        if answer in (0, library.NONE_SUCH):
            return None
        library.count_of(answer)
        if found.text_len <= guess:
            return Fix((found.start, found.end), memoryview(room).cast("B")[: found.text_len].tobytes().decode())
        guess = found.text_len
