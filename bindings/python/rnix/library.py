"""The shared library, with the functions that `bindings/rnix.h` declares."""

from __future__ import annotations

import ctypes
import itertools
import mmap
import os
import pathlib
from typing import Any, Callable, Sequence

VERSION = 7
NOT_UTF8, NO_MEMORY, NONE_SUCH, TOO_LONG, HAS_ERRORS, DIFFERENT = -1, -2, -3, -4, -5, -6
NO_NUMBER = 2**64 - 1
NO_KIND = 2**32 - 1
NO_PARENT = 2**32 - 1
NOT_WANTED = 255
CHARS = 1


class Token(ctypes.Structure):
    """struct rnix_token."""

    _fields_ = [("start", ctypes.c_uint64), ("end", ctypes.c_uint64), ("kind", ctypes.c_uint32)]


class Element(ctypes.Structure):
    """struct rnix_element."""

    _fields_ = [
        ("start", ctypes.c_uint64),
        ("end", ctypes.c_uint64),
        ("parent", ctypes.c_uint64),
        ("inside", ctypes.c_uint64),
        ("kind", ctypes.c_uint32),
        ("is_token", ctypes.c_uint32),
    ]


class Range(ctypes.Structure):
    """struct rnix_range."""

    _fields_ = [("start", ctypes.c_uint32), ("end", ctypes.c_uint32)]


class Link(ctypes.Structure):
    """struct rnix_link."""

    _fields_ = [
        ("parent", ctypes.c_uint32),
        ("inside", ctypes.c_uint32),
        ("kind", ctypes.c_uint16),
        ("is_token", ctypes.c_uint16),
    ]


class Fault(ctypes.Structure):
    """struct rnix_error."""

    _fields_ = [
        ("start", ctypes.c_uint64),
        ("end", ctypes.c_uint64),
        ("wanted", ctypes.c_uint8 * 16),
        ("variant", ctypes.c_uint32),
        ("found", ctypes.c_uint32),
    ]


class Part(ctypes.Structure):
    """struct rnix_part."""

    _fields_ = [("start", ctypes.c_uint64), ("end", ctypes.c_uint64), ("is_interpolation", ctypes.c_uint32)]


class StringPart(ctypes.Structure):
    """struct rnix_string_part."""

    _fields_ = [
        ("string", ctypes.c_uint64),
        ("start", ctypes.c_uint64),
        ("end", ctypes.c_uint64),
        ("is_interpolation", ctypes.c_uint32),
    ]


class Position(ctypes.Structure):
    """struct rnix_position."""

    _fields_ = [("line", ctypes.c_uint64), ("column", ctypes.c_uint64)]


class Diagnostic(ctypes.Structure):
    """struct rnix_diagnostic."""

    _fields_ = [
        ("start", ctypes.c_uint64),
        ("end", ctypes.c_uint64),
        ("message_start", ctypes.c_uint64),
        ("message_end", ctypes.c_uint64),
        ("note_end", ctypes.c_uint64),
        ("code", ctypes.c_uint32),
        ("severity", ctypes.c_uint32),
    ]


class Note(ctypes.Structure):
    """struct rnix_note."""

    _fields_ = [
        ("start", ctypes.c_uint64),
        ("end", ctypes.c_uint64),
        ("message_start", ctypes.c_uint64),
        ("message_end", ctypes.c_uint64),
        ("replaced_start", ctypes.c_uint64),
        ("replaced_end", ctypes.c_uint64),
        ("text_start", ctypes.c_uint64),
        ("text_end", ctypes.c_uint64),
    ]


class Fix(ctypes.Structure):
    """struct rnix_fix."""

    _fields_ = [("start", ctypes.c_uint64), ("end", ctypes.c_uint64), ("text_len", ctypes.c_uint64)]


class Binding(ctypes.Structure):
    """struct rnix_binding."""

    _fields_ = [
        ("start", ctypes.c_uint64),
        ("end", ctypes.c_uint64),
        ("scope_start", ctypes.c_uint64),
        ("scope_end", ctypes.c_uint64),
        ("first", ctypes.c_uint64),
        ("kind", ctypes.c_uint32),
        ("scope_kind", ctypes.c_uint32),
    ]


class Reference(ctypes.Structure):
    """struct rnix_reference."""

    _fields_ = [
        ("start", ctypes.c_uint64),
        ("end", ctypes.c_uint64),
        ("binding", ctypes.c_uint64),
        ("kind", ctypes.c_uint32),
        ("is_inherited", ctypes.c_uint32),
        ("is_open", ctypes.c_uint32),
    ]


class Refused(Exception):
    """A refused call: the text is not UTF-8, or it has 2^32 bytes or more."""


def _path() -> str:
    """Returns the path of the library: RNIX_LIBRARY if set, else next to this file, else where bindings/build puts it."""
    here = pathlib.Path(__file__).resolve().parent
    named = os.environ.get("RNIX_LIBRARY")
    places = [pathlib.Path(named)] if named else [here / "librnix.so", here.parents[1] / "out" / "librnix.so"]
    for place in places:
        if place.is_file():
            return str(place)
    raise ImportError(f"librnix.so is not at {' or '.join(map(str, places))}: run bindings/build, or set RNIX_LIBRARY")


def _text(*more: Any) -> list[Any]:
    """The parameter types of a function: a text, then these."""
    return [ctypes.c_char_p, ctypes.c_size_t, *more]


def _array(kind: Any) -> list[Any]:
    """The parameter types of an array."""
    return [ctypes.POINTER(kind), ctypes.c_size_t]


_ARGUMENTS = {
    "rnix_tokens": _text(*_array(Token)),
    "rnix_parse": _text(*_array(Element), *_array(Fault), ctypes.POINTER(ctypes.c_uint64)),
    "rnix_parse_compact": _text(*_array(Range), *_array(Link), *_array(Fault), ctypes.POINTER(ctypes.c_uint64)),
    "rnix_parse_again": _text(
        *_array(Range),
        *_array(Link),
        *[ctypes.c_uint64] * 3,
        *_text(),
        *_array(Range),
        *_array(Link),
        *_array(Fault),
        ctypes.POINTER(ctypes.c_uint64),
    ),
    "rnix_elements": _text(*_array(Element)),
    "rnix_errors": _text(*_array(Fault)),
    "rnix_error_text": _text(ctypes.c_size_t, *_array(ctypes.c_char)),
    "rnix_error_texts": _text(*_array(ctypes.c_char)),
    "rnix_kind_name": [ctypes.c_uint32, *_array(ctypes.c_char)],
    "rnix_kind_of_name": _text(),
    "rnix_diagnostics": _text(
        *_array(Diagnostic),
        *_array(Note),
        ctypes.POINTER(ctypes.c_uint64),
        *_array(ctypes.c_char),
        ctypes.POINTER(ctypes.c_uint64),
    ),
    "rnix_code_name": [ctypes.c_uint32, *_array(ctypes.c_char)],
    "rnix_fix": _text(ctypes.c_size_t, ctypes.POINTER(Fix), *_array(ctypes.c_char)),
    "rnix_format": _text(*_array(ctypes.c_char)),
    "rnix_names_again": _text(
        *_array(Range),
        *_array(Link),
        ctypes.c_uint64,
        *_array(Binding),
        *_array(Reference),
        ctypes.POINTER(ctypes.c_uint64),
    ),
    "rnix_positions": _text(ctypes.c_uint32, ctypes.POINTER(ctypes.c_uint64), ctypes.c_size_t, *_array(Position)),
    "rnix_strings": _text(*_array(StringPart), *_array(ctypes.c_char), ctypes.POINTER(ctypes.c_uint64)),
    "rnix_string_text": _text(ctypes.c_size_t, *_array(ctypes.c_char)),
    "rnix_string_parts": _text(ctypes.c_size_t, *_array(Part)),
}


def _load() -> ctypes.CDLL:
    """Loads the library and declares its functions."""
    library = ctypes.CDLL(_path())
    library.rnix_version.argtypes = []
    library.rnix_version.restype = ctypes.c_uint32
    if library.rnix_version() != VERSION:
        raise ImportError("librnix.so has another version than this package expects")
    for name, arguments in _ARGUMENTS.items():
        function = getattr(library, name)
        function.argtypes = arguments
        function.restype = ctypes.c_int64
    return library


LIBRARY = _load()


def count_of(result: int) -> int:
    """Returns the count that a call returned; raises an exception if the call was refused."""
    if result == NOT_UTF8:
        raise Refused("the text is not UTF-8")
    if result == NO_MEMORY:
        raise MemoryError("out of memory")
    if result == TOO_LONG:
        raise Refused("the text has 2^32 bytes or more")
    if result == NONE_SUCH:
        raise LookupError("there is no such item")
    return result


def room_for(kind: Any, count: int) -> Any:
    """Returns an array of `count` values. A large one is mapped, so that its pages cost nothing until they are written."""
    size = ctypes.sizeof(kind) * count
    if size <= mmap.PAGESIZE:
        return (kind * count)()
    try:
        mapped = mmap.mmap(-1, size)
    except OSError as error:
        raise MemoryError("out of memory") from error
    return (kind * count).from_buffer(mapped)


def listed(kind: Any, call: Callable[[Any, int], Any], guess: int = 0) -> tuple[Any, int]:
    """Returns the list that a call writes: an array, and the number of its elements in use.

    The call takes an array and its capacity. `guess` is the initial capacity; if it is too small, the call is repeated with enough.
    """
    room = room_for(kind, guess)
    count = count_of(call(room, guess))
    if count > guess:
        room = room_for(kind, count)
        count_of(call(room, count))
    return room, count


def listed_all(kinds: Sequence[Any], call: Callable[..., int], guesses: Sequence[int]) -> list[tuple[Any, int]]:
    """Returns the lists that a call writes, each as an array and the number of its elements in use.

    The call takes each array with its capacity and, but for the first, where to write the length of the list. `guesses` are the initial capacities; if
    one is too small, the call is repeated with enough.
    """
    lengths = [ctypes.c_uint64(0) for _ in kinds[1:]]
    while True:
        rooms = [room_for(kind, guess) for kind, guess in zip(kinds, guesses)]
        others = zip(rooms[1:], guesses[1:], map(ctypes.byref, lengths))
        count = count_of(call(rooms[0], guesses[0], *itertools.chain.from_iterable(others)))
        counts = [count, *(length.value for length in lengths)]
        if all(count <= guess for count, guess in zip(counts, guesses)):
            return list(zip(rooms, counts))
        guesses = counts


def listed_twice(first: Any, second: Any, call: Callable[..., int], guesses: tuple[int, int]) -> tuple[Any, int, Any, int]:
    """Returns the two lists that a call writes, as `listed_all` does."""
    one, other = listed_all((first, second), call, guesses)
    return *one, *other


def _names(function: Callable[[int, Any, int], int]) -> tuple[str, ...]:
    """Returns the names that a function writes, in the order of their numbers."""
    names: list[str] = []
    room = ctypes.create_string_buffer(64)
    while (count := function(len(names), room, len(room))) != NONE_SUCH:
        names.append(room.raw[: count_of(count)].decode("ascii"))
    return tuple(names)


KINDS = _names(LIBRARY.rnix_kind_name)
CODES = _names(LIBRARY.rnix_code_name)


def source_of(text: str | bytes | bytearray | memoryview) -> bytes:
    """Returns the bytes of a text; raises TypeError for other types."""
    if isinstance(text, str):
        return text.encode()
    if isinstance(text, (bytes, bytearray, memoryview)):
        return bytes(text)
    raise TypeError(f"expected str or bytes, not {type(text).__name__}")
