"""Trees, nodes and tokens."""

from __future__ import annotations

import bisect
import ctypes
import functools
import sys
from itertools import compress, islice
from typing import TYPE_CHECKING, Any, Generic, Iterable, Iterator, TypeVar, overload

from rnix import library, ranges
from rnix.errors import ParseError, errors_of
from rnix.kinds import PATHS, TRIVIA
from rnix.library import KINDS, LIBRARY, NO_PARENT

if TYPE_CHECKING:
    from rnix.ast import Root

T = TypeVar("T")
E = TypeVar("E", bound="Element")

# The layout of struct rnix_range and struct rnix_link, in numbers of 32 bits: start and end; parent, inside, and one for kind and is_token.
_RANGE, _LINK = 2, 3
_SIZE = 4

# The byte of a link that has the kind, since kinds are below 256: the lower byte of the number.
_KIND = library.Link.kind.offset + (0 if sys.byteorder == "little" else 1)

# How many values a byte has.
_ALL_BYTES = 256

# Initial capacity for the errors.
_ERRORS = 16

# The layout of struct rnix_string_part: string, start and end have 64 bits, is_interpolation 32.
_PART_LONGS = 4


class Tree:
    """The tree of a text, and its errors. It is immutable, so threads may share it."""

    __slots__ = ("_ends", "_errors", "_insides", "_kept", "_kinds", "_line_starts", "_parents", "_parts", "_source", "_starts")

    def __init__(self, source: bytes) -> None:
        self._read(source, LIBRARY.rnix_parse_compact, (source, len(source)), 2 * len(source) + 8)

    def _read(self, source: bytes, function: Any, arguments: tuple[Any, ...], guess: int) -> None:
        """Keeps what a function writes for a text. `arguments` are those before its arrays, and `guess` is the initial capacity for elements."""
        count = ctypes.c_uint64(0)
        faults = (library.Fault * _ERRORS)()
        links: Any = None

        def parse(extents: Any, room: int) -> Any:
            nonlocal links
            links = library.room_for(library.Link, room)
            return function(*arguments, extents, room, links, room, faults, _ERRORS, ctypes.byref(count))

        extents, length = library.listed(library.Range, parse, guess)
        # What rnix_parse_again takes.
        self._kept = (extents, length, links, length, count.value)
        range_bytes = memoryview(extents).cast("B")[: _SIZE * _RANGE * length]
        link_bytes = memoryview(links).cast("B")[: _SIZE * _LINK * length]
        self._starts, self._ends = (range_bytes.cast("I")[column::_RANGE] for column in range(_RANGE))
        self._parents, self._insides = (link_bytes.cast("I")[column::_LINK] for column in range(_LINK - 1))
        self._kinds = link_bytes[_KIND :: _SIZE * _LINK].tobytes()
        self._source = source
        self._errors: list[ParseError] = errors_of(source, faults, count.value) if count.value else []
        self._line_starts: list[int] | None = None
        self._parts: dict[int, list[str | None]] | None = None

    @property
    def source(self) -> bytes:
        """The whole text, as bytes."""
        return self._source

    @property
    def errors(self) -> list[ParseError]:
        """The errors, in the order in which the parser finds them."""
        return self._errors

    @property
    def text(self) -> str:
        """The whole text."""
        return self._source.decode()

    @property
    def root(self) -> Root:
        """The root node."""
        root: Root = self._at(0)  # type: ignore[assignment]
        return root

    def _at(self, number: int) -> Element:
        return _CLASSES[self._kinds[number]](self, number)

    def _elements(self, numbers: Iterable[int]) -> Iterator[Element]:
        """Yields the elements that have these numbers. It does what Element.__init__ does, without a call for each."""
        kinds, starts, ends, new = self._kinds, self._starts, self._ends, object.__new__
        for number in numbers:
            element = new(_CLASSES[kinds[number]])
            element.tree = self
            element.start = starts[number]
            element.end = ends[number]
            element._number = number
            yield element

    def reparse(self, what: Element | tuple[int, int], new: str) -> Tree:
        """Returns the tree of the text in which `new` replaces a node, a token or a byte range: that of `parse` for the new text.

        If this text has no errors and the edit is between brackets, often only these are parsed, which takes a fraction of the time. This tree stays as
        it is. An element of another tree raises EditError.
        """
        if isinstance(what, Element) and what.tree is not self:
            raise ranges.EditError(f"{what!r} is of another tree")
        start, end = ranges.checked(self._source, *(what.range if isinstance(what, Element) else what))
        replacement = new.encode()
        source = self._source[:start] + replacement + self._source[end:]
        arguments = (self._source, len(self._source), *self._kept, start, end, replacement, len(replacement))
        tree = Tree.__new__(Tree)
        tree._read(source, LIBRARY.rnix_parse_again, arguments, len(self._kinds) + 2 * len(replacement) + 8)
        return tree

    def position(self, offset: int) -> tuple[int, int]:
        """Returns the line and column of a byte offset, both counted from 1. Columns count characters. A negative offset raises ValueError."""
        if offset < 0:
            raise ValueError(f"{offset} is not in the text")
        if self._line_starts is None:
            starts = [0]
            while (feed := self._source.find(b"\n", starts[-1])) >= 0:
                starts.append(feed + 1)
            self._line_starts = starts
        line = bisect.bisect_right(self._line_starts, offset)
        return line, len(self._source[self._line_starts[line - 1] : offset].decode(errors="ignore")) + 1

    def _string_parts(self) -> dict[int, list[str | None]]:
        """The parts of all strings that have some, by the numbers of the strings. None stands for an interpolation."""
        if self._parts is None:
            source = self._source
            room, count, text, text_len = library.listed_twice(
                library.StringPart,
                ctypes.c_char,
                lambda *rooms: LIBRARY.rnix_strings(source, len(source), *rooms),
                (len(source) // 2 + 8, len(source) + 8),
            )
            longs = memoryview(room).cast("B")[: 8 * _PART_LONGS * count].cast("Q")
            columns = (longs[column::_PART_LONGS].tolist() for column in range(_PART_LONGS))
            joined = memoryview(text).cast("B")[:text_len].tobytes()
            parts: dict[int, list[str | None]] = {}
            for string, start, end, is_interpolation in zip(*columns):
                parts.setdefault(string, []).append(None if is_interpolation & 1 else joined[start:end].decode())
            self._parts = parts
        return self._parts

    def _node_at(self, kind: int, start: int, end: int) -> Node:
        """Returns the node of a kind and a range."""
        number = bisect.bisect_left(self._starts, start)
        while self._kinds[number] != kind or self._ends[number] != end:
            number += 1
        node = self._at(number)
        assert isinstance(node, Node) and node.start == start
        return node

    def token_at(self, offset: int) -> Token | None:
        """Returns the token that contains the byte at an offset, or None if the text has no such byte."""
        element: Element = self.root
        while isinstance(element, Node):
            child = next((child for child in element if child.start <= offset < child.end), None)
            if child is None:
                return None
            element = child
        return element if isinstance(element, Token) else None


class Element:
    """A node or token of a tree. Two are equal if they are the same element of the same tree; `str` returns the text."""

    __slots__ = {
        "tree": "The tree.",
        "start": "The start offset, in bytes of the UTF-8 text.",
        "end": "The end offset, exclusive, in bytes of the UTF-8 text.",
        "_number": "The index among the elements of the tree in preorder.",
    }

    def __init__(self, tree: Tree, number: int) -> None:
        self.tree = tree
        self.start = tree._starts[number]
        self.end = tree._ends[number]
        self._number = number

    @property
    def kind(self) -> str:
        """The name of its kind, one of KINDS, such as NODE_LET_IN."""
        return KINDS[self.tree._kinds[self._number]]

    @property
    def range(self) -> tuple[int, int]:
        """The start and end offsets."""
        return self.start, self.end

    @property
    def position(self) -> tuple[int, int]:
        """The line and column of the start, both counted from 1. Columns count characters."""
        return self.tree.position(self.start)

    @property
    def text(self) -> str:
        """The text."""
        return self.tree._source[self.start : self.end].decode()

    @property
    def parent(self) -> Node | None:
        """The parent, or None for the root."""
        tree = self.tree
        number = tree._parents[self._number]
        parent: Any = None if number == NO_PARENT else _CLASSES[tree._kinds[number]](tree, number)
        return parent  # type: ignore[no-any-return]

    @property
    def ancestors(self) -> Iterator[Node]:
        """The ancestors, from the parent to the root."""
        node = self.parent
        while node is not None:
            yield node
            node = node.parent

    def _subtree_end(self) -> int:
        """The number of the first element after its subtree."""
        return self._number + 1 + self.tree._insides[self._number]

    @property
    def next_sibling(self) -> Element | None:
        """The next sibling, a node or token."""
        parent = self.parent
        number = self._subtree_end()
        return self.tree._at(number) if parent is not None and number < parent._subtree_end() else None

    @property
    def previous_sibling(self) -> Element | None:
        """The previous sibling, a node or token."""
        parent = self.parent
        if parent is None or self._number == parent._number + 1:
            return None
        number = self._number - 1
        while self.tree._parents[number] != parent._number:
            number = self.tree._parents[number]
        return self.tree._at(number)

    def __str__(self) -> str:
        return self.text

    def __eq__(self, other: object) -> bool:
        return isinstance(other, Element) and self.tree is other.tree and self._number == other._number

    def __hash__(self) -> int:
        return hash((id(self.tree), self._number))

    def __repr__(self) -> str:
        return f"<{self.kind}@{self.start}..{self.end}>"


class Token(Element):
    """A token."""

    __slots__ = ()

    @property
    def is_trivia(self) -> bool:
        """Whether it is a comment or whitespace."""
        return self.kind in TRIVIA


class Group(Generic[T]):
    """The classes that an accessor looks for."""

    __slots__ = ("classes",)

    def __init__(self, *classes: type[T]) -> None:
        self.classes: tuple[type[Any], ...] = classes

    @property
    def kinds(self) -> bytes:
        """The kinds of these classes."""
        return _kinds_of(self.classes)


class Node(Element):
    """A node. Iterating over it yields its child nodes and tokens, in order."""

    __slots__ = ()

    KIND = ""

    def __iter__(self) -> Iterator[Element]:
        return self._children_in(_ALL)

    def _children_in(self, wanted: bytes) -> Iterator[Any]:
        """Yields the children whose kinds are in a set. It repeats Tree._elements, since a generator of their numbers takes longer."""
        tree = self.tree
        kinds, starts, ends, insides, new = tree._kinds, tree._starts, tree._ends, tree._insides, object.__new__
        number, end = self._number + 1, self._subtree_end()
        while number < end:
            if wanted[kind := kinds[number]]:
                element = new(_CLASSES[kind])
                element.tree = tree
                element.start = starts[number]
                element.end = ends[number]
                element._number = number
                yield element
            number += 1 + insides[number]

    @property
    def children(self) -> list[Node]:
        """The child nodes, in order."""
        return list(self._children_in(_NODES))

    @property
    def tokens(self) -> list[Token]:
        """The child tokens, in order."""
        return list(self._children_in(_TOKENS))

    def walk(self) -> Iterator[Element]:
        """Yields the nodes and tokens of the subtree in preorder, from the node itself."""
        return self.tree._elements(range(self._number, self._subtree_end()))

    @overload
    def find(self, wanted: str) -> Iterator[Element]: ...
    @overload
    def find(self, wanted: type[E] | tuple[type[E], ...]) -> Iterator[E]: ...
    def find(self, wanted: str | type[E] | tuple[type[E], ...]) -> Iterator[Element]:
        """Yields the nodes and tokens of the subtree, itself included, that have a kind, a class or one of several classes, in preorder."""
        chosen: Any = wanted
        numbers = range(self._number, self._subtree_end())
        kinds = self.tree._kinds[numbers.start : numbers.stop]
        return self.tree._elements(compress(numbers, kinds.translate(_kinds_of(chosen))))

    def _nth(self, group: Group[T], number: int) -> T | None:
        """The child at an index among those of these classes."""
        found: T | None = next(islice(self._children_in(group.kinds), number, None), None)
        return found

    def _children(self, group: Group[T]) -> list[T]:
        """The children of these classes."""
        return list(self._children_in(group.kinds))

    def _first_token(self, kind: str) -> Token | None:
        """The first child token of a kind."""
        token: Token | None = next(self._children_in(_kinds_of(kind)), None)
        return token

    def _operator(self, signs: dict[str, str]) -> str | None:
        """The operator that the first operator token stands for."""
        return next((signs[token.kind] for token in self.tokens if token.kind in signs), None)

    def _literal(self) -> float | int | str | None:
        """The value of the first number, or the text of the first URI."""
        for kind, read in (("TOKEN_FLOAT", float), ("TOKEN_INTEGER", int), ("TOKEN_URI", str)):
            if (token := self._first_token(kind)) is not None:
                value: float | int | str = read(token.text)
                return value
        return None

    def _path(self) -> str | None:
        """The text of the first path token."""
        return next((token.text for token in self.tokens if token.kind in PATHS), None)


# The class of each kind, by number. rnix.ast registers those of the nodes.
_CLASSES: list[type[Element]] = [Node if name.startswith("NODE_") else Token for name in KINDS]


@functools.lru_cache(maxsize=_ALL_BYTES)
def _kinds_of(wanted: str | type[Element] | tuple[type[Element], ...]) -> bytes:
    """The set of one kind, or of the kinds of one or several classes: for each number of a kind a byte that is 1 if the kind is in it."""
    is_wanted = (name == wanted if isinstance(wanted, str) else issubclass(one, wanted) for name, one in zip(KINDS, _CLASSES))
    return bytes(is_wanted).ljust(_ALL_BYTES, b"\0")


_NODES, _TOKENS, _ALL = _kinds_of(Node), _kinds_of(Token), _kinds_of(Element)


def register(*classes: type[Node]) -> None:
    """Uses each class for the nodes of its kind."""
    for one in classes:
        _CLASSES[KINDS.index(one.KIND)] = one
    _kinds_of.cache_clear()


def parse(text: str | bytes) -> Tree:
    """Returns the tree of a text.

    Every text has a tree, even one with errors. Bytes that are not UTF-8 raise Refused, other types TypeError, and a lack of memory MemoryError.
    """
    return Tree(library.source_of(text))
