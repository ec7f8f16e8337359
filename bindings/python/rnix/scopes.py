"""The names that a text binds, and the bindings that its names refer to."""

from __future__ import annotations

from dataclasses import dataclass

from rnix import library
from rnix.library import LIBRARY, NO_NUMBER
from rnix.tree import Node, Tree


@dataclass(frozen=True)
class Binding:
    """A name that a scope binds: a `let`, a `rec` set or a function."""

    name: Node
    """The identifier, string or `${}` that writes the name."""
    scope: Node
    """The node in which the name is visible."""
    first: int
    """The index of the first binding of this name in this scope: its own, unless a set is written in parts."""


@dataclass(frozen=True)
class Reference:
    """A name that refers to a binding."""

    name: Node
    """The identifier, string or `${}` that writes the name."""
    binding: int | None
    """The index of the binding in the innermost scope that binds the name, or None if no scope does."""
    is_inherited: bool
    """Whether it is a name of an `inherit` without a source."""
    is_open: bool
    """Whether it has no binding and is in the body of a `with`, and Nix itself does not bind it."""


@dataclass(frozen=True)
class Resolution:
    """The bindings of a text, in the order of their scopes, and its references, in the order of the text."""

    bindings: list[Binding]
    references: list[Reference]

    def uses(self, binding: int) -> list[Reference]:
        """Returns the references to the binding of an index."""
        return [reference for reference in self.references if reference.binding == binding]


def resolve(tree: Tree) -> Resolution:
    """Returns the bindings and references of a text."""
    source = tree.source
    bindings, binding_count, references, reference_count = library.listed_twice(
        library.Binding,
        library.Reference,
        lambda *rooms: LIBRARY.rnix_names_again(source, len(source), *tree._kept, *rooms),
        (len(source) // 4 + 8, len(source) // 2 + 8),
    )
    return Resolution(
        [
            Binding(
                tree._node_at(one.kind, one.start, one.end),
                tree._node_at(one.scope_kind, one.scope_start, one.scope_end),
                one.first,
            )
            for one in bindings[:binding_count]
        ],
        [
            Reference(
                tree._node_at(one.kind, one.start, one.end),
                None if one.binding == NO_NUMBER else one.binding,
                bool(one.is_inherited),
                bool(one.is_open),
            )
            for one in references[:reference_count]
        ],
    )
