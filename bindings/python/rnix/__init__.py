"""A lossless parser for the Nix language: `parse(text)` returns a tree that keeps every byte of the text, and a list of errors.

    >>> import rnix
    >>> tree = rnix.parse("let a = 1; in a")
    >>> tree.errors
    []
    >>> match tree.root.expr:
    ...     case rnix.ast.LetIn(body=body):
    ...         print(body)
    a

Ranges are half-open, in bytes of the UTF-8 text. Trees are immutable, so threads may share them.
"""

from rnix import ast
from rnix.edits import EditError, Edits
from rnix.errors import ParseError
from rnix.formatting import FormatError, formatted
from rnix.library import KINDS, Refused
from rnix.messages import Diagnostic, Fix, Note, diagnostics, fix
from rnix.scopes import Binding, Reference, Resolution, resolve
from rnix.strings import parts, path_parts, value
from rnix.tokenizer import Lexeme, tokenize
from rnix.tree import Element, Node, Token, Tree, parse

__all__ = [
    "KINDS",
    "Binding",
    "Diagnostic",
    "EditError",
    "Edits",
    "Element",
    "Fix",
    "FormatError",
    "Lexeme",
    "Node",
    "Note",
    "ParseError",
    "Reference",
    "Refused",
    "Resolution",
    "Token",
    "Tree",
    "ast",
    "diagnostics",
    "fix",
    "formatted",
    "parse",
    "parts",
    "path_parts",
    "resolve",
    "tokenize",
    "value",
]
