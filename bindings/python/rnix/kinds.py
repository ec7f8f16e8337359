"""Groups of kinds."""

from __future__ import annotations

# The binary operators, by the kinds of their tokens.
BINARY_OPERATORS: dict[str, str] = {
    "TOKEN_CONCAT": "++",
    "TOKEN_UPDATE": "//",
    "TOKEN_ADD": "+",
    "TOKEN_SUB": "-",
    "TOKEN_MUL": "*",
    "TOKEN_DIV": "/",
    "TOKEN_AND_AND": "&&",
    "TOKEN_EQUAL": "==",
    "TOKEN_IMPLICATION": "->",
    "TOKEN_LESS": "<",
    "TOKEN_LESS_OR_EQ": "<=",
    "TOKEN_MORE": ">",
    "TOKEN_MORE_OR_EQ": ">=",
    "TOKEN_NOT_EQUAL": "!=",
    "TOKEN_OR_OR": "||",
    "TOKEN_PIPE_RIGHT": "|>",
    "TOKEN_PIPE_LEFT": "<|",
}

# The unary operators, by the kinds of their tokens.
UNARY_OPERATORS: dict[str, str] = {
    "TOKEN_INVERT": "!",
    "TOKEN_SUB": "-",
}

TRIVIA = frozenset(("TOKEN_COMMENT", "TOKEN_WHITESPACE"))

PATHS = frozenset(("TOKEN_PATH_ABS", "TOKEN_PATH_REL", "TOKEN_PATH_HOME", "TOKEN_PATH_SEARCH"))
