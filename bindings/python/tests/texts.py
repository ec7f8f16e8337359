"""Prints what the package says of each text of a list, as `bindings/c/texts.c` does. Usage: texts.py < LIST"""

import sys

import rnix


def texts(data):
    """Yields each text of a list."""
    at = 0
    while at < len(data):
        start = data.index(b"\n", at) + 1
        at = start + int(data[at:start]) + 1
        yield data[start : at - 1]


def lines(text):
    """Yields what is said of a text."""
    yield f"text {len(text)}\n"
    for token in rnix.tokenize(text):
        yield f"token {token.kind} {token.end - token.start}\n"
    tree = rnix.parse(text)
    for error in tree.errors:
        yield f"error {error}\n"
        yield from (f"wanted {kind}\n" for kind in error.wanted)
    strings = []
    numbers = {None: -1}
    for number, element in enumerate(tree.root.walk()):
        numbers[element] = number
        name = "node" if isinstance(element, rnix.Node) else "leaf"
        yield f"{name} {element.kind} {element.start}..{element.end} in {numbers[element.parent]}\n"
        if isinstance(element, rnix.ast.Str):
            strings.append((number, element))
    for number, string in strings:
        for part in rnix.parts(string):
            if isinstance(part, str):
                yield f"string {number} literal {len(part.encode())}\n{part}\n"
            else:
                yield f"string {number} interpolation {part.start}..{part.end}\n"


def main():
    """Prints the lines of each text."""
    for text in texts(sys.stdin.buffer.read()):
        sys.stdout.buffer.write("".join(lines(text)).encode())


main()
