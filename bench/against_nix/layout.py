"""White space and comments at odd places between the items of a text."""

SPACES = ["", "", " ", " ", " ", " ", "  ", "\n", "\n", "\n  ", "\n\n", "\n\n\n", "\t", " \n", "\r\n", "\n\t  \n", "\r\n  "]
COMMENTS = ["# c\n", "#\n", "/* c */", "/**/", "/* c\n   d */", "/***/", "/* ä */", "# c\r\n", "# '' \" ${ /*\n", "/* # */",
            "# a long comment, so that not much else has room\n"]
CLOSING, OPENING = (")", "]", "}", ";", ","), ("(", "[", "{", ";")


def may_touch(left, right):
    """Whether two items stay what they are without white space between them."""
    return left in OPENING and not right.startswith("}") or right in CLOSING and not left.startswith(("http", "/", "./", "../", "~"))


def joined(items, chance):
    """The items with white space and comments between them."""
    often = chance.choice([0, 0, 0, 0.03, 0.15])
    wide = chance.random() < 0.5
    parts = []
    before = None
    for item in items:
        space = chance.choice(SPACES) if wide else chance.choice(["", " "])
        while chance.random() < often:
            space += chance.choice(COMMENTS) + chance.choice(SPACES)
        if before is not None and not space and not may_touch(before, item):
            space = " "
        parts.append(space + item if before is not None or chance.random() < 0.2 else item)
        before = item
    return "".join(parts) + (chance.choice(SPACES) if wide else "")
