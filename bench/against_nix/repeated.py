"""Random texts of sets and `let`s whose entries often define an attribute again."""

NAMES = ["a", "b", "c"]


class Maker:
    """Makes entries whose names are few, so that many of them meet."""

    def __init__(self, chance):
        self.chance = chance
        # Whether names may be computed, which Nix does not take in `let` and `inherit`.
        self.is_computed = chance.random() < 0.5

    def written(self, name):
        """A name in one of the ways in which it can be written."""
        return self.chance.choice([name] * 6 + [f'"{name}"', f'${{"{name}"}}', f'${{("{name}")}}', f"${{''{name}''}}", f'"{name}\\n"', f'${{"{name}\\n"}}'])

    def name(self, is_first=False):
        if self.is_computed and not is_first and self.chance.random() < 0.15:
            return self.chance.choice(["${x}", '"${x}"', '"a${x}"', '${"a" + x}'])
        return self.written(self.chance.choice(NAMES + ["or"] * (self.chance.random() < 0.1)))

    def entries(self, depth, in_let=False):
        return " ".join(self.entry(depth, in_let) for _ in range(self.chance.choice([1, 2, 2, 3])))

    def entry(self, depth, in_let):
        if self.chance.random() < 0.15:
            names = " ".join(self.written(self.chance.choice(NAMES)) for _ in range(self.chance.choice([1, 2])))
            return f"inherit {self.chance.choice(['', '(x) '])}{names};"
        path = [self.name(in_let), *(self.name() for _ in range(self.chance.choice([0, 0, 0, 1, 1, 2])))]
        return f"{'.'.join(path)} = {self.value(depth)};"

    def value(self, depth):
        if depth == 0 or self.chance.random() < 0.45:
            return self.chance.choice(["1", "x", "[ ]", "{ }.x", "x: { }", "({ })", "rec { }", "{ }"])
        inner = self.entries(depth - 1)
        form = self.chance.choice(["{ %s }", "{ %s }", "{ %s }", "rec { %s }", "({ %s })", "((rec { %s }))", "({ %s } // { })", "[ { %s } ]", "let { %s }",
                                   "let %s in 1", "x: { %s }", "{ %s }.x"])
        return form.replace("%s", self.entries(depth - 1, True) if "let %s" in form else inner)

    def text(self):
        form = self.chance.choice(["{ %s }", "rec { %s }", "let { %s }", "let %s in 1", "({ %s })", "[ { %s } ]"])
        return "a: b: c: x: " + form.replace("%s", self.entries(3, "let %s" in form))


def repeated(chance):
    return Maker(chance).text()
