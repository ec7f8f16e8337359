"""Random texts of sets that several entries make. Values use names of several scopes, so that they show to which scope a name belongs."""

NAMES = ["a", "b", "c", "d", "e", "f", "x", "y"]
# Names that Nix binds itself, so that they never come from a `with`.
KNOWN = ["map", "toString", "null", "true"]
BRACES = [["{", "}"]] * 4 + [["rec", "{", "}"]] * 6 + [["(", "{", "}", ")"], ["(", "rec", "{", "}", ")"], ["(", "(", "rec", "{", "}", ")", ")"]]
DEPTH = 3


class Pieces:
    """Makes the entries of sets, as lists of items. A set has one entry or several: sets that are written out, and attribute paths."""

    def __init__(self, chance, names):
        self.chance = chance
        self.names = names
        # The names of the innermost set in pieces.
        self.near = []

    def odds(self, part):
        return self.chance.random() < part

    def some(self):
        return self.chance.sample(self.names, min(len(self.names), self.chance.choice([1, 1, 2, 2, 3])))

    def mixed(self, groups):
        """The entries of several groups in any order, in which those of one group keep theirs."""
        order = [number for number, group in enumerate(groups) for _ in group]
        self.chance.shuffle(order)
        waiting = [iter(group) for group in groups]
        return [next(waiting[number]) for number in order]

    def entries(self, path, names, depth):
        """The entries of some names of the set at a path."""
        return self.mixed([self.inherited([*path, name]) or self.entry([*path, name], depth) for name in names])

    def entry(self, path, depth):
        """The entries that make the attribute at a path, as they are in the set around it."""
        if depth < DEPTH and self.odds(0.7 if depth == 0 else 0.3):
            return self.pieces(path, depth + 1)
        return [[self.spelled(path[-1]), "=", *self.value(path, depth), ";"]]

    def pieces(self, path, depth):
        """The entries of a set in pieces."""
        names, before = self.some(), self.near
        parts = {}
        for name in names:
            parts.setdefault(self.chance.choice([0, 1, 1, 2]), []).append(name)
        self.near = names
        groups = [self.dotted(path, self.entry([*path, name], depth)) for name in parts.pop(0, [])]
        groups += [self.literal(path, part, depth) for part in parts.values()]
        self.near = before
        if not groups or self.odds(0.2):
            groups.append(self.literal(path, [], depth))
        return self.mixed(groups)

    def dotted(self, path, entries):
        return [[self.spelled(path[-1]), ".", *entry] for entry in entries]

    def literal(self, path, names, depth):
        """The entry with a set that is written out, and entries behind it that add to the sets in it."""
        inside, behind = [], []
        self.near = names or self.near
        for name in names:
            entries = self.inherited([*path, name]) or self.entry([*path, name], depth)
            kept = self.chance.randrange(1, len(entries)) if len(entries) > 1 and self.odds(0.3) else len(entries)
            inside.append(entries[:kept])
            behind += self.dotted(path, entries[kept:])
        return [[self.spelled(path[-1]), "=", *self.braces(path, self.mixed(inside)), ";"], *behind]

    def braces(self, path, entries):
        """A set with these entries, with `rec` or without, perhaps in parentheses."""
        items = self.chance.choice(BRACES)
        place = items.index("}")
        return [*items[:place], *(item for entry in entries for item in entry), *items[place:]]

    def inherited(self, path):
        """The entry that inherits a name, where one does."""
        return []

    def spelled(self, name):
        if self.odds(0.94):
            return name
        return self.chance.choice([f'"{name}"', f'${{"{name}"}}', f'${{("{name}")}}'])


class Maker(Pieces):
    """Makes texts whose values are different numbers and uses of names. A value uses only names that come later in an order of the names than those to which
    it belongs, so that none needs itself."""

    def __init__(self, chance):
        super().__init__(chance, chance.sample(NAMES, 6) + chance.sample(KNOWN, chance.choice([0, 0, 1])))
        self.order = chance.sample(self.names, len(self.names))
        self.left = chance.choice([0, 3, 6, 12])
        self.count = 0
        # The names that have to be bound around what is made already, and whether this is the last to be made, so that nothing else binds names.
        self.used = set()
        self.is_last = False

    def some(self):
        """Some names, the first ones of the order more often, so that others come later."""
        drawn = [self.order[min(self.chance.randrange(len(self.order)) for _ in range(2))] for _ in range(self.chance.choice([1, 3, 3, 4]))]
        return list(dict.fromkeys(drawn))

    def later(self, path):
        return self.order[max((self.order.index(name) + 1 for name in path), default=0) :]

    def constant(self):
        self.count += 1
        return [str(self.count)]

    def use(self, path):
        names = self.later(path)
        if not names:
            return self.constant()
        name = self.chance.choice([it for it in self.near if it in names and self.odds(0.8)] or names)
        self.used.add(name)
        return [name]

    def inherited(self, path):
        if self.is_last or path[-1] not in self.later(path[:-1]) or self.odds(0.85):
            return []
        if self.odds(0.2):
            return [["inherit", "(", "{", path[-1], "=", *self.use(path), ";", "}", ")", path[-1], ";"]]
        self.used.add(path[-1])
        return [["inherit", self.spelled(path[-1]), ";"]]

    def value(self, path, depth):
        self.left -= 1
        if self.is_last:
            return self.constant()
        simple = [self.constant, lambda: self.use(path), lambda: self.use(path), lambda: self.use(path), lambda: self.uses(path)]
        more = [lambda: self.let(path, self.uses(path)), lambda: self.added(path, self.uses(path)), lambda: self.call(path, self.uses(path)),
                lambda: self.selected(path)]
        return self.chance.choice(simple + more if self.left > 0 and depth < DEPTH else simple)()

    def uses(self, path):
        return ["[", *(item for _ in range(self.chance.choice([1, 2])) for item in self.use(path)), "]"]

    # Bindings around an expression. The names are those that it may use.

    def bound(self, path):
        """Names to bind, of those that values at a path may use."""
        names = self.later(path) or self.names
        return self.chance.sample(names, min(len(names), self.chance.choice([1, 2])))

    def written(self, path, names):
        return [item for entry in self.entries(path, names, DEPTH - 1) for item in entry]

    def let(self, path, items, names=None):
        return ["let", *self.written(path, names or self.bound(path)), "in", *items]

    def added(self, path, items, names=None):
        return ["with", *self.chance.choice([["rec"], []]), "{", *self.written(path, names or self.bound(path)), "}", ";", *items]

    def call(self, path, items, names=None):
        names = names or self.bound(path)
        if len(names) == 1 and self.odds(0.5):
            return ["(", names[0], ":", *items, ")", *self.constant()]
        has_default = {name: self.odds(0.4) for name in names}
        parameters = [item for name in names for item in [",", name, *(["?", *self.constant()] if has_default[name] else [])]][1:]
        passed = [item for name in names if not has_default[name] for item in [name, "=", *self.constant(), ";"]]
        return ["(", "{", *parameters, "}", ":", *items, ")", "{", *passed, "}"]

    def selected(self, path):
        names = self.bound(path)
        return ["rec", "{", *self.written(path, names), "}", ".", self.chance.choice(names)]

    # Whole texts

    def body(self):
        self.left -= 1
        items = [item for entry in self.entries([], self.some(), 0) for item in entry]
        return self.chance.choice([
            *[lambda: ["{", *items, "}"]] * 5,
            *[lambda: ["rec", "{", *items, "}"]] * 3,
            *[lambda: ["let", *items, "in", *self.uses([])]] * 3,
            lambda: ["let", "{", *items, "body", "=", *self.uses([]), ";", "}"],
        ])()

    def surrounded(self, items, names):
        """An expression with bindings of names around it."""
        self.used -= set(names)
        way = self.chance.choice([*[self.let] * 5, self.added, self.call])
        return way([], items, names)

    def text(self):
        items = self.body()
        for _ in range(self.chance.choice([0, 0, 1, 2])):
            names = [name for name in self.order if name in self.used and self.odds(0.6)]
            items = self.surrounded(items, names) if names else items
        self.is_last = True
        names = [name for name in self.order if name in self.used and (name not in KNOWN or self.odds(0.3))]
        return self.surrounded(items, names) if names else items


def text(chance):
    """A text that Nix evaluates, most of the time."""
    return " ".join(Maker(chance).text())
