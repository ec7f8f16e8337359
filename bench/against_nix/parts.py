"""The sort of texts that rnix update changes in which sets have several parts, entries or operands of `//`, and names may come from them: by `__overrides`, or
by a `with`."""
from . import merged
from .programs import Case
from .update import MORE, Update, given, options_of

NAMES = ["a", "b", "c", "s", "t"]
# Names whose values are sets, so that a `with` can take them.
SETS = ["s", "t"]
# How deep sets are at most.
DEPTH = 4


class Maker(merged.Maker):
    """Makes texts whose values are different strings with their names, or lists with "ref" and a name, which may come from a `with`."""

    def __init__(self, chance):
        super().__init__(chance)
        self.names, self.order = NAMES, chance.sample(NAMES, len(NAMES))
        self.left = chance.choice([2, 4, 8])
        self.paths = []
        # The path of the set that has `__overrides`.
        self.overridden = None
        # Paths that are chosen often: of what is not there yet, but would be found by a `with` or is in another part of its set.
        self.likely = []

    def some(self):
        return self.chance.sample(NAMES, self.chance.choice([0, 1, 1, 2, 2, 3]))

    def spelled(self, name):
        return name if self.odds(0.97) else f'"{name}"'

    def inherited(self, path):
        return []

    def constant(self, name=""):
        self.count += 1
        return [f'"{name}={self.count}"']

    def entry(self, path, depth):
        self.paths.append(path)
        if path[-1] in SETS and (depth >= merged.DEPTH or self.odds(0.5)):
            return [[self.spelled(path[-1]), "=", *self.set(path, depth + 1), ";"]]
        return self.pieces(path, depth + 1) if path[-1] in SETS else super().entry(path, depth)

    def pieces(self, path, depth):
        return self.longer(path, depth) if self.odds(0.2) else super().pieces(path, depth)

    def longer(self, path, depth):
        """An entry with a longer path, and one with a part of the set around it that is written out."""
        name, leaf, other = self.chance.sample(NAMES[:3], 3)
        self.paths.append([*path, name, leaf])
        self.likely.append([*path, name, other])
        names = [it for it in self.some() if it != name]
        return [*self.dotted(path, [[name, ".", leaf, "=", *self.constant(leaf), ";"]]), *self.literal(path, names, depth)]

    def value(self, path, depth):
        self.left -= 1
        if self.left > 0 and depth < merged.DEPTH and self.odds(0.45):
            return self.set(path, depth + 1)
        return self.reference(path) if self.odds(0.5) else self.constant(path[-1])

    def reference(self, path):
        """A list with a name, which may come from a `with`."""
        names = self.later(path)
        if not names:
            return self.constant(path[-1])
        name, sets = self.chance.choice(names), [it for it in names if it in SETS]
        self.used.add(name)
        if not sets or self.odds(0.3):
            return ["[", '"ref"', name, "]"]
        self.used.add(sets[0])
        return self.searching(sets[0], name)

    def searching(self, added, name):
        return ["[", '"ref"', "(", "with", added, ";", name, ")", "]"]

    # Sets

    def braces(self, path, entries):
        """A set that is written out, with `__overrides` in one that is `rec`, sometimes."""
        items = super().braces(path, entries)
        if "rec" not in items[:3] or self.overridden is not None or self.odds(0.85):
            return items
        self.overridden = path
        name = self.chance.choice(NAMES[:3])
        self.paths += [[*path, "__overrides"], [*path, "__overrides", name]]
        own = [name, "=", *self.constant(name), ";"]
        place = items.index("{") + 1
        return [*items[:place], *self.chance.choice([["__overrides", ".", *own], ["__overrides", "=", "{", *own, "}", ";"],
                                                     ["__overrides", "=", "{", "}", ";"]]), *items[place:]]

    def written_set(self, path, depth):
        names = [name for name in self.some() if depth < DEPTH or name not in SETS]
        return self.braces(path, self.entries(path, names, depth))

    def searched_set(self, path, depth):
        """A set with an attribute that uses a name that may come from another set, beside it or around it."""
        added, (user, name) = self.chance.choice(SETS), self.chance.sample(NAMES[:3], 2)
        self.used.add(name)
        entries, use = self.entry([*path, added], depth), [user, "=", *self.searching(added, name), ";"]
        if self.odds(0.2):
            return ["let", *(item for entry in entries for item in entry), "in", "{", *use, "}"]
        self.likely.append([*path, added, name])
        self.paths.append([*path, user])
        return ["rec", "{", *(item for entry in self.mixed([entries, [use]]) for item in entry), "}"]

    def set(self, path, depth):
        """An expression with a set as its value."""
        self.left -= 1
        if self.left <= 0 or depth >= DEPTH:
            return self.written_set(path, depth)
        return self.chance.choice([
            *[lambda: self.written_set(path, depth)] * 3,
            lambda: self.searched_set(path, depth),
            *[lambda: [*self.operand(path, depth), "//", *self.operand(path, depth)]] * 4,
            lambda: ["(", *self.set(path, depth + 1), ")"],
            lambda: self.headed_set(path, depth),
        ])()

    def headed_set(self, path, depth):
        """A set behind something that does not change it."""
        name = self.chance.choice(NAMES[:3])
        entry = [name, "=", *self.constant(name), ";"]
        head = self.chance.choice([["let", *entry, "in"], ["with", "{", *entry, "}", ";"], ["assert", "1", "==", "1", ";"]])
        return [*head, *self.set(path, depth + 1)]

    def operand(self, path, depth):
        """An operand of `//`: a set, any expression in brackets, or a call whose value has none of the names."""
        condition, inside = self.chance.choice(["1", "2"]), lambda: self.set(path, depth + 1)
        return self.chance.choice([
            *[lambda: self.written_set(path, depth)] * 4,
            *[lambda: ["(", *inside(), ")"]] * 2,
            *[lambda: ["(", *self.headed_set(path, depth), ")"]] * 2,
            lambda: ["(", "if", condition, "==", "1", "then", *inside(), "else", *inside(), ")"],
            lambda: MORE,
        ])()

    # Whole texts

    def outer(self, name):
        """The entry of a name around the whole."""
        inner = [item for it in self.some() if it not in SETS for item in [it, "=", *self.constant(it), ";"]]
        return [name, "=", *(["{", *inner, "}"] if name in SETS else self.constant(name)), ";"]

    def text(self):
        items = self.set([], 0)
        self.used = [name for name in NAMES if name in self.used]
        bound = [name for name in self.used if self.odds(0.25)]
        added = [name for name in self.used if name not in bound]
        if bound:
            items = ["let", *(item for name in bound for item in self.outer(name)), "in", *items]
        return ["with", "{", *(item for name in added for item in self.outer(name)), "}", ";", *items] if added else items

    def path(self, is_removed):
        """A path: one that the text has, one below or beside it, or any. What a `with` takes, and `__overrides`, are only removed."""
        if self.likely and self.odds(0.5):
            return self.chance.choice(self.likely)
        path = list(self.chance.choice(self.paths)) if self.paths and self.odds(0.95) else [self.chance.choice(NAMES)]
        if self.odds(0.25):
            path[-1] = self.chance.choice(NAMES)
        if self.odds(0.1) or path[-1] in [*SETS, "__overrides"] and not is_removed:
            path.append(self.chance.choice(NAMES[:3]))
        if not is_removed and "__overrides" in path and path in self.paths:
            # A value that is set there is meant to change the attribute that it replaces.
            path[-1] = self.chance.choice([it for it in NAMES[:3] if [*path[:-1], it] not in self.paths])
        return path


class Parts(Update):
    """The same of texts in which several parts make a set. What an `__overrides` replaces that is there already is not looked at, as docs/DECISIONS.md says."""

    NAME = "update-parts"

    @staticmethod
    def seen(case, text):
        """The text with another name for `__overrides`, unless this is what is changed."""
        return text if "__overrides" in case.path else text.replace("__overrides", "over")

    @staticmethod
    def make(chance):
        maker = Maker(chance)
        text, options = " ".join(maker.text()), options_of(chance)
        path = maker.path("--remove" in options)
        return Case(text, path=path, options=options, **given(options, ".".join(path), chance))
