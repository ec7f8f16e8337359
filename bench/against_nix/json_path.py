"""The sort of texts of which rnix json prints the part at a path."""
import re

from . import merged
from .data import MAY_REFUSE, alike, data_of
from .evaluate import Failure, evaluate
from .expressions import escaped, is_identifier
from .programs import Case, Difference, value_shown
from .values import shown_text

NAMES = ["a", "b", "c", "d", "a b", "0", "or"]
# Names of which rnix json knows the value, as long as nothing binds them.
CONSTANTS = ["true", "null", "__overrides"]
DATA = ["1", "-1", "1.5", '"a"', "''a''", "null", "true", "false", "[ ]", "{ }", "(2)", "[ true 1 ]", "a:b"]
BRACES = [["{", "}"]] * 14 + [["rec", "{", "}"]] * 2 + [["(", "{", "}", ")"], ["(", "(", "rec", "{", "}", ")", ")"]]
# Values that are not data. None fails before it is needed.
JUNK = ["(q: q)", 'builtins.abort "no"', "builtins.head [ 1 ]", "rec { q = 1; }", "(let q = 1; in q)", "1 + 1", "{ q = builtins.nixVersion; }", "[ (q: q) ]"]
# Selects in what a text is. Functions get arguments on the way, as from `nix-instantiate -A`.
SELECT = """
let
  __call = v: if builtins.isFunction v then __call (v (builtins.mapAttrs (_: _: "argument") (builtins.functionArgs v))) else v;
  __inside = v: n: if builtins.isList v then builtins.elemAt v n.index else v.${n.name};
in builtins.foldl' (v: n: __inside (__call v) n) (@text@
) [ @path@ ]
"""
MAY_REFUSE_PATH = re.compile(MAY_REFUSE.pattern + "|names here could have another meaning|only sets can be merged by")


class Maker(merged.Pieces):
    """Makes sets in pieces, some of them inside functions, bindings and operations, with values that are data, most of the time."""

    def __init__(self, chance):
        super().__init__(chance, chance.sample(NAMES, 4) + chance.sample(CONSTANTS, chance.choice([0, 0, 0, 0, 0, 1])))
        self.junk = chance.choice([0, 0.1, 0.3])
        self.left = chance.choice([0, 3, 8])
        self.paths = []

    def entry(self, path, depth):
        self.paths.append(path)
        return super().entry(path, depth)

    def inherited(self, path):
        if self.odds(0.97):
            return []
        name = '"' + escaped(path[-1]) + '"'
        return [["inherit", "(", "{", name, "=", "1", ";", "}", ")", name, ";"]]

    def value(self, path, depth):
        self.left -= 1
        if self.odds(self.junk):
            return [self.chance.choice(JUNK)]
        if self.left < 0 or depth >= merged.DEPTH:
            return [self.chance.choice(DATA)]
        return self.chance.choice([self.data, self.list, self.inner, self.inner])(path, depth)

    def data(self, path, depth):
        return [self.chance.choice(DATA)]

    def list(self, path, depth):
        items = []
        for index in range(self.chance.randrange(4)):
            self.paths.append([*path, index])
            items += ["(", *self.value([*path, index], depth + 1), ")"]
        return ["[", *items, "]"]

    def braces(self, path, entries):
        items = self.chance.choice(BRACES)
        place = items.index("}")
        return [*items[:place], *(item for entry in entries for item in entry), *items[place:]]

    def inner(self, path, depth):
        """A set that is written out, with something around it."""
        return self.around(self.braces(path, self.entries(path, self.some(), depth + 1)), path, depth)

    def around(self, items, path, depth, is_operand=False):
        """An expression with a function, bindings, an operation or parentheses around it."""
        if self.odds(0.5):
            return items
        bound = [self.chance.choice(["q"] * 30 + CONSTANTS), "=", self.chance.choice(JUNK), ";"]
        ways = [lambda: ["let", *bound, "in", *items], lambda: ["with", "{", *bound, "}", ";", *items], lambda: ["assert", "1 == 1", ";", *items],
                lambda: ["(", *items, ")"], lambda: self.update(items, path, depth), lambda: self.update(items, path, depth)]
        if not is_operand:
            parameter = self.chance.choice(["q", "{ q ? true, ... }", "q@{ ... }"] * 8 + ["{ true ? 1 }", "null", "{ ... }@false"])
            ways += [lambda: [parameter, ":", *items]] * 2
        return self.around(self.chance.choice(ways)(), path, depth, is_operand)

    def update(self, items, path, depth):
        """Such an operand of `//`, and another one."""
        before = self.paths
        other = self.chance.choice([lambda: self.braces(path, self.entries(path, self.some(), depth + 1)), lambda: ["{", "}"],
                                    lambda: ["(", "q:", "q", ")", "{", "}"]])()
        self.paths = before
        if items[0] != "{":
            # A function is no operand.
            items = self.braces(path, self.entries(path, self.some(), depth + 1))
        parts = [["(", *self.around(it, path, depth, True), ")"] for it in (items, other)]
        self.chance.shuffle(parts)
        return [*parts[0], "//", *parts[1]]

    def spelled(self, name):
        if not is_identifier(name) and name != "or":
            return self.chance.choice(['"' + escaped(name) + '"'] * 9 + ["${" + '"' + escaped(name) + '"' + "}"])
        return super().spelled(name) if self.odds(0.99) else "${" + f'"{name}" + ""' + "}"

    def path(self):
        """A path of the text, or another one."""
        path = self.chance.choice(self.paths) if self.paths and self.odds(0.9) else [self.chance.choice(self.names)]
        return [*path, self.chance.choice(self.names + [0, 1])] if self.odds(0.1) else path[: self.chance.randrange(1, len(path) + 1)]

    def case(self):
        entries = self.entries([], self.some(), 0)
        path = self.path()
        if self.odds(0.15):
            # Some of the path is defined again, or more of it is defined.
            again = [it for it in path[: self.chance.randrange(1, len(path) + 1)] if isinstance(it, str)] or ["a"]
            names = [it for name in again for it in (".", self.spelled(name))][1:]
            entries.insert(self.chance.randrange(len(entries) + 1), [*names, "=", self.chance.choice(["1", "{ }", "{ new = 2; }", "rec { new = 3; }"]), ";"])
        return Case(" ".join(self.around(self.braces([], entries), [], 0)), path=path, written=self.written(path))

    def written(self, path):
        """A path as an argument of rnix json."""
        return ".".join(str(name) if isinstance(name, int) or self.odds(0.7) and "." not in name and name != "0" else '"' + escaped(name) + '"' for name in path)


def selecting(case):
    """The Nix that selects the part of a text at the path."""
    names = [f'{{ name = "{escaped(str(name))}"; index = {name if isinstance(name, int) else -1}; }}' for name in case.path]
    return SELECT.replace("@path@", " ".join(names)).replace("@text@", case.text)


def part(data, path):
    """The part of data at a path, and whether there is one."""
    for name in path:
        if isinstance(data, dict) and str(name) in data:
            data = data[str(name)]
        elif isinstance(data, list) and isinstance(name, int) and name < len(data):
            data = data[name]
        else:
            return None, False
    return data, True


class JsonPath:
    """What rnix json prints of a text at a path is what Nix selects. It is refused only where something on the way, or in it, has to be evaluated. Where the
    whole text is data, it is the part of these."""

    NAME = "json-path"

    @staticmethod
    def make(chance):
        return Maker(chance).case()

    @staticmethod
    def judge(programs, folder, cases):
        values = evaluate(folder, [selecting(it) for it in cases])
        found = programs.run_all("json", [(["-", it.written], it.text) for it in cases])
        whole = programs.run_all("json", [([], it.text) for it in cases])
        return [JsonPath.verdict(*them) for them in zip(cases, found, whole, values)]

    @staticmethod
    def verdict(case, ran, whole, value):
        words = JsonPath.words(case, ran, value) or JsonPath.wrong_part(case, ran, whole)
        shown = [f"$ rnix json - '{case.written}'", *shown_text(ran.out), f"{ran}", f"Nix says: {value_shown(value)}"]
        return Difference(words, *shown) if words else None

    @staticmethod
    def words(case, ran, value):
        if ran.status == 0:
            if isinstance(value, Failure):
                return None if JsonPath.is_elsewhere(case, value.said) else value.kind()
            return None if alike(data_of(ran.out), value) else "other data"
        if ran.status != 1:
            return f"status {ran.status}"
        if isinstance(value, Failure) or MAY_REFUSE_PATH.search(ran.said):
            return None
        return "it is refused: " + re.sub(r'".*?"', "..", ran.said.split("\n")[0])[-60:]

    @staticmethod
    def is_elsewhere(case, said):
        """Whether Nix may refuse a text for what is not selected: a name that is computed there, `__overrides` that are no set, or a left operand of `//`."""
        return said.startswith("dynamic attribute") or "__overrides" in case.text and "expected" in said or "//" in case.text and "already defined" in said

    @staticmethod
    def wrong_part(case, ran, whole):
        """What is wrong where the whole text is data."""
        if whole.status != 0:
            return None
        wanted, is_there = part(data_of(whole.out), case.path)
        if not is_there:
            return None if "nothing has the path" in ran.said else "the data of the whole text have no such part"
        return None if ran.status == 0 and data_of(ran.out) == wanted else "the data of the whole text have another part"
