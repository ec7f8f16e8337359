"""Random texts that Nix evaluates, of all forms of the language."""
import re

from .layout import joined

NAMES = ["a", "b", "c", "d", "e", "x", "y", "a'", "b-c", "_a", "_", "body", "self", "pkgs", "lib", "toString", "map", "null'", "inherit_", "x1"]
# Names that operators look up, and those that every text knows.
OPERATORS = {"__sub": "int", "__mul": "int", "__div": "int", "__lessThan": "bool", "__findFile": "str"}
GLOBALS = ["builtins", "toString", "map", "true", "false", "null", "import", "throw", "__nixPath", *OPERATORS]
OTHER_NAMES = ["a b", "a.b", "", "1", "if", "or", "a\n", "${", "$", '"', "ä", "\\", "in", "true"]
KINDS = ["int", "int", "int", "str", "str", "str", "bool", "list", "set", "set", "float", "null", "path"]
IDENTIFIER = re.compile(r"[A-Za-z_][A-Za-z0-9_'-]*")
KEYWORDS = {"if", "then", "else", "assert", "with", "let", "in", "rec", "inherit", "or"}


def is_identifier(name):
    return IDENTIFIER.fullmatch(name) is not None and name not in KEYWORDS


def escaped(text):
    """The text between `"`."""
    return text.replace("\\", "\\\\").replace('"', '\\"').replace("${", "\\${")


class Scope:
    """The names that an expression may use, with their kinds: what is bound around it, and what a `with` adds."""

    def __init__(self, bound=None, added=None):
        self.bound = dict.fromkeys(GLOBALS, "global") if bound is None else bound
        self.added = added or {}

    def without(self, names):
        return Scope({name: kind for name, kind in self.bound.items() if name not in names} | dict.fromkeys(names), self.added)

    def binding(self, names):
        return Scope(self.bound | names, self.added)

    def adding(self, names):
        return Scope(self.bound, self.added | names)

    def names(self):
        return {name: kind for name, kind in (self.added | self.bound).items() if kind not in (None, "global") and is_identifier(name)}

    def is_global(self, name):
        return self.bound.get(name) == "global"


# Parts of strings in two quotes, and those behind which blanks might count as indentation.
INDENTED = ["text", "text ", " ", "  ", "    ", "\t", "\n", "\n", "\n", "\n  ", "\n    ", "\n      ", "\n\t", "\n \t", "\n\n", "\n   \n", "''\\n", "''$",
            "''${", "'''", "$$",
            "$", "\\", "\\n", '"', "ä", "#", "/*", "' ", "\r\n", "\r", "x"]
BEFORE_BLANKS = ["''\\n", "''\\n ", "''\\n  x", "''\\t", "''\\r", "''\\\\", "''\\\n", "''\\\n  ", "''\\\n  x", "''\\ ", "''\\ x", "''\\\t", "''\\x", "''\\${",
                 "''\\'"]


class Exact(dict):
    """The kind of a set that has these names and no others."""


def fits(kind, wanted):
    """Whether a value of a kind has the wanted one. A set has at least the wanted names."""
    if isinstance(wanted, dict):
        return isinstance(kind, dict) and all(name in kind and fits(kind[name], it) for name, it in wanted.items())
    return kind == wanted


class Maker:
    """Makes an expression of a wanted kind as a list of items, each a token or a whole string or path."""

    def __init__(self, chance, left=None):
        self.chance = chance
        self.left = chance.choice([4, 10, 25, 60]) if left is None else left
        self.is_odd = chance.random() < 0.5

    def pick(self, *ways):
        return self.chance.choice(ways)()

    def odds(self, part):
        return self.chance.random() < part

    def kind(self, depth=0):
        kind = self.chance.choice(KINDS)
        if kind == "set":
            return {self.attr_name(): self.kind(depth + 1) for _ in range(self.chance.randrange(4 if depth < 2 else 1))}
        return kind

    def name(self):
        if self.odds(0.04):
            return self.chance.choice(list(OPERATORS))
        return self.chance.choice(NAMES if self.is_odd else NAMES[:6])

    def attr_name(self):
        return self.chance.choice(OTHER_NAMES) if self.is_odd and self.odds(0.12) else self.name()

    # Names as they are written

    def spelled(self, name):
        """An attribute's name as it is written where it is known before evaluation."""
        quoted = '"' + escaped(name) + '"'
        if name == "or" and self.odds(0.7) or is_identifier(name) and self.odds(0.8):
            return name
        # A letter behind a backslash is itself, but for three.
        if name[:1].isalpha() and name[0] not in "nrt" and self.odds(0.2):
            quoted = '"\\' + escaped(name) + '"'
        if self.odds(0.6):
            return quoted
        inner = quoted if self.odds(0.8) or not name.isalpha() else self.chance.choice(["''", "''\n  "]) + name + "''"
        return "${" + (inner if self.odds(0.8) else f"({inner})") + "}"

    def computed(self, name):
        """An attribute's name that is computed."""
        return "${" + self.inner(['"' + escaped(name) + '"', "+", '""']) + "}"

    def selected(self, name):
        return self.computed(name) if self.odds(0.05) else self.spelled(name)

    def inner(self, items):
        return joined(items, self.chance) if self.odds(0.5) else " ".join(items)

    # Strings

    def interpolation(self, scope):
        self.left -= 1
        return "${" + self.inner(self.expression("str", scope)) + "}"

    def quoted(self, scope):
        plain = ["text", " ", "\\n", "\\t", "\\r", '\\"', "\\\\", "\\$", "\\${", "$$", "$", "\\a", "''", "ä", "\n", "\n  ", "\t", "#", "/*", "𝔸", "'"]
        parts = [self.interpolation(scope) if self.left > 0 and self.odds(0.2) else self.chance.choice(plain) for _ in range(self.chance.randrange(5))]
        return '"' + "".join(parts) + '"'

    def indented(self, scope):
        """A string in two quotes, with escapes and blanks at odd places."""
        plain = INDENTED + BEFORE_BLANKS if self.odds(0.4) else INDENTED
        part = lambda: self.interpolation(scope) if self.left > 0 and self.odds(0.2) else self.chance.choice(plain)
        if self.odds(0.4):
            text = self.lines(part)
        else:
            start = self.chance.choice(["", "", "\n", "\n", "\n  ", "  \n", " "])
            text = start + "".join(part() for _ in range(self.chance.choice([1, 3, 6, 12]))) + self.chance.choice(["", "", "\n", "\n  ", "\n    ", " "])
        return "''" + text.rstrip("$") + "''"

    def lines(self, part):
        """Lines that are indented, as most strings in two quotes have them."""
        least = " " * self.chance.choice([0, 1, 2, 4, 6])
        ends = self.chance.choice(["\n", "\n", "\n", "\r\n"])
        lines = []
        for _ in range(self.chance.randrange(1, 6)):
            blanks = self.chance.choice(["", "", "", " ", "  ", "\t", "    "])
            content = "".join(part().replace("\n", " ") if self.odds(0.7) else part() for _ in range(self.chance.randrange(4)))
            lines.append(self.chance.choice([least + blanks + content] * 6 + ["", blanks]))
        return ends.join(["", *lines, self.chance.choice([least, "", " ", "  x"])])

    def string(self, scope):
        if scope.bound.get("__findFile") == "operator" and scope.is_global("__nixPath") and self.odds(0.5):
            return ["<a/b>"]
        return [self.indented(scope) if self.odds(0.45) else self.quoted(scope)]

    # Values that are written out

    def literal(self, kind, scope):
        if isinstance(kind, dict):
            return self.set(kind, scope)
        return {
            "int": lambda: [str(self.chance.choice([0, 1, 2, 3, 7, 10, 1234567890123]))],
            "float": lambda: [self.chance.choice(["1.5", ".5", "2.", "1.0e3", "0.25", "1.5E-3", "3.e2"])],
            "str": lambda: ["https://a.b/c?d=e"] if self.odds(0.03) else self.string(scope),
            "bool": lambda: [self.chance.choice(["true", "false"])] if scope.is_global("true") and scope.is_global("false") else ["(", "1", "==", "1", ")"],
            "null": lambda: ["null"] if scope.is_global("null") else ["(", "1", "==", "2", ")"],
            "list": lambda: self.list(scope),
            "path": lambda: [self.path(scope)],
            "function": lambda: ["(", *self.function(scope), ")"],
        }[kind]()

    def path(self, scope):
        end = self.chance.choice(["", "", "", "", '${"b"}', '-${"c"}/d', "/e"])
        return self.chance.choice(["./a", "./a.nix", "/a/b", "../c", "~/d", "a/b", "./-x"]) + end

    def function(self, scope):
        name = self.name()
        return [name, ":", *self.expression("int", scope.binding({name: None}))]

    def list(self, scope):
        self.left -= 1
        kinds = KINDS if self.left > 0 else ["int", "str"]
        missing = ["<a>"] if self.is_odd and self.odds(0.03) else []
        return ["[", *missing, *(item for _ in range(self.chance.randrange(4)) for item in self.simple(self.some_kind(kinds), scope)), "]"]

    def some_kind(self, kinds):
        kind = self.chance.choice(kinds)
        return {} if kind == "set" else kind

    def operator_value(self, name):
        """A value for a name that an operator looks up: a function of two operands."""
        result = {
            "int": self.chance.choice(["l", "r", "7"]),
            "bool": self.chance.choice(["true", "false", "l == r"]),
            "str": "r",
        }[OPERATORS[name]]
        return ["l", ":", "r", ":", *result.split()]

    # Sets and `let`

    def extended(self, name, kind, scope):
        """The entries that bind a name to a set: one, or several that share it."""
        names = list(kind)
        if not names or self.odds(0.5):
            return [[self.spelled(name), "=", *self.expression(kind, scope), ";"]]
        cut = self.chance.randrange(len(names) + 1) if self.odds(0.4) else 0
        entries = []
        if cut:
            entries.append([self.spelled(name), "=", *self.plain_set({it: kind[it] for it in names[:cut]}, scope), ";"])
        for it in names[cut:]:
            for rest in self.extended(it, kind[it], scope) if isinstance(kind[it], dict) else [[self.spelled(it), "=", *self.expression(kind[it], scope), ";"]]:
                entries.append([self.spelled(name), ".", *rest])
        return entries

    def plain_set(self, kind, scope):
        """A set that is written out, without brackets around it."""
        entries = [it for name, own in kind.items() for it in self.entry(name, own, scope)]
        self.chance.shuffle(entries)
        return ["{", *(item for entry in entries for item in entry), "}"]

    def entry(self, name, kind, scope):
        """The entries that bind a name to a value of a kind."""
        if is_identifier(name) and self.odds(0.35):
            if name in scope.names() and fits(scope.names()[name], kind):
                return [["inherit", name if self.odds(0.8) else self.quoted_name(name), ";"]]
            if self.left > 0 and self.odds(0.3):
                return [["inherit", "(", *self.expression({name: kind}, scope), ")", name, ";"]]
        if isinstance(kind, dict):
            return self.extended(name, kind, scope)
        return [[self.spelled(name), "=", *self.expression(kind, scope), ";"]]

    def quoted_name(self, name):
        return self.chance.choice(['"' + name + '"', '${"' + name + '"}'])

    def set(self, kind, scope):
        self.left -= 1
        may_have_more = self.left > 0 and not isinstance(kind, Exact)
        more = {self.attr_name(): self.kind(2) for _ in range(self.chance.randrange(2))} if may_have_more else {}
        kinds = kind | {name: own for name, own in more.items() if name not in kind}
        if self.odds(0.25):
            return ["rec", "{", *self.bindings(kinds, scope)[0], "}"]
        items = self.plain_set(kinds, scope)
        if may_have_more and self.is_odd and self.odds(0.1) and "computed" not in kinds:
            items = [*items[:-1], self.computed("computed"), "=", "1", ";", "}"]
        return items

    def bindings(self, kinds, outer):
        """The entries of a `let` or a set with `rec`, in any order, and the scope inside. Each value uses only names that come before it."""
        scope = outer.without(kinds)
        entries = []
        for name in self.chance.sample(list(kinds), len(kinds)):
            kind = kinds[name]
            if name in OPERATORS and kind == "operator":
                if scope.is_global("true"):
                    entries.append([name, "=", *self.operator_value(name), ";"])
                    scope = scope.binding({name: "operator"})
                continue
            if is_identifier(name) and name in outer.names() and fits(outer.names()[name], kind) and self.odds(0.3):
                entries.append(["inherit", name, ";"])
            else:
                entries += self.entry_inside(name, kind, scope)
            scope = scope.binding({name: kind})
        self.chance.shuffle(entries)
        return [item for entry in entries for item in entry], scope

    def entry_inside(self, name, kind, scope):
        if isinstance(kind, dict):
            return self.extended(name, kind, scope)
        if self.left > 0 and is_identifier(name) and self.odds(0.1):
            return [["inherit", "(", *self.expression({name: kind}, scope), ")", name, ";"]]
        return [[self.spelled(name), "=", *self.expression(kind, scope), ";"]]

    def let_kinds(self):
        names = dict.fromkeys(self.name() for _ in range(self.chance.randrange(1, 5)))
        return {name: "operator" if name in OPERATORS else self.kind(1) for name in names}

    # Expressions

    def expression(self, kind, scope):
        self.left -= 1
        if self.left <= 0 or self.odds(0.55):
            return self.operation(kind, scope)
        return self.pick(
            lambda: self.let(kind, scope),
            lambda: self.let(kind, scope),
            lambda: ["if", *self.expression("bool", scope), "then", *self.expression(kind, scope), "else", *self.expression(kind, scope)],
            lambda: self.with_set(kind, scope),
            lambda: ["assert", *self.truth(scope), ";", *self.expression(kind, scope)],
            lambda: self.call(kind, scope),
            lambda: self.call(kind, scope),
            lambda: ["let", "{", *self.old_let(kind, scope), "}"],
        )

    def let(self, kind, scope):
        items, inside = self.bindings(self.let_kinds(), scope)
        return ["let", *items, "in", *self.expression(kind, inside)]

    def old_let(self, kind, scope):
        kinds = self.let_kinds()
        kinds.pop("body", None)
        inner = scope.without(["body"])
        items, inside = self.bindings(kinds, inner)
        return [*items, "body", "=", *self.expression(kind, inside), ";"]

    def with_set(self, kind, scope):
        added = {name: self.kind(1) for name in (self.name() for _ in range(self.chance.randrange(4))) if name not in OPERATORS}
        return ["with", *self.expression(added, scope), ";", *self.expression(kind, scope.adding(added))]

    def truth(self, scope):
        if scope.is_global("true") and self.odds(0.5):
            return ["true"]
        return self.chance.choice([["1", "==", "1"], ["{", "a", "=", "1", ";", "}", "?", "a"], ["!", "(", "1", "==", "2", ")"]])

    def call(self, kind, scope):
        """A function that is written out, called."""
        if self.odds(0.4):
            name, own = self.name(), self.kind(1)
            own = "int" if name in OPERATORS else own
            own_scope = scope.without([name]) if name in OPERATORS else scope.binding({name: own})
            return ["(", name, ":", *self.expression(kind, own_scope), ")", *self.simple(own, scope)]
        kinds = {name: self.kind(1) for name in dict.fromkeys(self.name() for _ in range(self.chance.randrange(4))) if name not in OPERATORS}
        parameters, inside, passed = self.pattern(kinds, scope)
        return ["(", *parameters, ":", *self.expression(kind, inside), ")", *self.simple(passed, scope)]

    def pattern(self, kinds, scope):
        """The parameters of a function, the scope of its body, and the kind of its argument."""
        bound = self.chance.choice(["args", *NAMES]) if self.odds(0.35) else None
        bound = None if bound in kinds else bound
        inside = scope.without([*kinds, *([bound] if bound else [])])
        items, passed = [], {}
        for name, kind in kinds.items():
            has_default = self.odds(0.35)
            items.append([name, *(["?", *self.expression(kind, inside)] if has_default else [])])
            if not has_default or self.odds(0.4):
                passed[name] = kind
            inside = inside.binding({name: kind})
        self.chance.shuffle(items)
        more = self.odds(0.4)
        if more and self.odds(0.5):
            passed["extra"] = "int"
        items += [["..."]] if more else []
        inside = inside.binding({bound: dict(passed)}) if bound else inside
        written = [part for number, item in enumerate(items) for part in (item if number == 0 else [",", *item])]
        if written and not more and self.odds(0.2):
            written.append(",")
        braces = ["{", *written, "}"]
        if bound:
            braces = self.chance.choice([[bound, "@", *braces], [*braces, "@", bound]])
        exact = passed if more else Exact(passed)
        return braces, inside, exact

    def operation(self, kind, scope):
        self.left -= 1
        ways = OPERATIONS.get("set" if isinstance(kind, dict) else kind, []) if self.left > 0 and not isinstance(kind, Exact) else []
        if not ways or self.odds(0.45):
            return self.simple(kind, scope)
        return getattr(self, self.chance.choice(ways))(kind, scope)

    def simple(self, kind, scope):
        """An operand that can be an item of a list and an argument."""
        self.left -= 1
        if self.odds(0.6):
            found = self.use(kind, scope)
            if found:
                return found
        if self.left > 0 and self.odds(0.15) and not isinstance(kind, Exact):
            return ["(", *self.expression(kind, scope), ")"]
        if self.left > 0 and self.odds(0.1) and not isinstance(kind, Exact):
            name = self.attr_name()
            chosen = self.set({name: kind}, scope)
            return ["(", *chosen, ")", ".", self.selected(name)] if chosen[0] == "rec" and self.odds(0.3) else [*chosen, ".", self.selected(name),
                                                                                                                *self.default(kind, scope)]
        return self.literal(kind, scope)

    def default(self, kind, scope):
        return ["or", *self.literal(kind, scope)] if self.odds(0.1) else []

    def use(self, kind, scope):
        """A name of a kind, or what it has below."""
        if isinstance(kind, Exact):
            return None
        found = []
        for name, own in scope.names().items():
            self.paths([name], own, kind, found)
        if not found:
            return None
        first, *rest = self.chance.choice(found)
        items = [first]
        for name in rest:
            items += [".", self.selected(name)]
        return items + (self.default(kind, scope) if rest else [])

    def paths(self, path, own, kind, found):
        if fits(own, kind):
            found.append(path)
        if isinstance(own, dict) and len(path) < 4:
            for name, inner in own.items():
                self.paths([*path, name], inner, kind, found)

    # Operations by kind

    def is_plain(self, scope, name):
        return scope.is_global(name) or scope.bound.get(name) == "operator"

    def sum(self, kind, scope):
        items = self.simple("int", scope)
        for _ in range(self.chance.randrange(1, 4)):
            operators = [("+", None), ("-", "__sub"), ("*", "__mul")]
            items += [self.chance.choice([it for it, name in operators if name is None or self.is_plain(scope, name)]), *self.simple("int", scope)]
        return items

    def quotient(self, kind, scope):
        return [*self.simple("int", scope), "/", "2"] if self.is_plain(scope, "__div") else self.simple("int", scope)

    def negation(self, kind, scope):
        return ["-", *self.simple("int", scope)] if self.is_plain(scope, "__sub") else self.simple("int", scope)

    def length(self, kind, scope):
        if not scope.is_global("builtins"):
            return self.simple("int", scope)
        return self.pick(lambda: ["builtins.length", *self.simple("list", scope)], lambda: ["builtins.stringLength", *self.simple("str", scope)])

    def comparison(self, kind, scope):
        if self.is_plain(scope, "__lessThan") and self.odds(0.5):
            return [*self.simple("int", scope), self.chance.choice(["<", ">", "<=", ">="]), *self.simple("int", scope)]
        own = self.chance.choice(["int", "str", "list", "null", "bool"])
        return [*self.simple(own, scope), self.chance.choice(["==", "!="]), *self.simple(own, scope)]

    def logic(self, kind, scope):
        items = [*self.negated(scope)]
        for _ in range(self.chance.randrange(1, 4)):
            items += [self.chance.choice(["&&", "||", "->"]), *self.negated(scope)]
        return items

    def negated(self, scope):
        return self.chance.choice([[], ["!"]]) + self.simple("bool", scope)

    def has(self, kind, scope):
        own = {self.attr_name(): self.kind(2) for _ in range(2)}
        path = [self.chance.choice([*own, self.attr_name()])]
        while isinstance(own.get(path[-1]), dict) and own[path[-1]] and len(path) == 1:
            path.append(self.chance.choice(list(own[path[-1]])))
        return [*self.simple(own, scope), "?", *(part for number, name in enumerate(path) for part in ([] if number == 0 else ["."]) + [self.selected(name)])]

    def text_sum(self, kind, scope):
        items = self.simple("str", scope)
        for _ in range(self.chance.randrange(1, 3)):
            items += ["+", *self.simple("str", scope)]
        return items

    def text_of(self, kind, scope):
        return ["toString", *self.simple(self.chance.choice(["int", "str"]), scope)] if scope.is_global("toString") else self.simple("str", scope)

    def concatenation(self, kind, scope):
        return [*self.simple("list", scope), "++", *self.simple("list", scope)]

    def mapped(self, kind, scope):
        if not scope.is_global("map"):
            return self.simple("list", scope)
        name = self.name()
        return ["map", "(", name, ":", *self.expression("int", scope.without([name])), ")", *self.simple("list", scope)]

    def update(self, kind, scope):
        first, last = {}, {}
        for name, own in kind.items():
            self.chance.choice([first, last])[name] = own
        return [*self.simple(first if not last else Exact(first), scope), "//", *self.simple(Exact(last), scope)]


OPERATIONS = {
    "int": ["sum", "sum", "quotient", "negation", "length"],
    "bool": ["comparison", "comparison", "logic", "logic", "has"],
    "str": ["text_sum", "text_of"],
    "list": ["concatenation", "mapped"],
    "set": ["update"],
}

def expression(chance, kind=None):
    """The items of an expression of some kind."""
    maker = Maker(chance)
    return maker.expression(maker.kind() if kind is None else kind, Scope())


def text(chance):
    """A text that Nix evaluates, most of the time."""
    return joined(expression(chance), chance)
