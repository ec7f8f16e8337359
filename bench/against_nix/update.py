"""The sort of texts that rnix update changes: exactly one attribute has another value, is added or is gone."""
import shlex

from .evaluate import Failure, evaluate, same
from .expressions import escaped, is_identifier
from .layout import joined
from .programs import Case, Difference, failed, value_shown
from .values import shown_text

NAMES = ["a", "b", "c", "d", "a", "b", "c", "a b", "a.b", "or", "if", "x-y", "a'", "1", "", "true", '"', "${", "\n"]
WORDS = ["new", "", "a b", 'a"b', "${x}", "$${x}", "\\", "\\n", "line\nline", "\t", "ä𝔸", "''", "${", "$", "# c", "\r\n", "1", "-1", "/*"]
# Expressions with values that depend on nothing around them.
RAW = ["1", "null", "[ 1 2 ]", "{ x = 1; }", "rec { x = 1; y = x; }", '"s"', "-1", "1 + 2", "q: q", "let q = 1; in q", "(1)", "''\n  s\n''",
       "if 1 == 1 then 1 else 2",
       "1 # c", "1 /* c */", "\n1\n", "1.5", "[ ]", "{ }", "{ x.y = 1; }", "with { q = 1; }; q", "assert 1 == 1; 2", "1 == 1", "{ x = 1; }.x or 2",
       "let { body = 1; }", "https://a.b/c"]
# Sets that are made by calls: one with a name that nothing else has, and an empty one. rnix update does not know what a call, an operator or a function makes
# of a set that is written out, so no such set stands where its attributes could be lost.
MORE = ["(", "q", ":", "q", ")", "{", "other", "=", "1", ";", "}"]
EMPTY = ["(", "builtins.listToAttrs", "[", "]", ")"]


class Maker:
    """Makes a set whose values are different strings with their names, or are lists with "ref" and a name that is used."""

    def __init__(self, chance):
        self.chance = chance
        self.count = 0
        self.names = NAMES if chance.random() < 0.4 else NAMES[:4]
        self.paths = []
        # Names of sets with `rec`: what inherits one changes with it, so none does.
        self.attributes_in_sight = set()
        self.is_odd = chance.random() < 0.5

    def odds(self, part):
        return self.chance.random() < part

    def name(self):
        return self.chance.choice(self.names)

    def spelled(self, name):
        quoted = '"' + escaped(name) + '"'
        if is_identifier(name) and self.odds(0.85) or name == "or":
            return name
        if self.is_odd and name == "a" and self.odds(0.2):
            return '"\\a"'
        return quoted if self.odds(0.75) else "${" + quoted + "}"

    def constant(self, name):
        self.count += 1
        text = escaped(f"{name}={self.count}")
        return [f'"{text}"' if self.odds(0.8) else "''" + text.replace('\\"', '"').replace("\\\\", "\\").replace("\\${", "''${") + "''"]

    def value(self, name, path, scope, depth):
        """A value at a path."""
        self.paths.append(path)
        if depth < 3 and self.odds(0.3):
            return self.wrapped(path, scope, depth + 1)
        if scope and self.odds(0.15):
            return ["[", '"ref"', self.chance.choice(scope), "]"]
        if self.odds(0.15):
            return [self.chance.choice(["1", "2", "[ ]", '[ "s" ]', "null"])]
        return self.constant(name)

    def set(self, path, scope, depth):
        is_rec = self.odds(0.2)
        names = [self.name() for _ in range(self.chance.choice([0, 1, 2, 3, 4]))]
        names = names if self.odds(0.02) else list(dict.fromkeys(names))
        inner = scope + [it for it in names if is_identifier(it)] if is_rec else scope
        self.attributes_in_sight |= set(names) if is_rec else set()
        entries = [it for name in names for it in self.entry(name, path, [own for own in inner if own != name], depth)]
        self.chance.shuffle(entries)
        return [*(["rec"] if is_rec else []), "{", *(item for entry in entries for item in entry), "}"]

    def entry(self, name, path, scope, depth):
        own = [*path, name]
        if self.odds(0.25) and depth < 3:
            return self.dotted(name, own, scope, depth)
        if is_identifier(name) and self.odds(0.1):
            self.paths.append(own)
            return [["inherit", "(", "{", name, "=", *self.constant(name), ";", "}", ")", name, ";"]]
        if name in scope and name not in self.attributes_in_sight and self.odds(0.3):
            self.paths.append(own)
            return [["inherit", name, ";"]]
        if self.is_odd and self.odds(0.05):
            self.paths.append(own)
            return [["${", '"' + escaped(name) + '"', "+", '""', "}", "=", *self.constant(name), ";"]]
        return [[self.spelled(name), "=", *self.value(name, own, scope, depth), ";"]]

    def dotted(self, name, path, scope, depth):
        """Several entries that share a name."""
        entries = []
        if self.odds(0.3):
            entries.append([self.spelled(name), "=", *self.set(path, scope, depth + 1), ";"])
        for inner in dict.fromkeys(self.name() for _ in range(self.chance.choice([1, 1, 2, 3]))):
            below = [*path, inner]
            entries.append([self.spelled(name), ".", self.spelled(inner), "=", *self.value(inner, below, scope, depth + 1), ";"])
        return entries

    def wrapped(self, path, scope, depth):
        """A set, or what has one as its value."""
        if self.odds(0.5 if depth else 0.3):
            return self.set(path, scope, depth)
        name = self.chance.choice("abcd")
        inside = lambda *more: self.wrapped(path, [*scope, *more], depth + 1) if depth < 4 else self.set(path, scope, depth)
        apart = lambda: self.set(["apart"], scope, 3)
        ways = [
            lambda: ["(", *inside(), ")"],
            lambda: self.let(scope, inside),
            lambda: self.let(scope, inside),
            lambda: ["with", *apart(), ";", *inside()],
            lambda: ["assert", "1", "==", "1", ";", *inside()],
            lambda: ["if", "1", "==", "1", "then", *inside(), "else", *apart()],
            lambda: ["(", *self.set(path, scope, depth), "//", *apart(), ")"],
            lambda: ["(", *inside(), "//", *MORE, ")"],
            lambda: ["(", *MORE, "//", *inside(), ")"],
            lambda: ["(", "q", ":", "q", ")", "(", *inside(), ")"],
            lambda: ["(", name, ":", *inside(name), ")", *self.constant(name)],
            lambda: ["(", "{", name, "?", *self.constant(name), "}", ":", *inside(name), ")", *EMPTY],
            lambda: ["(", "{", "q", "=", *inside(), ";", "}", ".", "q", ")"],
            lambda: ["let", "q", "=", *inside(), ";", "in", "q"],
            lambda: ["let", "{", "body", "=", *inside(), ";", name, "=", *self.constant(name), ";", "}"],
            lambda: [name, ":", *inside(name)],
            lambda: ["{", name, "?", *self.constant(name), ",", "...", "}", ":", *inside(name)],
            lambda: ["{", name, "?", *apart(), ",", "...", "}", "@", "args", ":", *inside()],
        ]
        # A function stands only around the whole, where it gets arguments.
        items = self.chance.choice(ways if depth <= 1 and not path else ways[:-3])()
        return items if depth <= 1 or items[0] in "({" else ["(", *items, ")"]

    def let(self, scope, inside):
        names = list(dict.fromkeys(self.chance.choice("abcd") for _ in range(self.chance.choice([1, 1, 2]))))
        entries = [[self.spelled(name), "=", *(self.constant(name) if self.odds(0.8) else self.set(["apart"], scope, 3)), ";"] for name in names]
        if self.odds(0.1):
            entries.append(["inherit", "(", "{", "e", "=", '"e"', ";", "}", ")", "e", ";"])
        return ["let", *(item for entry in entries for item in entry), "in", *inside(*names)]


def path_of(maker, chance):
    """A path: one that the text has, one below or beside it, or any."""
    known = [it for it in maker.paths if it and it[0] != "apart"]
    path = list(chance.choice(known)) if known and chance.random() < 0.8 else [maker.name()]
    if chance.random() < 0.15:
        path.append(maker.name())
    if chance.random() < 0.1:
        path[-1] = maker.name()
    return path


def options_of(chance):
    form = chance.choice([[], [], ["--raw"], ["--raw"], ["--list"], ["--remove"], ["--remove"]])
    return [*form, *(["--add"] if form != ["--remove"] and chance.random() < 0.5 else [])]


def given(options, path, chance):
    """The words of rnix update for a path as it is written, and the value that the attribute gets."""
    if "--remove" in options:
        return {"words": [path], "value": None}
    if "--list" in options:
        value = " ".join(chance.choice(["x", "y", "z z", '"', "${", "\\"]) for _ in range(3))
    else:
        value = chance.choice(RAW if "--raw" in options else WORDS)
    return {"words": [path, value], "value": value}


class Update:
    NAME = "update"

    @staticmethod
    def make(chance):
        maker = Maker(chance)
        text = joined(maker.wrapped([], [], 0), chance)
        path, options = path_of(maker, chance), options_of(chance)
        return Case(text, path=path, options=options, **given(options, ".".join(maker.spelled(name) for name in path), chance))

    @staticmethod
    def seen(case, text):
        """The text in whose place Nix evaluates another one."""
        return text

    @classmethod
    def judge(cls, programs, folder, cases):
        found = programs.run_all("update", [([*it.options, "--", *it.words], it.text) for it in cases])
        olds = [it.text for it in cases]
        news = [ran.out if ran.status == 0 else "1 +" for ran in found]
        raws = [it.value if "--raw" in it.options and ran.status == 0 else "null" for it, ran in zip(cases, found)]
        kinds = list(dict.fromkeys(raws))
        # As attributes, so that functions are not called.
        wanted = {raw: it["raw"] for raw, it in zip(kinds, evaluate(folder, [f"{{ raw = {raw}\n; }}" for raw in kinds]))}
        changing = [number for number, ran in enumerate(found) if ran.status == 0]
        values = evaluate(folder, [cls.seen(cases[it], text) for texts in (olds, news) for it in changing for text in [texts[it]]])
        verdicts = [failed(ran, "rnix update " + shlex.join([*it.options, "--", *it.words])) for it, ran in zip(cases, found)]
        for number, before, after in zip(changing, values, values[len(changing) :]):
            case, ran = cases[number], found[number]
            given = given_value(case, wanted[raws[number]])
            words = None if isinstance(before, Failure) else cls.wrong(case, ran, before, after, given)
            if words:
                lines = ["$ rnix update " + shlex.join([*case.options, "--", *case.words]), *shown_text(ran.out)]
                verdicts[number] = Difference(words, *lines, f"Nix says of the text: {value_shown(before)}", f"of the new text: {value_shown(after)}")
        return verdicts

    @staticmethod
    def wrong(case, ran, before, after, given):
        return (wrong_with_let if SETS_LET in ran.said else wrong_with)(case, before, after, given)


def given_value(case, raw):
    """The value that the attribute has to get."""
    if "--raw" in case.options:
        return raw
    return case.value.split() if "--list" in case.options else case.value


def inner(value, path):
    """The value at a path in nested sets, and whether there is one."""
    for name in path:
        if not isinstance(value, dict) or name not in value:
            return None, False
        value = value[name]
    return value, True


# What rnix update says where it finds no attribute, and sets a name of a `let`.
SETS_LET = "this name of a `let` is set"
# What there is no value for.
MISSING = object()


def with_value(value, path, new):
    """The nested sets with another value at a path, or MISSING if something else than a set is on the way."""
    if not path:
        return new
    if not isinstance(value, dict):
        return MISSING
    below = with_value(value.get(path[0], {}), path[1:], new)
    return MISSING if below is MISSING else value | {path[0]: below}


def without_value(value, path, kept):
    """The nested sets without what is at a path, and without sets that are empty then, but for so many of the outermost ones."""
    if len(path) == 1:
        return {name: it for name, it in value.items() if name != path[0]}
    below = without_value(value[path[0]], path[1:], kept - 1)
    return value | {path[0]: below} if below or kept > 0 else {name: it for name, it in value.items() if name != path[0]}


def without_more(found, wanted, path):
    """A value without what the sets on a path have more than the wanted one has there."""
    if not isinstance(found, dict) or not isinstance(wanted, dict):
        return found
    return {name: without_more(it, wanted[name], path[1:]) if path[:1] == [name] else it for name, it in found.items() if name in wanted}


def agrees(wanted, found, renewed):
    """Whether a value is the wanted one, but for references to what is renewed."""
    if same(wanted, found):
        return True
    if isinstance(wanted, dict) and isinstance(found, dict):
        return wanted.keys() == found.keys() and all(agrees(it, found[name], renewed) for name, it in wanted.items())
    if isinstance(wanted, list) and isinstance(found, list) and len(wanted) == len(found) == 2 and wanted[0] == found[0] == "ref":
        return agrees(wanted[1], found[1], renewed) or any(same(wanted[1], old) and agrees(new, found[1], renewed) for old, new in renewed)
    return False


def renewed_by(before, wanted, path):
    """The pairs of values, old and new, of the attribute and the sets around it."""
    return [(inner(before, path[:length])[0], inner(wanted, path[:length])[0]) for length in range(1, len(path) + 1) if inner(before, path[:length])[1]]


def wrong_with(case, before, after, given):
    """In a few words, what is wrong with a new text, or nothing. What a function makes of a set that becomes no set is not known."""
    if not isinstance(before, dict):
        return None
    if isinstance(after, Failure):
        # A name that is computed counts as no attribute, as docs/DECISIONS.md says.
        return None if after.said.startswith("dynamic attribute") else f"of the new text, {after.kind()}"
    old, has_old = inner(before, case.path)
    if "--remove" in case.options:
        if not has_old:
            return "what is removed is no attribute"
        wanted = [without_value(before, case.path, kept) for kept in range(len(case.path))]
        # Nix 2.8 drops the computed names of a set that is merged into another one, so a set may have more of them when an entry of it is removed.
        founds = [without_more(after, it, case.path[:-1]) if "${" in case.text else after for it in wanted]
        agree = any(agrees(it, found, renewed_by(before, it, case.path[:-1])) for it, found in zip(wanted, founds))
        return None if agree else "another attribute changes by removing"
    if not has_old and "--add" not in case.options:
        return "what is set is no attribute"
    wanted = with_value(before, case.path, given)
    if wanted is not MISSING and agrees(wanted, after, renewed_by(before, wanted, case.path)):
        return None
    is_set = same(inner(after, case.path)[0], given)
    return ("another attribute changes" if is_set else "the attribute has another value") + (" by adding" if not has_old else " by setting")


def parts_of(value):
    """All values in a value, and the value itself: each may be what the name of a `let` has, or a part of that."""
    yield value
    for it in value.values() if isinstance(value, dict) else value if isinstance(value, list) else []:
        yield from parts_of(it)


def stands_for(before, after, renewed):
    """Whether a value is another one in which some parts are renewed."""
    if same(before, after) or any(same(before, old) and same(after, new) for old, new in renewed):
        return True
    if isinstance(before, dict) and isinstance(after, dict):
        return before.keys() == after.keys() and all(stands_for(it, after[name], renewed) for name, it in before.items())
    are_lists = isinstance(before, list) and isinstance(after, list) and len(before) == len(after)
    return are_lists and all(stands_for(*them, renewed) for them in zip(before, after))


def wrong_with_let(case, before, after, given):
    """What is wrong where no attribute has the path, and a name of a `let` is set, to which values may refer, also by a `with`."""
    if same(before, after):
        return None
    for old in parts_of(before):
        # The name of the `let`, or a set below it.
        for at in range(1, len(case.path) + 1) if isinstance(old, dict) else [len(case.path)]:
            below = case.path[at:]
            renewed = [(old, with_value(old, below, given)), (inner(old, below)[0], given)] if below else [(old, given)]
            is_own = not isinstance(old, str) or old.startswith(case.path[-1] + "=")
            if is_own and (agrees(before, after, renewed) or stands_for(before, after, renewed)):
                return None
    return "another attribute changes by setting a name of a let"
