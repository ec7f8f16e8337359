"""The sorts of texts of which rnix update changes a list, or prints the value of an attribute."""
import shlex

from . import update
from .evaluate import Failure, evaluate, same
from .layout import joined
from .programs import Case, Difference, failed, value_shown
from .update import agrees, inner, path_of, renewed_by, with_value
from .values import shown_text

# Elements, each written in one way: what --remove-item removes is what has this text.
ELEMENTS = ["1", "2", "null", '"x"', '"y z"', "[ ]", "(1 + 1)", "{ x = 1; }", "(q: q)"]
# What --append adds besides, in brackets where a list needs them.
RAW = [*update.RAW, "a: a", "1 + 1", "let q = 1; in q", "-1", "if 1 == 1 then 1 else 2", "(1)", "{ a ? 1 }: a", "! (1 == 2)", "{ } ? a"]
# What rnix update says where it finds no attribute, and takes a name of a `let`.
OF_LET = "name of a `let`"


def is_list(items):
    """Whether the items are one list."""
    depth = 0
    for at, item in enumerate(items):
        depth += (item in "([{") - (item in ")]}")
        if depth == 0 and at + 1 < len(items):
            return False
    return items[0] == "["


class Maker(update.Maker):
    """Makes sets, many values of which are lists, or what has one as its value."""

    def __init__(self, chance):
        super().__init__(chance)
        self.lists = []

    def value(self, name, path, scope, depth):
        if self.odds(0.4):
            return super().value(name, path, scope, depth)
        self.paths.append(path)
        self.lists.append(path)
        return self.listed(0)

    def list(self):
        return ["[", *(self.chance.choice(ELEMENTS) for _ in range(self.chance.choice([0, 1, 2, 3]))), "]"]

    def operand(self, depth):
        items = self.listed(depth + 1)
        return items if is_list(items) else ["(", *items, ")"]

    def listed(self, depth):
        """A list, or what has one as its value."""
        if depth > 2 or self.odds(0.4):
            return self.list()
        inside = lambda: self.listed(depth + 1)
        called = lambda: ["(", "q", ":", "q", ")", *self.operand(depth)]
        ways = [
            lambda: ["(", *inside(), ")"],
            lambda: ["with", "{", "q", "=", "1", ";", "}", ";", *inside()],
            lambda: ["let", "q", "=", "1", ";", "in", *inside()],
            lambda: ["assert", "1", "==", "1", ";", *inside()],
            called,
            lambda: [*self.operand(depth), "++", *self.operand(depth)],
            lambda: [*self.operand(depth), "++", *called()],
            lambda: [*called(), "++", *self.operand(depth)],
            lambda: [*self.operand(depth), "++", *called(), "++", *called()],
            lambda: ["if", "1", "==", "1", "then", *inside(), "else", "[", "]"],
            lambda: ["(", "[", "]", "++", *called(), ")", "++", *self.operand(depth)],
        ]
        return self.chance.choice(ways)()


def made(chance):
    """A text, and a path of it: of a list, if there is one."""
    maker = Maker(chance)
    text = joined(maker.wrapped([], [], 0), chance)
    path = list(chance.choice(maker.lists)) if maker.lists and chance.random() < 0.8 else path_of(maker, chance)
    return text, path, ".".join(maker.spelled(name) for name in path)


def is_with(old, new, element, at_end):
    """Whether a list is another one with one more element, at the end or anywhere."""
    return any(same([*old[:at], element, *old[at:]], new) for at in range(len(old) if at_end else 0, len(old) + 1))


def is_without(old, new, element, has_all):
    """Whether a list is another one without elements that are this one, or all of them."""
    if has_all:
        return len(new) < len(old) and same([it for it in old if not same(it, element)], new)
    left = list(new)
    for it in old:
        if left and same(it, left[0]):
            left.pop(0)
        elif not same(it, element):
            return False
    return not left and len(new) < len(old)


class Lists(update.Update):
    """A list gets an element, or loses those that are written so, and nothing else changes."""

    NAME = "update-lists"

    @staticmethod
    def make(chance):
        text, path, spelled = made(chance)
        action = chance.choice(["--append", "--remove-item"])
        is_raw = chance.random() < 0.5
        raw = RAW if action == "--append" else ["1", "2", "null", "[ ]", "1 + 1", "(1 + 1)", "{ x = 1; }", "q: q"]
        value = chance.choice(raw if is_raw else update.WORDS if action == "--append" else ["x", "y z"])
        return Case(text, path=path, options=[action, *(["--raw"] if is_raw else [])], words=[spelled, value], value=value)

    @staticmethod
    def wrong(case, ran, before, after, given):
        if not isinstance(before, dict) or OF_LET in ran.said:
            return None
        (old, has_old), (new, has_new) = inner(before, case.path), inner(after, case.path)
        # A list may be what a function gets that makes something else of it.
        if has_old and not isinstance(old, list) and "builtins." in case.text:
            return None
        if isinstance(after, Failure):
            return None if after.said.startswith("dynamic attribute") else f"of the new text, {after.kind()}"
        if not has_old or not has_new or not isinstance(old, list) or not isinstance(new, list):
            return "what is changed is no list"
        wanted = with_value(before, case.path, new)
        if not agrees(wanted, after, renewed_by(before, wanted, case.path)):
            return "another attribute changes by changing a list"
        # Elements that are written otherwise stay, though they may be equal.
        is_simple = "++" not in case.text and "1+1" not in case.text.replace(" ", "")
        if "--append" in case.options:
            return None if is_with(old, new, given, is_simple) else "a list gets something else"
        return None if is_without(old, new, given, is_simple) else "a list loses something else"


class Get:
    """The value that is printed is the one that the attribute has, and setting it again changes nothing."""

    NAME = "update-get"

    @staticmethod
    def make(chance):
        text, path, spelled = made(chance)
        return Case(text, path=path, spelled=spelled)

    @staticmethod
    def judge(programs, folder, cases):
        found = programs.run_all("update", [(["--get", "--", it.spelled], it.text) for it in cases])
        given = [number for number, ran in enumerate(found) if ran.status == 0]
        sources = {number: found[number].out[:-1] for number in given}
        again = dict(zip(given, programs.run_all("update", [(["--raw", "--", cases[it].spelled, sources[it]], cases[it].text) for it in given])))
        values = evaluate(folder, [cases[it].text for it in given] + [f"{{ raw = {sources[it]}\n; }}" for it in given])
        alone = dict(zip(given, values[len(given) :]))
        verdicts = [failed(ran, "rnix update --get " + shlex.quote(it.spelled)) for it, ran in zip(cases, found)]
        for number, value in zip(given, values):
            words = Get.wrong(cases[number], found[number], again[number], value, alone[number])
            if words:
                command = f"$ rnix update --get -- {shlex.quote(cases[number].spelled)}"
                verdicts[number] = Difference(words, command, *shown_text(found[number].out), f"Nix says of the text: {value_shown(value)}",
                                              f"of the source: {value_shown(alone[number])}")
        return verdicts

    @staticmethod
    def wrong(case, ran, again, value, alone):
        """In a few words, what is wrong with a source, or nothing. One with names of the text around it has no value alone."""
        if again.status != 0 or again.out != case.text:
            return "setting what is printed changes the text"
        if not isinstance(value, dict) or isinstance(alone, Failure) or OF_LET in ran.said:
            return None
        own, has_own = inner(value, case.path)
        return None if has_own and same(own, alone["raw"]) else "the attribute has another value"
