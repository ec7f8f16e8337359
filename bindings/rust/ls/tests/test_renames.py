"""Renaming in random texts, compared with a renaming of what the texts were printed from, by scopes of this file's own."""

import random
import unittest

from client import URI, Client, applied, position_of

NAMES = ["a", "b", "c", "d"]
ELSE = "with the new name, some name would refer to something else"


class Maker:
    """Makes expressions: tuples of a kind and its parts. Names are lists of one name, so that each place can be changed."""

    def __init__(self, numbers):
        self.numbers = numbers

    def name(self):
        return [self.numbers.choice(NAMES)]

    def names(self, most):
        return [[it] for it in self.numbers.sample(NAMES, self.numbers.randrange(most + 1))]

    def expression(self, depth):
        kind = self.numbers.choice(["var", "var", "let", "let", "rec", "set", "lambda", "pattern", "with", "list", "select"])
        if depth == 0 or kind == "var":
            return "var", self.name()
        inner = lambda: self.expression(depth - 1)
        if kind == "let":
            return kind, self.entries(depth - 1), inner()
        if kind in ("rec", "set"):
            return kind, self.entries(depth - 1)
        if kind == "lambda":
            return kind, self.name(), inner()
        if kind == "pattern":
            names = self.names(3)
            bind = names.pop() if names and self.numbers.random() < 0.6 else None
            return kind, [(it, inner() if self.numbers.random() < 0.4 else None) for it in names], bind, inner()
        if kind == "select":
            return kind, inner(), self.name()
        return kind, inner(), inner()

    def entries(self, depth):
        entries, names = [], self.names(4)
        while names:
            kind = self.numbers.choice(["value", "value", "inherit", "from"])
            if kind == "value":
                entries.append((kind, names.pop(), self.expression(depth)))
            else:
                count = self.numbers.randrange(1, len(names) + 1)
                source = self.expression(depth) if kind == "from" else None
                entries.append((kind, source, [names.pop() for _ in range(count)]))
        return entries


class Printer:
    """Prints an expression, and resolves its names."""

    def __init__(self, expression):
        self.text = ""
        self.count = 0
        self.scopes = []  # the names that each scope binds
        self.places = []  # of each name: where it is, the list that holds it, what it is, and the number of its binding
        self.print(expression, {})

    def write(self, name, role, number):
        self.places.append((len(self.text), name, role, number))
        self.text += name[0]

    def bind(self, names, around):
        self.scopes.append([it[0] for it in names])
        numbers = {it[0]: self.count + at for at, it in enumerate(names)}
        self.count += len(names)
        return {**around, **numbers}

    def print(self, expression, around):
        kind, *parts = expression
        getattr(self, f"print_{kind}")(around, *parts)

    def print_var(self, around, name):
        self.write(name, "use", around.get(name[0]))

    def print_let(self, around, entries, body):
        self.text += "(let "
        inside = self.bind(names_of(entries), around)
        self.print_entries(entries, around, inside, "let")
        self.text += " in "
        self.print(body, inside)
        self.text += ")"

    def print_rec(self, around, entries):
        self.text += "(rec { "
        self.print_entries(entries, around, self.bind(names_of(entries), around), "attribute")
        self.text += " })"

    def print_set(self, around, entries):
        self.text += "{ "
        self.print_entries(entries, around, around, None)
        self.text += " }"

    def print_entries(self, entries, around, inside, role):
        for kind, *parts in entries:
            if kind == "value":
                name, value = parts
                self.key(name, role, inside)
                self.text += " = "
                self.print(value, inside)
            else:
                source, names = parts
                self.text += "inherit "
                if source is not None:
                    self.text += "("
                    self.print(source, inside)
                    self.text += ") "
                self.inherited(names, source, around, inside if role else None)
            self.text += "; "

    def key(self, name, role, inside):
        if role is None:
            self.text += name[0]
        else:
            self.write(name, role, inside[name[0]])

    def inherited(self, names, source, around, inside):
        for name in names:
            if source is None:
                self.places.append((len(self.text), name, "inherit", around.get(name[0])))
            if inside is not None:
                self.places.append((len(self.text), name, "inherited", inside[name[0]]))
            self.text += f"{name[0]} "

    def print_lambda(self, around, name, body):
        self.text += "("
        inside = self.bind([name], around)
        self.write(name, "parameter", inside[name[0]])
        self.text += ": "
        self.print(body, inside)
        self.text += ")"

    def print_pattern(self, around, entries, bind, body):
        self.text += "({ "
        names = [it for it, _ in entries] + ([bind] if bind else [])
        inside = self.bind(names, around)
        for name, default in entries:
            self.write(name, "argument", inside[name[0]])
            if default:
                self.text += " ? "
                self.print(default, inside)
            self.text += ", "
        self.text += "... }"
        if bind:
            self.text += "@"
            self.write(bind, "parameter", inside[bind[0]])
        self.text += ": "
        self.print(body, inside)
        self.text += ")"

    def print_with(self, around, source, body):
        self.text += "(with "
        self.print(source, around)
        self.text += "; "
        self.print(body, around)
        self.text += ")"

    def print_list(self, around, one, other):
        self.text += "[ "
        self.print(one, around)
        self.text += " "
        self.print(other, around)
        self.text += " ]"

    def print_select(self, around, source, name):
        self.text += "("
        self.print(source, around)
        self.text += f".{name[0]})"

    def uses(self):
        """Returns the bindings that names refer to, in order."""
        return [number for _, _, role, number in self.places if role in ("use", "inherit")]


def names_of(entries):
    """Returns the names that entries bind."""
    return [name for kind, *parts in entries for name in ([parts[0]] if kind == "value" else parts[1])]


def renamed_entries(entries, names, new):
    """Returns entries in which some names of an `inherit` without a source have entries of their own."""
    result = []
    for kind, one, other in entries:
        if kind != "inherit":
            result.append((kind, one, renamed(other, names, new)) if kind == "value" else (kind, renamed(one, names, new), other))
            continue
        kept = []
        for name in other:
            if not any(name is it for it in names):
                kept.append(name)
                continue
            result += [("inherit", None, kept)] if kept else []
            result.append(("value", name, ("var", [new])))
            kept = []
        result += [("inherit", None, kept)] if kept else []
    return result


def renamed(part, names, new):
    """Returns an expression, or a part of one, in which inherited names have entries of their own."""
    if isinstance(part, tuple) and part[0] in ("let", "rec", "set"):
        return (part[0], renamed_entries(part[1], names, new), *(renamed(it, names, new) for it in part[2:]))
    if isinstance(part, (tuple, list)) and not (len(part) == 1 and isinstance(part[0], str)):
        return type(part)(renamed(it, names, new) for it in part)
    return part


class Renames(unittest.TestCase):
    """Each binding of each text is renamed."""

    def expect(self, expression, number, new):
        """Returns the text after a renaming, or None if it must be refused; the expression is as before."""
        before = Printer(expression)
        mine = [it for it in before.places if it[3] == number]
        kept = [name for _, name, role, _ in mine if role == "inherit"]
        changed = [name for _, name, role, _ in mine if role != "inherit"]
        old = [name[0] for name in changed]
        split = renamed(expression, kept, new)
        for name in changed:
            name[0] = new
        after = Printer(split)
        for name, text in zip(changed, old):
            name[0] = text
        is_like = after.uses() == before.uses() and all(len(set(it)) == len(it) for it in after.scopes)
        return after.text if is_like else None

    def test_renaming_keeps_what_names_refer_to_or_is_refused(self):
        numbers, counts = random.Random(3), {True: 0, False: 0}
        with Client() as client:
            for _ in range(400):
                expression = Maker(numbers).expression(4)
                printer = Printer(expression)
                client.open(printer.text)
                for start, _, role, number in printer.places:
                    if role not in ("let", "parameter"):
                        continue
                    new = numbers.choice([*NAMES, "z"])
                    answer = client.at("rename", position_of(printer.text, start), newName=new)
                    wanted = self.expect(expression, number, new)
                    counts[wanted is not None] += 1
                    if wanted is None:
                        self.assertEqual(answer.get("message"), ELSE, (printer.text, start, new))
                    else:
                        found = applied(printer.text, answer["documentChanges"][0]["edits"])
                        self.assertEqual("".join(found.split()), "".join(wanted.split()), (printer.text, start, new))
        self.assertGreater(min(counts.values()), 100)

    def test_definitions_are_those_of_the_scopes(self):
        numbers = random.Random(4)
        with Client() as client:
            for _ in range(100):
                printer = Printer(Maker(numbers).expression(4))
                client.open(printer.text)
                binders = {number: start for start, _, role, number in printer.places if role not in ("use", "inherit")}
                for start, _, role, number in printer.places:
                    if role in ("use", "inherit") and number is not None:
                        (found,) = client.at("definition", position_of(printer.text, start))
                        self.assertEqual((found["uri"], found["range"]["start"]["character"]), (URI, binders[number]), (printer.text, start))


if __name__ == "__main__":
    unittest.main()
