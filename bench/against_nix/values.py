"""The sorts that compare the value of a text before and after a program changed it: format, rename, dead, the last two of merged sets, and dead-edit."""
import json
import re

from . import expressions, merged
from .evaluate import Failure, evaluate, same
from .programs import READ_OTHERWISE, Case, Difference, failed, value_shown
from .trees import trees

WORD = re.compile(r"[A-Za-z_][A-Za-z0-9_'-]*")
NEW_NAMES = ["fresh", "a", "b", "c", "d", "x", "y", "_a", "a'", "b-c", "__sub", "__mul", "__div", "__lessThan", "__findFile", "__nixPath", "builtins", "true",
             "false",
             "null", "map", "toString", "import", "throw", "body", "or", "if", "in", "let", "rec", "inherit", "__curPos", "args", "__overrides", "lib"]


def compared(folder, pairs):
    """For each pair of texts, the two values if they differ; nothing if Nix does not evaluate the first, or the second is missing or the same."""
    changing = [it for it, (old, new) in enumerate(pairs) if new not in (None, old)]
    values = evaluate(folder, [pairs[it][0] for it in changing] + [pairs[it][1] for it in changing])
    found = [None] * len(pairs)
    for number, before, after in zip(changing, values, values[len(changing) :]):
        if not isinstance(before, Failure) and not same(before, after):
            found[number] = (before, after)
    return found


def changed(words, command, ran, new, before, after):
    return Difference(words, f"$ {command}", *shown_text(new), f"{ran}", f"Nix says of the text: {value_shown(before)}",
                      f"of the new text: {value_shown(after)}")


def shown_text(text):
    return [f"  | {line}" for line in text.split("\n")] if "\r" not in text and "\t" not in text else [f"  {text!r}"]


def value_words(before, after):
    """In a few words, how a value differs."""
    return f"of the new text, {after.kind()}" if isinstance(after, Failure) else "the value differs"


class Format:
    """Texts that rnix format changes keep their values, and are then in its style."""

    NAME = "format"

    @staticmethod
    def make(chance):
        text = expressions.text(chance)
        if chance.random() < 0.05:
            text = text.replace("\r\n", "\n").replace("\n", "\r\n")
        return Case(text)

    @staticmethod
    def judge(programs, folder, cases):
        once = programs.run_all("format", [([], it.text) for it in cases])
        twice = programs.run_all("format", [([], ran.out) for ran in once])
        values = compared(folder, [(it.text, ran.out if ran.status == 0 else None) for it, ran in zip(cases, once)])
        refused = [it for it, ran in enumerate(once) if ran.status]
        said = dict(zip(refused, evaluate(folder, [cases[it].text for it in refused])))
        return [Format.verdict(*them, said.get(number)) for number, them in enumerate(zip(cases, once, twice, values))]

    @staticmethod
    def verdict(case, once, twice, values, said):
        if once.status:
            is_refused = isinstance(said, Failure) or READ_OTHERWISE.search(case.text)
            return None if is_refused else Difference("rnix format refuses it", "$ rnix format", f"{once}", f"Nix says: {value_shown(said)}")
        if values:
            return changed(value_words(*values), "rnix format", once, once.out, *values)
        if twice.status or twice.out != once.out:
            return Difference("formatting again changes it", "$ rnix format | rnix format", *shown_text(once.out), "and then", *shown_text(twice.out), f"{twice}")
        return None


class Rename:
    """A name that rnix rename renames has no influence on the value."""

    NAME = "rename"
    NEW_NAMES = NEW_NAMES
    TEXT = staticmethod(expressions.text)

    @classmethod
    def make(cls, chance):
        text = cls.TEXT(chance)
        words = [it for it in WORD.finditer(text) if it.group() not in expressions.KEYWORDS or chance.random() < 0.02] or [re.match("", text)]
        place = cls.chosen(words, chance).start()
        names = cls.NEW_NAMES if chance.random() < 0.6 else [it.group() for it in words]
        return Case(text[:place] + Rename.MARK + text[place:], name=chance.choice(names))

    # Where the name is that is renamed.
    MARK = "\ue000"

    @staticmethod
    def chosen(words, chance):
        return chance.choice(words)

    @staticmethod
    def judge(programs, folder, cases):
        runs = []
        for case in cases:
            before, mark, after = case.text.partition(Rename.MARK)
            runs.append((["-", str(len(before.encode())) if mark else "none", case.name], before + after))
        found = programs.run_all("rename", runs)
        values = compared(folder, [(text, ran.out if ran.status == 0 else None) for (_, text), ran in zip(runs, found)])
        return [Rename.verdict("rnix rename " + " ".join(args), ran, it) for (args, _), ran, it in zip(runs, found, values)]

    @staticmethod
    def verdict(command, ran, values):
        return changed(value_words(*values), command, ran, ran.out, *values) if values else failed(ran, command)


class MergedRename(Rename):
    """The same in texts of sets that several entries make."""

    NAME = "merged-rename"
    NEW_NAMES = ["fresh", "fresh", "fresh", "map"]
    TEXT = staticmethod(merged.text)

    @staticmethod
    def chosen(words, chance):
        """A word near the start, where the names are bound that are no attributes."""
        return words[int(len(words) * chance.random() ** 4)]


class Dead:
    """What rnix dead reports can be removed."""

    NAME = "dead"
    TEXT = staticmethod(expressions.text)

    @classmethod
    def make(cls, chance):
        return Case(cls.TEXT(chance))

    @staticmethod
    def judge(programs, folder, cases):
        found = programs.run_all("dead", [(["--json"], it.text) for it in cases])
        pairs = []
        for case, ran, (root, errors) in zip(cases, found, trees(programs, [it.text for it in cases])):
            names = [json.loads(line) for line in ran.out.split("\n") if line] if ran.status == 1 else []
            pairs.append((case.text, without(root, case.text, names) if names and not errors else None))
        values = compared(folder, pairs)
        return [Dead.verdict("rnix dead --json", ran, new, it) for (_, new), ran, it in zip(pairs, found, values)]

    @staticmethod
    def verdict(command, ran, new, values):
        return changed(value_words(*values), command, ran, new, *values) if values else failed(ran, command)


class MergedDead(Dead):
    """The same in texts of sets that several entries make."""

    NAME = "merged-dead"
    TEXT = staticmethod(merged.text)


class DeadEdit:
    """What rnix dead --edit removes, or writes a `_` before, has no influence on the value. What it leaves is left again."""

    NAME = "dead-edit"

    @staticmethod
    def make(chance):
        text = expressions.text(chance) if chance.random() < 0.8 else merged.text(chance)
        return Case(text, options=chance.choice([[], [], [], ["--underscore"]]))

    @staticmethod
    def judge(programs, folder, cases):
        once = programs.run_all("dead", [(["--edit", *it.options], it.text) for it in cases])
        twice = programs.run_all("dead", [(["--edit", *it.options], ran.out) for it, ran in zip(cases, once)])
        values = compared(folder, [(it.text, ran.out if ran.status < 2 else None) for it, ran in zip(cases, once)])
        return [DeadEdit.verdict(*them) for them in zip(cases, once, twice, values)]

    @staticmethod
    def verdict(case, once, twice, values):
        command = " ".join(["rnix dead --edit", *case.options])
        if values:
            return changed(value_words(*values), command, once, once.out, *values)
        if once.status < 2 and (twice.status, twice.out) != (once.status, once.out):
            return Difference("editing again changes it", f"$ {command} | {command}", *shown_text(once.out), "and then", *shown_text(twice.out), f"{twice}")
        return failed(once, command)


def without(root, text, names):
    """The text without these bindings. The parameters of functions get new names."""
    starts = {it["start"] for it in names}
    changes = {}
    for node in root.below():
        if node.kind in ("NODE_IDENT", "NODE_STRING", "NODE_DYNAMIC") and node.start in starts:
            remove_binding(node, changes)
    for node in root.below():
        if node.kind == "NODE_PATTERN":
            remove_arguments(node, changes)
    new, end = [], 0
    data = text.encode()
    for (start, stop), put in sorted(changes.items()):
        if start >= end:
            new += [data[end:start], put.encode()]
            end = stop
    return b"".join([*new, data[end:]]).decode()


def remove_binding(node, changes):
    """Notes how a binding is removed whose name is at a node."""
    parent = node.parent
    if parent.kind == "NODE_ATTRPATH" and parent.nodes()[0] is node and parent.parent.parent.kind in ("NODE_LET_IN", "NODE_LEGACY_LET"):
        entries = [it for it in parent.parent.parent.nodes() if it.kind == "NODE_ATTRPATH_VALUE"]
        name = plain_name(node.text)
        for entry in entries:
            if plain_name(entry.nodes()[0].nodes()[0].text) == name:
                changes[entry.start, entry.end] = " "
    elif parent.kind == "NODE_INHERIT":
        changes[node.start, node.end] = " "
    elif parent.kind == "NODE_IDENT_PARAM":
        changes[node.start, node.end] = f"unused{node.start}"
    elif parent.kind == "NODE_PAT_BIND":
        changes[parent.start, parent.end] = " "
    elif parent.kind == "NODE_PAT_ENTRY":
        parent.is_removed = True


def plain_name(written):
    """The name that is written so: in quotes, or in an interpolation with quotes, perhaps in parentheses."""
    return re.sub(r'^(\$\{[\s(]*)?("|\'\')(.*?)("|\'\')([\s)]*\})?$', r"\3", written, flags=re.DOTALL)


def remove_arguments(pattern, changes):
    """Notes how the arguments of a pattern are removed: `...` stands for them, if it is not there."""
    entries = [it for it in pattern.nodes() if it.kind == "NODE_PAT_ENTRY"]
    kept = [it for it in entries if not getattr(it, "is_removed", False)]
    if len(kept) == len(entries):
        return
    left, right = pattern.child("TOKEN_L_BRACE"), pattern.child("TOKEN_R_BRACE")
    # What is changed inside of the entries that stay has to be written anew with them.
    for entry in entries:
        if entry not in kept:
            comma = next((it for it in pattern.children[pattern.children.index(entry) :] if it.kind in ("TOKEN_COMMA", "TOKEN_R_BRACE")), right)
            changes[entry.start, comma.end if comma.kind == "TOKEN_COMMA" else comma.start] = " "
    if not pattern.child("TOKEN_ELLIPSIS"):
        last = next((it for it in reversed(pattern.children[: pattern.children.index(right)]) if it.kind in ("TOKEN_COMMA", "NODE_PAT_ENTRY",
                                                                                                             "TOKEN_L_BRACE")), left)
        ends_open = last.kind == "NODE_PAT_ENTRY" and last in kept
        changes[right.start, right.start] = ", ..." if ends_open else " ..."
