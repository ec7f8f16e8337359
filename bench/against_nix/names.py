"""The sort on names: to which binding each one refers by rnix names."""
import json

from . import expressions, merged
from .evaluate import Failure, evaluate, same
from .programs import Case, Difference, failed, value_shown
from .trees import trees
from .values import shown_text, value_words

# How the other names begin.
OTHER = "other_"
NAME_KINDS = ("NODE_IDENT", "NODE_STRING", "NODE_DYNAMIC")
AROUND_NAMES = ("NODE_IDENT_PARAM", "NODE_PAT_ENTRY", "NODE_PAT_BIND", "NODE_ATTRPATH", "NODE_INHERIT")


class Names:
    """What a name refers to, by rnix names, is what it refers to in Nix. Each binding gets another name beside its own, and what refers to it uses that one:
    the value stays. What refers to no binding gets a string instead: the value is that of the text with these names bound to the strings around it."""

    NAME = "names"

    @staticmethod
    def make(chance):
        return Case(chance.choice([merged.text, merged.text, expressions.text])(chance))

    @staticmethod
    def judge(programs, folder, cases):
        found = programs.run_all("names", [(["--json"], it.text) for it in cases])
        read = [Said(root, case.text, ran) if ran.status == 0 and root and not errors else None
                for case, ran, (root, errors) in zip(cases, found, trees(programs, [it.text for it in cases]))]
        texts = [text for said in read if said for text in said.texts]
        values = iter(evaluate(folder, texts))
        known = known_names(folder, {name for said in read if said for name in said.free})
        verdicts = [failed(ran, "rnix names --json") for ran in found]
        for number, said in enumerate(read):
            if said:
                verdicts[number] = said.verdict([next(values) for _ in said.texts], known)
        return verdicts


def known_names(folder, names):
    """Those of some names that Nix itself binds: a `with` does not bind them."""
    names = sorted(names)
    values = evaluate(folder, [f'with {{ {name} = "with"; }}; {name}' for name in names])
    return {name for name, value in zip(names, values) if value != "with"}


class Said:
    """What rnix names says of a text, and the texts that show whether it is so."""

    def __init__(self, root, text, ran):
        lines = [json.loads(line) for line in ran.out.split("\n") if line]
        self.data = text.encode()
        self.nodes = {it.start: it for it in root.below() if it.kind in NAME_KINDS and it.parent.kind in AROUND_NAMES}
        self.references = [it for it in lines if "scope" not in it and expressions.is_identifier(it["name"])]
        # The number of the binding at each place, and the first place of each: what binds a name in a scope is one binding.
        scopes, self.bindings, self.first = {}, {}, {}
        for it in lines:
            if "scope" in it and expressions.is_identifier(it["name"]):
                number = scopes.setdefault((it["scope"]["start"], it["scope"]["end"], it["name"]), len(scopes))
                self.bindings[it["start"]] = number
                self.first.setdefault(number, it)
        self.free = {it["name"] for it in self.references if not it["binding"]}
        # The text, and with other names; both once more with what is free bound to strings.
        strings = "let " + " ".join(f'{name} = "free {name}";' for name in sorted(self.free)) + " in "
        self.texts = [text, self.renamed(False), strings + text, strings + self.renamed(True)]

    def renamed(self, is_free_replaced):
        """The text in which references use the other names of their bindings."""
        changes = []
        for number, it in self.first.items():
            changes.append(self.other_name(self.nodes[it["start"]], it["name"], OTHER + str(number)))
        for it in self.references:
            binding = it["binding"] and self.bindings.get(it["binding"]["start"])
            if binding is not None:
                changes.append(self.reference(it, OTHER + str(binding)))
            elif not it["binding"] and is_free_replaced:
                changes.append(self.reference(it, f'"free {it["name"]}"'))
        new, end = [], 0
        for start, stop, put in sorted(changes):
            new += [self.data[end:start], put.encode()]
            end = stop
        return b"".join([*new, self.data[end:]]).decode()

    def other_name(self, node, name, other):
        """The change that gives a binding another name."""
        pattern = next((it for it in node.above() if it.kind == "NODE_PATTERN"), None)
        if node.parent.kind == "NODE_IDENT_PARAM":
            return node.start, node.end, other
        if node.parent.kind in ("NODE_PAT_ENTRY", "NODE_PAT_BIND"):
            place = pattern.child("TOKEN_L_BRACE").end
            return place, place, f" {other} ? {name}, "
        entry = node.parent if node.parent.kind == "NODE_INHERIT" else node.parent.parent
        path = self.data[entry.start : node.start].decode() if entry.kind == "NODE_ATTRPATH_VALUE" else ""
        return entry.end, entry.end, f" {path}{other} = {name}; "

    def reference(self, it, put):
        """The change that replaces a reference."""
        put = f"; inherit ({{ {it['name']} = {put}; }}) {it['name']}; inherit " if it["inherited"] else put
        return it["start"], it["end"], put

    def verdict(self, values, known):
        for it in self.references:
            if not it["binding"] and it["with"] == (it["name"] in known) and not isinstance(values[0], Failure):
                words = "a name of Nix comes from a with, by rnix names" if it["with"] else "a name is not bound, by rnix names"
                return Difference(words, "$ rnix names --json", json.dumps(it), f"Nix says of the text: {value_shown(values[0])}")
        for number in (0, 2):
            before, after = values[number], without_other(values[number + 1])
            if not isinstance(before, Failure) and not same(before, after) and not is_argument(after):
                words = value_words(before, after) + (" where free names are strings" if number else "")
                return Difference(words, "$ rnix names", *self.shown(), "with other names:", *shown_text(self.texts[number + 1]),
                                  f"Nix says of the text: {value_shown(before)}", f"with other names: {value_shown(after)}")
        return None

    def shown(self):
        for it in self.references:
            yield f"  {it['start']}: {it['name']} " + (f"refers to {it['binding']['start']}" if it["binding"] else "is not bound")


def is_argument(value):
    """Whether a text fails since a function takes no attribute with another name: of such a text nothing is known."""
    return isinstance(value, Failure) and "called with unexpected argument" in value.said


def without_other(value):
    """The value without the attributes of other names."""
    if isinstance(value, dict):
        return {name: without_other(it) for name, it in value.items() if not name.startswith(OTHER)}
    if isinstance(value, (list, tuple)):
        return type(value)(without_other(it) for it in value)
    return value
