"""The sort of data whose names are written in many ways, most of them in `${ }`."""
from . import merged
from .data import Json
from .evaluate import Failure, evaluate
from .expressions import escaped, is_identifier
from .programs import Case, Difference, value_shown
from .trees import trees

NAMES = ["a", "b", "ab", "a$", "a$b", "$", "a$$", "a'b", "a b", "a:b", "or", "if", "a\n", ""]
BRACES = [["{", "}"]] * 4 + [["(", "{", "}", ")"], ["(", "(", "{", "}", ")", ")"]]


class Maker(merged.Pieces):
    """Makes sets in pieces, of data."""

    def __init__(self, chance):
        super().__init__(chance, chance.sample(NAMES, 4))
        # How often a name is one that Nix computes, which may be no second one.
        self.odd = chance.choice([0, 0.05, 0.2])

    def braces(self, path, entries):
        items = self.chance.choice(BRACES)
        place = items.index("}")
        return [*items[:place], *(item for entry in entries for item in entry), *items[place:]]

    def value(self, path, depth):
        return [self.chance.choice(["1", '"a"', "[ ]", "{ }", "null", "(1)"])]

    def spelled(self, name):
        if (is_identifier(name) or name == "or") and self.odds(0.3):
            return name
        inner = self.computed(name) if self.odds(self.odd) else self.string(name)
        if inner[0] == '"' and self.odds(0.3):
            return inner
        while self.odds(0.3):
            inner = f"({inner})" if self.odds(0.7) else f"( {inner} )"
        return "${" + inner + "}" if self.odds(0.7) else "${ " + inner + " }"

    def string(self, name):
        """A string that is one piece for Nix, but for one in two quotes that ends with `$`."""
        if name == "a:b" and self.odds(0.4):
            return name
        if self.odds(0.6) or "\n" in name:
            return '"' + escaped(name) + '"'
        return "''" + self.chance.choice(["", "", "\n", "\n  "]) + name + "''"

    def computed(self, name):
        """An expression that Nix evaluates for the name, most of the time."""
        # Not behind a `$`, which would be read with the `${` after it.
        cut = self.chance.choice([it for it in range(len(name) + 1) if name[it - 1 : it] != "$"])
        first, last = escaped(name[:cut]), escaped(name[cut:])
        return self.chance.choice([f'"{first}${{"{last}"}}"', f'"${{"{first}"}}{last}"', f"''{name[:cut]}${{\"{last}\"}}''", f"''${{\"{escaped(name)}\"}}''",
                                   f'("{first}" + "{last}")', f'"{first}${{"${{"{last}"}}"}}"'])

    def text(self):
        return " ".join(self.braces([], self.entries([], self.some(), 0)))


class JsonNames(Json):
    """The same of such data. A name counts as computed only where it does for Nix."""

    NAME = "json-names"

    @staticmethod
    def make(chance):
        return Case(Maker(chance).text())

    @staticmethod
    def judge(programs, folder, cases):
        values = evaluate(folder, [it.text for it in cases])
        found = programs.run_all("json", [([], it.text) for it in cases])
        verdicts = [Json.verdict(*them) for them in zip(cases, found, values)]
        refused = [it for it, ran in enumerate(found) if not verdicts[it] and "a computed name" in ran.said and not isinstance(values[it], Failure)]
        for number, has_computed in zip(refused, have_computed(programs, folder, [cases[it].text for it in refused])):
            if not has_computed:
                verdicts[number] = Difference("a name counts as computed", "$ rnix json", f"{found[number]}", f"Nix says: {value_shown(values[number])}")
        return verdicts


def is_in_pieces(name):
    """Whether a name is a string in two quotes with a `$`: Nix takes some of these for one piece, docs/nix.md says which, and here they count as computed."""
    return "$" in name.partition("''")[2]


def have_computed(programs, folder, texts):
    """For each text, whether Nix computes one of its names, since it takes no such name in a `let`, or one counts as computed here."""
    written = [{name.text for it in root.below() if it.kind == "NODE_ATTRPATH" for name in it.nodes()} if root else {""} for root, _ in trees(programs, texts)]
    names = sorted(set().union(*written))
    values = evaluate(folder, [f"let {name} = 1; in 0" for name in names])
    computed = {name for name, value in zip(names, values) if isinstance(value, Failure) or is_in_pieces(name)}
    return [not names.isdisjoint(computed) for names in written]
