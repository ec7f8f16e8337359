"""The sorts on data: what rnix json prints of Nix texts, and the Nix that it makes of JSON."""
import fractions
import json
import re

from .evaluate import Failure, evaluate, same
from .programs import READ_OTHERWISE, Case, Difference, value_shown
from .values import shown_text

SPACES = ["", " ", " ", " ", "\n", "\t", "\r\n", "\n  ", "  ", " "]
ODD_SPACES = ["\r", "\f", "\u00a0", "\v", "\u2003", "\u0085", "\ufeff"]
COMMENTS = ["# c\n", "/* c */", "#\n", "/**/", "# c\r\n", "/* \r */", "/***/", "# \u00a0\n"]
ODD_COMMENTS = ["# c\r", "# c\r\r\n", "#\r1\n"]
INTEGERS = ["0", "1", "7", "42", "00", "007", "9223372036854775807", "0009223372036854775807", "123456789012345678"]
ODD_INTEGERS = ["9223372036854775808", "18446744073709551616", "1e5", "1_000", "0x10", "1a", "00.5", "1.2.3"]
FLOATS = ["1.5", ".5", "0.5", "1.", "1.0", "10.25", "1.5e3", "1.E3", "1.e-3", "1.5E+10", ".5e-5", "1.0e308", "123456789.123456789", "0.1", "1.10",
          "2.2250738585072014e-308", "0.0", ".0"]
ODD_FLOATS = ["0.", "1.0e309", "1.8e308", "5.0e-324", "1.0e-400", "00.5", "1.e", "0.e1", ".0e-999", "1.5e", "0.0e999", ".5.5", "1..2", "2.2e-308",
              "1.7976931348623157e308", "1.7976931348623159e308"]
QUOTED = ["text", " ", "\\n", "\\t", "\\r", '\\"', "\\\\", "\\$", "\\${", "$$", "$", "\\a", "''", "ä", "\n", "\n  ", "\t", "#", "/*", "𝔸", "'", "\\u0041",
          "\x7f", "\x01", "$$${", "\\\n", "\\'"]
ODD_QUOTED = ["\r", "\r\n", "${a}", '${"b"}', "\\\r", "\\\r\n", "$\r", "\x00"]
INDENTED = ["text", "text ", " ", "  ", "    ", "\t", "\n", "\n", "\n", "\n  ", "\n    ", "\n      ", "\n\t", "\n \t", "\n\n", "\n   \n", "''\\n", "''\\t",
            "''\\r", "''\\\\", "''$", "''${", "'''",
            "$$", "$", "\\", "\\n", '"', "ä", "#", "/*", "' ", "''\\${", "''\\'", "''\\x", "\x01"]
ODD_INDENTED = ["''\\\n", "''\\ ", "''\\\t", "\r\n", "\r", "''\\\r", "''\\\r\n", "${a}", '${"b"}', "\n\r", "\u00a0", "\x0c"]
NAMES = ["a", "b", "c", "a", "b", "a'", "b-c", "_", "or", "true", "null", "rec'", "__x"]
QUOTED_NAMES = ["a", "b", "a b", "", "1", "if", "\\n", "a.b", "\\${x}", "ä", "\\a", "$", "\\\\", "or", "a\nb"]
ODD_VALUES = ["f 1", "x: x", "1 + 1", "a.b", "a", "rec { a = 1; }", "let a = 1; in a", "with { }; 1", "if true then 1 else 2", "assert true; 1", "<a>", "(1)",
              "((1))", "!true", "- 1", "-(1)", "--1", "-\"a\"",
              "{ }.a", "{ a = 1; }.a", "[ 1 ] ++ [ ]", "1 == 1", "-{ }", "(- 1.5)", "( -1)", "builtins", "__curPos", "let { body = 1; }", "{ } // { }",
              "-1 + 2", "- - 1", "(-(-1))", "- 0", "-0.0", "- .5",
              "-9223372036854775807", "-9223372036854775808", "-1 ", "-\n1", "- # c\n1", "- /* c */ 1.5", "1 or 2", "[ -1 ]", "{ inherit; }",
              "{ inherit ({ a = 1; }) a; }", "{ a.b = 1; a = { b = 2; }; }"]


class Nix:
    """Makes a text that is data, or nearly."""

    def __init__(self, chance):
        self.chance = chance
        self.left = chance.choice([3, 8, 20])
        self.odd = chance.choice([0, 0, 0, 0.01, 0.03])

    def choice(self, usual, odd):
        return self.chance.choice(odd if self.chance.random() < self.odd else usual)

    def space(self):
        text = self.choice(SPACES, ODD_SPACES)
        while self.chance.random() < 0.08:
            text += self.choice(COMMENTS, ODD_COMMENTS) + self.choice(SPACES, ODD_SPACES)
        return text

    def apart(self):
        """White space that is not empty."""
        return self.space() or " "

    def quoted(self):
        return '"' + "".join(self.choice(QUOTED, ODD_QUOTED) for _ in range(self.chance.randrange(5))) + '"'

    def indented(self):
        parts = [self.choice(INDENTED, ODD_INDENTED) for _ in range(self.chance.choice([1, 3, 6, 12]))]
        return "''" + self.chance.choice(["", "\n", "\n  ", "  \n"]) + "".join(parts) + self.chance.choice(["", "\n", "\n  ", " x"]) + "''"

    def number(self):
        text = self.choice(INTEGERS, ODD_INTEGERS) if self.chance.random() < 0.5 else self.choice(FLOATS, ODD_FLOATS)
        return text

    def name(self):
        if self.chance.random() < 0.7:
            return self.choice(NAMES, ["''a''", "a b", "1", "if", '${"a"}', '${"a" + ""}', "${''a''}", "${ \"b\" }"])
        return '"' + self.choice(QUOTED_NAMES, ["\r\n", '${"a"}', "\x00"]) + '"'

    def attribute(self):
        path = self.name()
        while self.chance.random() < 0.3:
            path += self.space() + "." + self.space() + self.name()
        return path + self.space() + "=" + self.space() + self.value() + self.space() + ";"

    def set(self):
        """A set whose paths begin with different names, most of the time."""
        attributes = {}
        for _ in range(self.chance.randrange(5)):
            attribute = self.attribute()
            attributes[len(attributes) if self.chance.random() < 0.1 else re.split(r"[\s.=/#]", attribute.replace('"', ""))[0]] = attribute
        return "{" + "".join(self.space() + it for it in attributes.values()) + self.space() + "}"

    def list(self):
        return "[" + "".join(self.apart() + self.item() for _ in range(self.chance.randrange(5))) + self.space() + "]"

    def item(self):
        text = self.value()
        return f"({self.space()}{text}{self.space()})" if text[:1] in "-" or self.chance.random() < 0.05 else text

    def value(self):
        self.left -= 1
        if self.chance.random() < self.odd:
            return self.chance.choice(ODD_VALUES)
        simple = [self.number, self.number, self.quoted, self.quoted, self.indented, self.indented, lambda: "-" + self.space() + self.number(),
                  lambda: self.chance.choice(["null", "true", "false", "https://a.b/c", "a:b", "x-y+z.1:%"])]
        more = [self.set, self.set, self.set, self.list, self.list, lambda: f"({self.space()}{self.value()}{self.space()})"]
        return self.chance.choice(more * 2 + simple if self.left > 0 else simple)()


def unique(pairs):
    found = dict(pairs)
    if len(found) != len(pairs):
        raise ValueError("a name twice")
    return found


def exact(text):
    number = float(text)
    if number in (float("inf"), float("-inf")):
        raise ValueError("too large")
    return ("float", fractions.Fraction(number))


def refuse(text):
    raise ValueError(text)


def data_of(text):
    """The data of a JSON text, with exact floats. It is a ValueError where the text is not JSON, or has a name twice."""
    data = json.loads(text, object_pairs_hook=unique, parse_float=exact, parse_constant=refuse)
    text.encode()
    json.dumps(data, default=str, ensure_ascii=False).encode()
    return data


def alike(printed, value):
    """Whether data is what Nix says. A path is a text, and nothing more is known of it."""
    if isinstance(value, tuple) and value[0] == "p":
        return isinstance(printed, str)
    if isinstance(printed, dict) and isinstance(value, dict):
        return printed.keys() == value.keys() and all(alike(it, value[name]) for name, it in printed.items())
    if isinstance(printed, list) and isinstance(value, list):
        return len(printed) == len(value) and all(map(alike, printed, value))
    return same(printed, value)


# Why rnix json refuses what Nix evaluates, by docs/json.md.
MAY_REFUSE = re.compile(
    "(a call|`assert`|an operator|`__curPos`|a computed name|a name|`if`|`inherit`|an interpolation|a function|`let`|`rec`|a search path|a selection|`with`)"
    " is not data|a string cannot hold the character 0"
)
RETURN = "Nix reads this carriage return as a line feed"


class Json:
    """What rnix json prints of a text is its value, and it refuses only what has to be evaluated."""

    NAME = "json"

    @staticmethod
    def make(chance):
        maker = Nix(chance)
        return Case(maker.space() + maker.value() + maker.space())

    @staticmethod
    def judge(programs, folder, cases):
        values = evaluate(folder, [it.text for it in cases])
        found = programs.run_all("json", [([], it.text) for it in cases])
        return [Json.verdict(*them) for them in zip(cases, found, values)]

    @staticmethod
    def verdict(case, ran, value):
        words = Json.words(case, ran, value)
        return Difference(words, "$ rnix json", *shown_text(ran.out), f"{ran}", f"Nix says: {value_shown(value)}") if words else None

    @staticmethod
    def words(case, ran, value):
        if ran.status == 0:
            if isinstance(value, Failure):
                return value.kind()
            try:
                return None if alike(data_of(ran.out), value) else "other data"
            except ValueError as error:
                return f"what is printed is no JSON: {error}"
        if ran.status != 1:
            return f"status {ran.status}"
        if READ_OTHERWISE.search(case.text) and "error: " in ran.said:
            return None
        if isinstance(value, Failure) or MAY_REFUSE.search(ran.said) or RETURN in ran.said and "\r" in case.text:
            return None
        reason = re.search(r"error: (.*)", ran.said)
        return "it is refused: " + re.sub(r'".*?"', "..", reason.group(1) if reason else "")[:60]


CHARACTERS = ["a", "b", " ", "\\n", "\\t", "\\r", '\\"', "\\\\", "\\/", "\\b", "\\f", "$", "${", "''", "ä", "\\u00e4", "\\u20AC", "\\ud835\\udd38", "𝔸",
              "\\u0001", "\x7f", "\\u007f", "\\u2028",
              "\u2028", "\ufeff", "\\uFFFF", "#", "'", "\\u0024{", "$\\u007b", "$$", "\\u005c", "\\u0022", "\\ud800\\udc00", "\\udbff\\udfff"]
ODD_CHARACTERS = ["\\u0000", "\\ud800", "\\udc00", "\\ud800\\u0041", "\\x", "\n", "\t", "\x00", "\\u12", "\x1f", "\\ud800\\ud800", "\\"]
NUMBERS = ["0", "1", "-1", "10", "-0", "123456789012345678", "9223372036854775807", "-9223372036854775807", "1.5", "-1.5", "0.1", "1e5", "1E5", "1e+5", "1e-5",
           "1.5e300", "-1e-300", "0.0", "-0.0", "0e0", "1.0",
           "0e5", "12.50", "100000000000000000000.0", "1e308", "1.7976931348623157e308", "2.2250738585072014e-308", "0.30000000000000004", "0e999", "0.0e-999"]
ODD_NUMBERS = ["9223372036854775808", "-9223372036854775808", "1e309", "1e-400", "5e-324", "01", "-", "+1", ".5", "1.", "1e", "NaN", "Infinity", "-Infinity",
               "0x1", "1.e5", "--1", "1_0", "1.7976931348623159e308", "123456789012345678901234567890", "00", "-01",
               "1e99999999999999999999", "4.9e-324", "2.2e-308", "2.225073858507201e-308"]


class JsonMaker:
    """Makes a JSON text, or nearly."""

    def __init__(self, chance):
        self.chance = chance
        self.left = chance.choice([2, 8, 25])
        self.odd = chance.choice([0, 0, 0.01, 0.05])

    def choice(self, usual, odd):
        return self.chance.choice(odd if self.chance.random() < self.odd else usual)

    def space(self):
        return self.choice(["", "", " ", "\n", "\t", "\r\n", "  "], ["\f", "\u00a0", "//\n", "\ufeff", "\v", ","])

    def string(self):
        return '"' + "".join(self.choice(CHARACTERS, ODD_CHARACTERS) for _ in range(self.chance.randrange(6))) + '"'

    def name(self):
        if self.chance.random() < 0.6:
            return '"' + self.chance.choice(["a", "b", "c", "a-b", "a'", "if", "or", "true", "rec", "_", "", "1", "a.b", "__x", "inherit", "-a", "a b", "${",
                                             "'a"]) + '"'
        return self.string()

    def value(self):
        self.left -= 1
        simple = [self.string, self.string, lambda: self.choice(NUMBERS, ODD_NUMBERS), lambda: self.choice(NUMBERS, ODD_NUMBERS),
                  lambda: self.choice(["null", "true", "false"], ["nul", "True", "'a'", "", "undefined"])]
        return self.chance.choice([self.array, self.object] * 3 + simple if self.left > 0 else simple)()

    def separated(self, make):
        parts = [self.space() + make() + self.space() for _ in range(self.chance.randrange(5))]
        return self.choice([","], [";", "", ",,"]).join(parts) + self.choice([self.space()], [","])

    def array(self):
        return "[" + self.separated(self.value) + "]"

    def object(self):
        names = set()

        def member():
            name = self.name()
            while name in names and self.chance.random() > self.odd:
                name = self.name()
            names.add(name)
            return name + self.space() + self.choice([":"], ["=", ""]) + self.space() + self.value()

        return "{" + self.separated(member) + "}"


def nix_holds(data):
    """Whether Nix can write data: by docs/json.md."""
    if isinstance(data, str):
        return "\0" not in data
    if isinstance(data, tuple):
        return True
    if isinstance(data, int):
        return -(2**63) < data < 2**63
    if isinstance(data, dict):
        return all(nix_holds(name) and nix_holds(it) for name, it in data.items())
    return all(map(nix_holds, data)) if isinstance(data, list) else True


def loses_digits(text):
    """Whether a JSON text has a float that a double holds only with fewer digits, near 0."""
    for found in re.finditer(r"-?\d+(\.\d+)?([eE][+-]?\d+)?", re.sub(r'"(\\.|[^"\\])*"', '""', text)):
        if found.group(1) or found.group(2):
            significant = re.sub(r"[eE].*", "", found.group()).strip("-0.")
            if significant and abs(float(found.group())) < 2.2250738585072014e-308:
                return True
    return False


class ToNix:
    """The Nix that rnix json makes of JSON has the same data, and rnix json reads it back."""

    NAME = "to-nix"

    @staticmethod
    def make(chance):
        maker = JsonMaker(chance)
        return Case(maker.space() + maker.value() + maker.space())

    @staticmethod
    def judge(programs, folder, cases):
        there = programs.run_all("json", [(["--to-nix"], it.text) for it in cases])
        back = programs.run_all("json", [([], ran.out if ran.status == 0 else "null") for ran in there])
        values = evaluate(folder, [ran.out if ran.status == 0 else "null" for ran in there])
        return [ToNix.verdict(*them) for them in zip(cases, there, back, values)]

    @staticmethod
    def verdict(case, there, back, value):
        words = ToNix.words(case, there, back, value)
        if not words:
            return None
        return Difference(words, "$ rnix json --to-nix", *shown_text(there.out), f"{there}", f"Nix says: {value_shown(value)}", "and back:",
                          *shown_text(back.out), f"{back}")

    @staticmethod
    def words(case, there, back, value):
        try:
            data = data_of(case.text)
        except (ValueError, RecursionError) as error:
            return None if there.status == 1 else f"it is taken, and is no JSON (status {there.status}): {str(error).split(':')[0]}"
        if there.status == 1 and (not nix_holds(data) or loses_digits(case.text)):
            return None
        if there.status:
            return f"it is JSON, and refused (status {there.status}): " + re.sub(r".*\d: ", "", there.said.split("\n")[0])[:60]
        if not alike(data, value):
            return "Nix reads other data"
        try:
            return None if alike(data_of(back.out), data) else "rnix json reads other data"
        except ValueError as error:
            return f"what is read back is no JSON: {error}"
