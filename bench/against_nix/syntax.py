"""The sort of texts that may be no Nix: rnix check and Nix accept the same, but for what docs/nix.md lists."""
import re

from . import expressions
from .evaluate import Failure, parse
from .programs import Case, Difference, value_shown
from .repeated import repeated
from .trees import trees

TOKENS = """
    a b c a' a-b _ or __curPos true null let in rec with assert if then else inherit let in = = = ; ; ; : : , . . ... @ ? ( ) ( ) [ ] [ ] { } { } { } ${ } "
    " '' '' + - * / ++ // < <= > >= == != && || -> ! ? 1 0 00 1.5 .5 1. 1.e5 0.5 1.5e3 "a" "${a}" ''b'' ''${a}'' ./a /a ~/a a/b ../a <a> <a/b> a:b
    https://a.b ./a${b} /a${b}/c $ ' \\ # /* */ |> <| "\\n" ''''\\n'' {} [] () {a=b;} (a) a: {a}: {a,...}: a@{}: {}@a: let{body=a;} inherit(a)b; {inherit}
    ./a/ ./. . .. .../a 0. 0.a 1.e a. .a a.b a.b.c a?b a.${b} {${a}=b;} "a${b}c" if a then b else c let a=b; in with a; assert a; x: x rec{} rec{a=b;} -1 !a
    ./a~/b ~ ~/ / // /. /.. a/ a/. <a/> </> <a//b> <.> <..> <-> <a.b> // */ ä # 9223372036854775808 1.0e999 1..2 1.a 0x1 a$ $a $$ '''
""".split()
GLUE = [" ", " ", " ", " ", "", "", "\n", "\t", "# c\n", "/* c */", "  ", "\r\n"]
ODD_GLUE = ["\r", "\f", "\u00a0", "# c\r", "# a\r b\n", "/*", "#", "\v", "\x00", "\ufeff"]
WORD = re.compile(r"\s+|[A-Za-z_][\w'-]*|\d+|''|\$\{|//|\+\+|->|==|!=|<=|>=|&&|\|\||.", re.DOTALL)


def soup(chance):
    """Tokens in no order."""
    odd = chance.choice([0, 0, 0, 0.03])
    parts = []
    for _ in range(chance.choice([2, 3, 4, 6, 10])):
        parts += [chance.choice(TOKENS), chance.choice(ODD_GLUE if chance.random() < odd else GLUE)]
    return "".join(parts)


ATOMS = """
    a b c a-b or __curPos 1 0 00 1.5 .5 1. 0. 0.5 1e5 1.5e3 "a" "${a}" ''b'' ''${a}'' ./a /a ~/a a/b ../a <a> <a/b> a:b https://a.b ./a${b} {} [] (a) {a=b;}
    a.b a?b let{body=a;} rec{} [a] "" '''' ./. /a/b a.${b} "a".b {a,...}:a a:b a b c 1 "a" {} a.b
""".split()


class Nested:
    """Makes texts that follow the grammar, and sometimes do not."""

    def __init__(self, chance):
        self.chance = chance
        self.odd = chance.choice([0, 0.02, 0.1])

    def text(self):
        """The text, with other white space."""
        odd, changed = self.chance.choice([0, 0, 0, 0.02]), self.chance.choice([0, 0.1, 0.5])
        first, *parts = self.inner(0).split(" ")
        return first + "".join(self.glue(odd, changed) + part for part in parts)

    def glue(self, odd, changed):
        if self.chance.random() > changed:
            return " "
        return self.chance.choice(ODD_GLUE if self.chance.random() < odd else GLUE)

    def name(self):
        usual = ["a", "b", "c", "a", "b", '"a"', '${"b"}', "or"]
        odd = ["${a}", "''a''", "${a b}", "rec", "1", '"${a}"', "a.b", "a . b", "${''a''}", "${}", "or", "__curPos", '"a b"', "a?b", "-", "${a: b}", "if"]
        return self.chance.choice(odd if self.chance.random() < self.odd else usual)

    def entry(self, depth):
        name, inner = self.name, lambda: self.inner(depth + 1)
        usual = [lambda: f"{name()} = {inner()};", lambda: f"a.{name()} = {inner()};", lambda: f"inherit a {name()};",
                 lambda: f"inherit ({inner()}) {name()} c;"]
        odd = [lambda: f"{name()}.{name()} = {inner()};", lambda: f"{name()};", lambda: "inherit;", lambda: "inherit (a);", lambda: f"a = {inner()}",
               lambda: ";"]
        return self.chance.choice(odd if self.chance.random() < self.odd else usual)()

    def entries(self, depth):
        return " ".join(self.entry(depth) for _ in range(self.chance.randrange(3)))

    def pattern(self, depth):
        names = ["a", "b", "c", "d ? 1", f"e ? {self.inner(depth + 1)}", "..."]
        odd = ["or", "", "a ?", "__curPos", '"a"', "... ? 1", "a b"]
        parts = [self.chance.choice(odd) if self.chance.random() < self.odd else it for it in self.chance.sample(names, self.chance.randrange(4))]
        return "{ " + self.chance.choice([", ", ", ", " , ", ","]).join(sorted(parts, key="...".__eq__)) + " }"

    def operator(self):
        odd = ["|>", "<|", "?", "!"] if self.chance.random() < self.odd else []
        return self.chance.choice("+ - * / ++ // < <= > >= == != && || -> + - *".split() + odd)

    def inner(self, depth):
        if self.chance.random() < self.odd / 2:
            return self.chance.choice(TOKENS)
        if depth > 4 or self.chance.random() < 0.3:
            return self.chance.choice(ATOMS)
        inner, simple, name, operator, chance = lambda: self.inner(depth + 1), lambda: self.simple(depth), self.name, self.operator, self.chance
        return chance.choice([
            lambda: f"({inner()})",
            lambda: f"[ {simple()} {simple()} ]",
            lambda: chance.choice(["{ ", "rec { ", "{", "let { "]) + self.entries(depth) + " }",
            lambda: f"let {self.entries(depth)} in {inner()}",
            lambda: f"{simple()} {operator()} {inner()}",
            lambda: f"{simple()} {operator()} {simple()} {operator()} {simple()}",
            lambda: f"{inner()} {operator()} {simple()} {operator()} {inner()} {operator()} {simple()}",
            lambda: f"{chance.choice('--!')}{chance.choice(['', ' '])}{simple()}",
            lambda: f"{simple()} {simple()}",
            lambda: f"{simple()}.{name()}",
            lambda: f"{simple()}.{name()} or {simple()}",
            lambda: f"{simple()} ? {name()}.{name()}",
            lambda: f"if {inner()} then {inner()} else {inner()}",
            lambda: f"with {inner()}; {inner()}",
            lambda: f"assert {inner()}; {inner()}",
            lambda: f"{chance.choice(['a', 'b', 'c', 'or', '__curPos'])}: {inner()}",
            lambda: f"{self.pattern(depth)}: {inner()}",
            lambda: f"{self.pattern(depth)}@f: {inner()}",
            lambda: f"{name()} @ {self.pattern(depth)}: {inner()}",
            lambda: '"' + chance.choice(["", "a", "$", "\\\\", "$$"]) + "${" + inner() + '}"',
            lambda: "''" + chance.choice(["", "a", "$", "''$", "'''", "''\\n", "' "]) + "${" + inner() + "}''",
            lambda: chance.choice(["./a", "/a", "~/a", "a/b", "./a/", "/", "../a-"]) + "${" + inner() + "}" + chance.choice(["", "", "/b", "/", "b", "//b",
                                                                                                                             "~/b", "."]),
        ])()

    def simple(self, depth):
        """What may be an operand, most of the time."""
        if self.chance.random() < self.odd:
            return self.inner(depth + 1)
        return self.chance.choice([lambda: self.chance.choice(ATOMS), lambda: f"({self.inner(depth + 1)})"])()


def nested(chance):
    return Nested(chance).text()


def broken(chance):
    """A text that Nix evaluates, and a change or two."""
    words = WORD.findall(expressions.text(chance))
    for _ in range(chance.choice([0, 1, 1, 2])):
        place = chance.randrange(len(words))
        chance.choice([
            lambda: words.__setitem__(place, ""),
            lambda: words.insert(place, chance.choice(TOKENS)),
            lambda: words.insert(place, words[chance.randrange(len(words))]),
            lambda: words.__setitem__(place, chance.choice(TOKENS)),
            lambda: words.__setitem__(slice(place, place + 2), words[place : place + 2][::-1]),
        ])()
    return "".join(words)


class Check:
    NAME = "check"

    @staticmethod
    def make(chance):
        return Case(chance.choice([soup, nested, nested, nested, broken, repeated])(chance))

    @staticmethod
    def judge(programs, folder, cases):
        found = programs.run_all("check", [(["--json"], it.text) for it in cases])
        said = parse(folder, [it.text for it in cases])
        verdicts = [None] * len(cases)
        differing = [it for it, (ran, failure) in enumerate(zip(found, said)) if ran.status > 1 or (ran.status == 0) != (failure is None)]
        for number, (root, errors) in zip(differing, trees(programs, [cases[it].text for it in differing])):
            text, ran, failure = cases[number].text, found[number], said[number]
            words = f"status {ran.status}" if ran.status > 1 else wrong_with(text, root, errors, failure)
            if words:
                verdicts[number] = Difference(words, "$ rnix check", f"{ran}", *ran.out.strip().split("\n")[:1],
                                              f"Nix says: {'accepted' if failure is None else value_shown(failure)}")
        return verdicts


def wrong_with(text, root, errors, failure):
    """In a few words, how the verdicts differ, or nothing if docs/nix.md lists it."""
    if failure is None and not errors:
        is_listed = any(is_zero_point(node) or inherits_nothing(node) for node in [root, *root.below()])
        return None if is_listed else "Nix accepts what rnix check reports beyond the grammar"
    if failure is None:
        return None if any(it(text, root, errors[0]) for it in ACCEPTED_BY_NIX) else "Nix accepts it: " + re.sub(r" at \d.*", "", errors[0]["message"])[:60]
    if any(re.search(it, failure.said) for it in BEYOND_GRAMMAR) or any(it(node) for it in REFUSED_BY_NIX for node in [root, *root.below()]):
        return None
    return failure.kind()


# What Nix accepts and rnix does not, by the first error.


def leaves(root):
    return [it for it in root.below() if not it.children]


def solid(root):
    """The tokens other than white space and comments."""
    return [it for it in leaves(root) if it.kind not in ("TOKEN_WHITESPACE", "TOKEN_COMMENT") and it.kind.startswith("TOKEN_")]


def token_at(root, error):
    """The token at which an error begins, the one before it and the one after it."""
    tokens = solid(root)
    if error["start"] is None:
        return (tokens[-1] if tokens else None), None, None
    number = next((it for it, token in enumerate(tokens) if token.start >= error["start"]), None)
    if number is None:
        return (tokens[-1] if tokens else None), None, None
    return (tokens[number - 1] if number else None), tokens[number], tokens[number + 1] if number + 1 < len(tokens) else None


def has_nul(text, root, error):
    return "\0" in text


def is_inversion(text, root, error):
    _, token, _ = token_at(root, error)
    return token is not None and token.kind == "TOKEN_INVERT"


def is_old_let(text, root, error):
    before, token, after = token_at(root, error)
    if token is not None and token.kind == "TOKEN_LET" and after is not None and after.kind == "TOKEN_L_BRACE":
        return True
    return before is not None and any(it.kind == "NODE_LEGACY_LET" and it.end == before.end for it in before.above())


def is_error_token(text, root, error):
    _, token, _ = token_at(root, error)
    if token is None or token.kind != "TOKEN_ERROR":
        return False
    return re.fullmatch(r"(0?\.\d+|[1-9]\d*\.\d*)[eE][+-]?|.*//.*|[A-Za-z0-9._+-]+/|<[A-Za-z0-9._+/-]+<", token.text, re.DOTALL) is not None


def is_path_of_dots(text, root, error):
    _, token, _ = token_at(root, error)
    path = rb"\.\.\.[A-Za-z0-9._+-]*(/[A-Za-z0-9._+-]+)+"
    return token is not None and token.kind == "TOKEN_ELLIPSIS" and re.match(path, text.encode()[token.start:]) is not None


def is_zero_selected(text, root, error):
    before, token, _ = token_at(root, error)
    return before is not None and token is not None and token.kind == "TOKEN_INTERPOL_START" and before.text == "0." and before.end == token.start


def is_or_of_zero(text, root, error):
    _, token, _ = token_at(root, error)
    before = rb"(^|[^\w.])0\.or(\s|#[^\n]*\n|/\*.*?\*/)*$"
    return token is not None and token.kind == "TOKEN_OR" and re.search(before, text.encode()[:token.start], re.DOTALL) is not None


def ends_comment(text, root, error):
    return any(is_comment_with_return(it) for it in root.below())


ACCEPTED_BY_NIX = [has_nul, ends_comment, is_inversion, is_old_let, is_error_token, is_path_of_dots, is_zero_selected, is_or_of_zero]

# What Nix refuses and rnix does not: what it says beyond the grammar, and what the tree shows.
BEYOND_GRAMMAR = ["invalid float"]


def is_lambda_operand(node):
    return node.kind == "NODE_LAMBDA" and node.parent.kind in ("NODE_APPLY", "NODE_BIN_OP", "NODE_UNARY_OP", "NODE_SELECT", "NODE_LIST", "NODE_HAS_ATTR")


def is_many_in_one_name(node):
    return node.kind == "NODE_DYNAMIC" and len(node.nodes()) != 1


def is_indented_name(node):
    return node.kind == "NODE_STRING" and node.text.startswith("''") and node.parent.kind in ("NODE_ATTRPATH", "NODE_INHERIT")


def is_zero_point(node):
    return node.kind == "TOKEN_FLOAT" and node.text == "0."


def inherits_nothing(node):
    """Whether an inherit has parentheses and no names: Nix does not look up the names in the parentheses."""
    return node.kind == "NODE_INHERIT" and [it.kind for it in node.nodes()] == ["NODE_INHERIT_FROM"]


def is_pipe(node):
    return node.kind in ("TOKEN_PIPE_RIGHT", "TOKEN_PIPE_LEFT")


def is_parted_path(node):
    return node.kind in ("NODE_PATH_ABS", "NODE_PATH_REL", "NODE_PATH_HOME") and any(it.kind in ("TOKEN_WHITESPACE", "TOKEN_COMMENT") for it in node.children)


def is_empty_piece(node):
    return node.kind == "TOKEN_PATH_SEARCH" and re.search("</|//|/>", node.text) is not None


def is_doubled_home(node):
    return node.kind == "TOKEN_PATH_HOME" and node.text.startswith("~//")


def is_comment_with_return(node):
    return node.kind == "TOKEN_COMMENT" and node.text.startswith("#") and "\r" in node.text.rstrip("\r\n")


REFUSED_BY_NIX = [is_lambda_operand, is_many_in_one_name, is_indented_name, is_zero_point, is_pipe, is_parted_path, is_empty_piece, is_doubled_home,
                  is_comment_with_return]
