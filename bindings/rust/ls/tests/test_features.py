"""What rnix-ls answers about documents."""

import pathlib
import tempfile
import unittest

from client import CAPABILITIES, URI, Client, applied, position_of, span, text_at

TEXT = """\
# A package.
args: { lib, stdenv, unused, ... }:
let
  # The version of
  # the package.
  version = "1.2";
  inherit (lib) mapAttrs;
  help = x: y: x + "${version} 😀 ${y}";
in
with lib;
stdenv.mkDerivation rec {
  pname = "a";
  inherit version;
  name = "${pname}-${version}";
  meta = {
    license = mit;
    list = [
      (help 1 2)
      (map toString [ args missing ])
    ];
  };
}
"""


def find(mark, skip=0, text=TEXT):
    """Returns the position of the n-th place of a mark."""
    at = -1
    for _ in range(skip + 1):
        at = text.index(mark, at + 1)
    return position_of(text, at)


def places(word, text=TEXT):
    """Returns all places of a word, as ranges."""
    found, at = [], text.find(word)
    while at >= 0:
        found.append((*position_of(text, at), *position_of(text, at + len(word))))
        at = text.find(word, at + 1)
    return found


class Features(unittest.TestCase):
    """One server for all tests, and a document for each."""

    @classmethod
    def setUpClass(cls):
        cls.client = Client()

    @classmethod
    def tearDownClass(cls):
        cls.client.__exit__()

    def setUp(self):
        self.client.open(TEXT)

    def edits(self, answer):
        """Returns the edits of an answer, which names the version of the document."""
        (change,) = answer["documentChanges"]
        self.assertEqual(change["textDocument"], {"uri": URI, "version": self.client.version})
        return change["edits"]

    def test_errors_are_published_with_their_words_and_ranges(self):
        self.client.open("{ a = 1 }")
        (error,) = self.client.diagnostics()
        self.assertEqual(error["message"], 'expected ";" after the value of "a", found "}"')
        self.assertEqual((error["severity"], error["source"], error["code"]), (1, "rnix", "syntax-error"))
        self.client.change(((0, 7), (0, 7), ";"))
        self.assertEqual(self.client.diagnostics(), [])

    def test_unused_names_are_hints(self):
        hints = self.client.diagnostics()
        self.assertEqual([span(it) for it in hints], [places("unused")[0], places("mapAttrs")[0]])
        self.assertEqual([(it["severity"], it["tags"], it["code"]) for it in hints], [(4, [1], "unused-name")] * 2)

    def test_closing_a_document_removes_its_diagnostics(self):
        self.client.open("{", "file:///other.nix")
        self.client.diagnostics()
        self.client.tell("textDocument/didClose", {"textDocument": {"uri": "file:///other.nix"}})
        while self.client.read()["params"] != {"uri": "file:///other.nix", "diagnostics": []}:
            pass
        self.assertEqual(self.client.at("hover", (0, 0), "file:///other.nix")["code"], -32602)

    def test_spellings_of_a_uri_are_one_document(self):
        name, other = "file:///a%20%C3%A4.nix", "file:///%61 %c3%a4.nix"
        self.client.open("a: b", name)
        self.client.change(((0, 3), (0, 4), "a"), uri=other)
        (found,) = self.client.at("definition", (0, 3), other)
        self.assertEqual((found["uri"], span(found)), (name, (0, 0, 0, 1)))
        self.client.tell("textDocument/didClose", {"textDocument": {"uri": other}})
        self.assertEqual(self.client.at("hover", (0, 0), name)["code"], -32602)

    def test_definition_leads_to_where_a_name_is_bound(self):
        for use, binding in [
            (find("version}"), places("version")[1]),
            (find("y}"), places("y:")[0][:3] + (places("y:")[0][3] - 1,)),
            (find("pname}"), places("pname")[0]),
            (find("help 1"), places("help")[0]),
            (find("args missing"), places("args")[0]),
            (find("version;"), places("version")[1]),
        ]:
            (found,) = self.client.at("definition", use)
            self.assertEqual((found["uri"], span(found)), (URI, binding))
        self.assertEqual(self.client.at("definition", find("missing")), [])
        self.assertIsNone(self.client.at("definition", find("= [")))

    def test_references_and_highlights_are_the_uses_of_one_binding(self):
        wanted = places("version")[1:4]
        for position in (find("version ="), find("version}")):
            found = self.client.at("references", position, context={"includeDeclaration": True})
            self.assertEqual([span(it) for it in found], wanted)
            found = self.client.at("references", position, context={"includeDeclaration": False})
            self.assertEqual([span(it) for it in found], wanted[1:])
            found = self.client.at("documentHighlight", position)
            self.assertEqual([(span(it), it["kind"]) for it in found], [(it, 3 if it == wanted[0] else 2) for it in wanted])

    def test_formatting_edits_white_space(self):
        text = '{\n    a="😀" ;  b  =  2;\n  # the last\n    c=3;\n}'
        wanted = '{\n  a = "😀";\n  b = 2;\n  # the last\n  c = 3;\n}\n'
        self.client.open(text)
        edits = self.client.at("formatting", options={"tabSize": 8, "insertSpaces": False})
        self.assertEqual(applied(text, edits), wanted)
        self.assertEqual({it["newText"].strip() for it in edits}, {""})
        self.client.open(wanted)
        self.assertEqual(self.client.at("formatting"), [])
        self.client.open("{ a = 1 }")
        self.assertEqual(self.client.at("formatting"), [])

    def test_a_range_is_formatted_alone(self):
        text = "{\n    a=1;\n    b=2;\n    c=3;\n}\n"
        self.client.open(text)
        line = {"start": {"line": 2, "character": 5}, "end": {"line": 2, "character": 6}}
        edits = self.client.at("rangeFormatting", range=line)
        self.assertEqual(applied(text, edits), text.replace("b=2", "b = 2"))
        self.assertEqual(self.client.at("rangeFormatting")["code"], -32602)

    def test_renaming_changes_a_binding_and_its_uses(self):
        prepared = self.client.at("prepareRename", find("help 1"))
        self.assertEqual((span(prepared), prepared["placeholder"]), (places("help")[1], "help"))
        edits = self.edits(self.client.at("rename", find("help 1"), newName="f'"))
        self.assertEqual(applied(TEXT, edits), TEXT.replace("help", "f'"))
        edits = self.edits(self.client.at("rename", find("version ="), newName="v"))
        renamed = TEXT.replace("version =", "v =").replace("{version} ", "{v} ").replace("inherit version", "version = v")
        self.assertEqual(applied(TEXT, edits), renamed)
        self.client.change(applied(TEXT, edits))
        self.assertEqual([it["severity"] for it in self.client.diagnostics()], [4, 4])

    def test_renaming_is_refused_with_the_reason(self):
        for method, position, new, reason in [
            ("rename", find("help"), "lib", "with the new name, some name would refer to something else"),
            ("rename", find("help"), "missing", "with the new name, some name would refer to something else"),
            ("rename", find("help"), "1", "`1` is not a name"),
            ("prepareRename", find("lib,"), None, "callers give this argument by its name"),
            ("prepareRename", find("mapAttrs"), None, "the name is inherited: give it its own entry first"),
            ("prepareRename", find("pname}"), None, "the name is an attribute of a set, which other files may use"),
            ("prepareRename", find("missing"), None, "nothing in this file binds the name"),
            ("prepareRename", find("A package"), None, "no name is here"),
        ]:
            error = self.client.at(method, position, newName=new)
            self.assertEqual((error["code"], error["message"]), (-32803, reason))
        self.client.change(TEXT + ")")
        error = self.client.at("prepareRename", find("help"))
        self.assertEqual(error["message"], "the text has errors: correct these first")

    def test_entries_of_a_pattern_whose_name_is_used_are_no_hints(self):
        self.client.open("args@{ a, b ? 1 }: { c }: args")
        self.assertEqual([span(it) for it in self.client.diagnostics()], [(0, 21, 0, 22)])

    def test_a_quick_fix_corrects_an_error(self):
        text = "{\n  a = [ \"😀\" 1, 2 ];\n  b = '3';\n  c = 4\n  d = 5;\n  e = ;\n}\n"
        self.client.open(text)
        errors = self.client.diagnostics()
        found = [self.client.at("codeAction", range=it["range"], context={"diagnostics": [it]}) for it in errors]
        titles = [[it["title"] for it in actions] for actions in found]
        self.assertEqual(titles, [["Remove `,`"], ["Replace `'3'` by `\"3\"`"], ["Insert `;`"], []])
        for number, before, after in [(0, "1,", "1"), (1, "'3'", '"3"'), (2, "c = 4", "c = 4;")]:
            (action,) = found[number]
            self.assertEqual((action["kind"], action["diagnostics"]), ("quickfix", [errors[number]]))
            self.assertEqual(applied(text, self.edits(action["edit"])), text.replace(before, after))
        whole = {"start": {"line": 0, "character": 0}, "end": {"line": 99, "character": 0}}
        for params, count in [({"diagnostics": []}, 3), ({"diagnostics": [], "only": ["refactor"]}, 0)]:
            self.assertEqual(len(self.client.at("codeAction", range=whole, context=params)), count)
        self.client.change("{\n" + "  a = [ 1, 2 ];\n" * 30 + "}\n")
        self.assertEqual(len(self.client.at("codeAction", range=whole, context={"diagnostics": []})), 20)
        with Client({}) as plain:
            plain.open(text)
            self.assertEqual(plain.at("codeAction", range=whole, context={"diagnostics": []}), [])

    def test_a_quick_fix_removes_an_unused_name(self):
        hints = self.client.diagnostics()
        for hint, before, after in [(hints[0], "stdenv, unused,", "stdenv,"), (hints[1], "  inherit (lib) mapAttrs;\n", "")]:
            context = {"diagnostics": [hint], "only": ["quickfix"]}
            (action,) = self.client.at("codeAction", range=hint["range"], context=context)
            self.assertEqual((action["kind"], action["diagnostics"]), ("quickfix", [hint]))
            self.assertEqual(applied(TEXT, self.edits(action["edit"])), TEXT.replace(before, after))
        whole = {"start": {"line": 0, "character": 0}, "end": {"line": 99, "character": 0}}
        self.assertEqual(len(self.client.at("codeAction", range=whole, context={"diagnostics": [], "only": ["quickfix"]})), 2)
        only = {"diagnostics": [], "only": ["refactor"]}
        self.assertEqual(self.client.at("codeAction", range=whole, context=only), [])

    def test_hover_shows_where_a_name_is_bound_and_the_comment_there(self):
        shown = lambda position: self.client.at("hover", position)["contents"]
        self.assertEqual(
            shown(find("version}")),
            {
                "kind": "markdown",
                "value": '```nix\nversion = "1.2";\n```\n\nBound by `let`, line 6\n\nThe version of\nthe package.',
            },
        )
        self.assertIn("A parameter, line 2", shown(find("stdenv.mk"))["value"])
        self.assertIn("An attribute of a `rec` set, line 12", shown(find("pname}"))["value"])
        self.assertIn("Not bound in this file, unless by a `with` around it", shown(find("mit;"))["value"])
        self.assertIn("Bound by Nix", shown(find("toString"))["value"])
        self.assertIsNone(self.client.at("hover", find("license")))
        self.assertIsNone(self.client.at("hover", find("A package")))

    def test_paths_lead_to_the_files_that_they_name(self):
        with tempfile.TemporaryDirectory() as room:
            room = pathlib.Path(room).resolve() / "a b"
            (room / "in" / "empty").mkdir(parents=True)
            for name in "x.nix", "in/default.nix", "in/y.nix":
                (room / name).write_text("1")
            uri = (room / "in/open.nix").as_uri()
            text = f"[ ./y.nix ../x.nix ./. ./empty ./none.nix {room.parent}/z.nix ./${{a}}.nix ~/y.nix ../in/../in ./y.nix/ ]"
            self.client.open(text, uri)
            links = self.client.at("documentLink", uri=uri)
            names = {"./y.nix": "in/y.nix", "../x.nix": "x.nix", "./.": "in/default.nix", "../in/../in": "in/default.nix"}
            found = {text[slice(*span(it)[1::2])]: it["target"] for it in links}
            self.assertEqual(found, {path: (room / file).as_uri() for path, file in names.items()})
            for path, file in names.items():
                (place,) = self.client.at("definition", (0, text.index(path) + 2), uri)
                self.assertEqual((place["uri"], span(place)), ((room / file).as_uri(), (0, 0, 0, 0)))
            for path in "./none", "./empty", "./${a}", "~/y":
                self.assertIsNone(self.client.at("definition", (0, text.index(path) + 2), uri))
        self.client.open("[ ./y.nix ]", "untitled:Untitled-1")
        self.assertEqual(self.client.at("documentLink", uri="untitled:Untitled-1"), [])

    def test_addresses_lead_to_their_pages(self):
        text = '{\n  a = "https://a.b/ä"; b = "https://a.b/c?d"; c = http://a.b/c; d = "https://${a}";\n  inputs.e.url = "github:NixOS/nixpkgs/24.05";\n}'
        self.client.open(text)
        found = {text_at(text, it): it["target"] for it in self.client.at("documentLink")}
        self.assertEqual(
            found,
            {
                "https://a.b/c?d": "https://a.b/c?d",
                "http://a.b/c": "http://a.b/c",
                "github:NixOS/nixpkgs/24.05": "https://github.com/NixOS/nixpkgs",
            },
        )

    def test_completion_lists_the_names_in_scope(self):
        def labels(text):
            at = text.index("|")
            text = text.replace("|", "")
            self.client.change(text)
            answer = self.client.at("completion", position_of(text, at))
            self.assertFalse(answer["isIncomplete"])
            return {it["label"] for it in answer["items"]}

        self.assertLessEqual({"a", "b", "c", "map", "true"}, labels("c: let a = 1; b = 2; in |"))
        self.assertLessEqual({"a", "b"}, labels("let a = 1; b = a; in a + b|"))
        self.assertLessEqual({"a"}, labels('let a = 1; in "x${|}"'))
        self.assertLessEqual({"a", "args"}, labels("{ a, ... }@args: { b = |"))
        self.assertLessEqual({"a"}, labels("a: { inherit | }"))
        self.assertLessEqual({"import"}, labels("i|"))
        self.assertLessEqual({"let", "if", "with", "rec", "assert"}, labels("a: |"))
        self.assertNotIn("a", labels("(let a = 1; in a) + |"))
        self.assertNotIn("b", labels("{ b = 1; c = |; }"))
        self.assertIn("b", labels("rec { b = 1; c = |; }"))
        self.assertNotIn("b", labels("[ (rec { b = 1; }) | ]"))
        for text in ["a: a.|", "a: a.b|", "a: a ? |", "# a |", '"a |"', "./none/a|", "{ a, | }: 1", "a|: 1"]:
            self.assertEqual(labels(text), set(), text)
        for text in ["a: { | }", "a: { b| }", "let a = 1; | in 1"]:
            self.assertEqual(labels(text), {"inherit"}, text)

    def test_completion_replaces_what_has_been_typed(self):
        self.client.change("let foo-bar = 1; in foo-b")
        items = self.client.at("completion", (0, 25))["items"]
        (item,) = [it for it in items if it["label"] == "foo-bar"]
        self.assertEqual(span(item["textEdit"]), (0, 20, 0, 25))
        self.assertEqual((item["textEdit"]["newText"], item["detail"]), ("foo-bar", "bound by `let`, line 1"))

    def test_symbols_are_the_entries_inside_each_other(self):
        names = lambda symbols: [(it["name"], it["kind"], names(it.get("children", []))) for it in symbols]
        self.assertEqual(
            names(self.client.at("documentSymbol")),
            [
                ("version", 15, []),
                ("mapAttrs", 13, []),
                ("help", 12, []),
                ("pname", 15, []),
                ("version", 13, []),
                ("name", 15, []),
                ("meta", 19, [("license", 13, []), ("list", 18, [])]),
            ],
        )
        with Client({}) as plain:
            plain.open("{ a.b = { c = 1; }; }")
            found = [(it["name"], it.get("containerName")) for it in plain.at("documentSymbol")]
            self.assertEqual(found, [("a.b", None), ("c", "a.b")])

    def test_nodes_and_comments_of_several_lines_fold(self):
        found = [(it["startLine"], it["endLine"], it.get("kind")) for it in self.client.at("foldingRange")]
        self.assertEqual(found, [(2, 7, None), (3, 4, "comment"), (10, 20, None), (14, 19, None), (16, 18, None)])

    def test_selections_grow_along_the_tree(self):
        (chain,) = self.client.at("selectionRange", positions=[dict(line=17, character=8)])
        lines = TEXT.split("\n")
        texts, inner = [], None
        while chain is not None:
            line, start, last, end = span(chain)
            texts.append(lines[line][start:end] if line == last else None)
            if inner is not None:
                self.assertLessEqual((line, start), inner[:2])
                self.assertLessEqual(inner[2:], (last, end))
            inner, chain = (line, start, last, end), chain.get("parent")
        self.assertEqual(texts[:4], ["help", "help 1", "help 1 2", "(help 1 2)"])
        self.assertEqual(inner, (0, 0, 22, 0))

    def tokens(self, answer):
        """Returns the tokens of an answer: the text, the type, and the modifiers."""
        legend = self.client.greeting["capabilities"]["semanticTokensProvider"]["legend"]
        lines, found, line, column = TEXT.split("\n"), [], 0, 0
        for lines_on, columns_on, length, kind, modifiers in zip(*[iter(answer["data"])] * 5):
            line, column = line + lines_on, columns_on + (column if lines_on == 0 else 0)
            units = lines[line].encode("utf-16-le")
            text = units[2 * column : 2 * (column + length)].decode("utf-16-le")
            words = [word for bit, word in enumerate(legend["tokenModifiers"]) if modifiers >> bit & 1]
            found.append((text, legend["tokenTypes"][kind], *words))
        return found

    def test_semantic_tokens_say_what_binds_a_name(self):
        found = self.tokens(self.client.at("semanticTokens/full"))
        for token in [
            ("# A package.", "comment"),
            ("let", "keyword"),
            ("lib", "parameter", "declaration"),
            ("stdenv", "parameter"),
            ("version", "variable", "declaration", "let"),
            ("help", "variable", "let"),
            ("y", "parameter"),
            (" 😀 ", "string"),
            ("mkDerivation", "property"),
            ("pname", "property", "declaration"),
            ("mit", "variable", "with"),
            ("map", "function", "defaultLibrary"),
            ("1", "number"),
            ("+", "operator"),
        ]:
            self.assertIn(token, found)
        lines = {"start": {"line": 5, "character": 0}, "end": {"line": 6, "character": 0}}
        part = self.tokens(self.client.at("semanticTokens/range", range=lines))
        at = found.index(("version", "variable", "declaration", "let"))
        self.assertEqual(part, found[at : at + len(part)])
        self.assertEqual([it[0] for it in part], ["version", "=", '"', "1.2", '"'])

    def test_columns_count_what_the_client_offers(self):
        text = 'ä: "😀" + ä'
        for capabilities, unit in [({"general": {"positionEncodings": ["utf-16", "utf-8"]}}, "utf-8"), ({}, "utf-16")]:
            with Client({**CAPABILITIES, **capabilities}) as client:
                self.assertEqual(client.greeting["capabilities"]["positionEncoding"], unit)
                text = 'let a = 1; in "ä😀" + a'
                client.open(text)
                column = len(text[:-1].encode()) if unit == "utf-8" else len(text[:-1].encode("utf-16-le")) // 2
                (edit, use) = client.at("rename", (0, column), newName="b")["documentChanges"][0]["edits"]
                self.assertEqual(span(use), (0, column, 0, column + 1))
                self.assertEqual(applied(text, [edit, use], unit), text.replace("a ", "b ")[:-1] + "b")
                client.change(((0, column), (0, column + 1), "c"))
                self.assertEqual(client.at("hover", (0, column))["range"]["start"]["character"], column)

    def test_a_client_without_versions_gets_changes_by_name(self):
        with Client({}) as client:
            client.open("a: a")
            answer = client.at("rename", (0, 0), newName="b")
            self.assertEqual(applied("a: a", answer["changes"][URI]), "b: b")
            self.assertEqual(client.at("hover", (0, 0))["contents"]["kind"], "plaintext")


if __name__ == "__main__":
    unittest.main()
