"""The code actions of rnix-ls."""

import random
import unittest

from client import URI, Client, applied, place, position_of

KINDS = ["quickfix", "refactor.extract", "refactor.rewrite", "source.removeUnused"]


class Actions(unittest.TestCase):
    """One server for all tests."""

    @classmethod
    def setUpClass(cls):
        cls.client = Client()

    @classmethod
    def tearDownClass(cls):
        cls.client.__exit__()

    def actions(self, marked, only=None):
        """Opens a text, and returns the actions for what is between its first two `|`, or at the only one: the texts after them, by their titles."""
        before, inner, *after = marked.split("|", 2)
        text = before + inner + "".join(after)
        start = position_of(text, len(before))
        end = position_of(text, len(before) + len(inner)) if after else start
        self.client.open(text)
        context = {"diagnostics": []} if only is None else {"diagnostics": [], "only": only}
        found = self.client.at("codeAction", range={"start": place(start), "end": place(end)}, context=context)
        return {it["title"]: applied(text, self.edits(it["edit"])) for it in found}

    def edits(self, edit):
        (change,) = edit["documentChanges"]
        self.assertEqual(change["textDocument"], {"uri": URI, "version": self.client.version})
        return change["edits"]

    def test_the_kinds_are_announced(self):
        self.assertEqual(self.client.greeting["capabilities"]["codeActionProvider"]["codeActionKinds"], KINDS)

    def test_an_unbound_name_becomes_a_parameter(self):
        title = "Add `fetchurl` to the parameters"
        for marked, wanted in [
            ("{ lib }: lib.x fetch|url", "{ lib, fetchurl }: lib.x fetchurl"),
            ("{ lib, ... }: |fetchurl lib", "{ lib, fetchurl, ... }: fetchurl lib"),
            ("{\n  lib,\n  stdenv,\n}:\n[ lib stdenv |fetchurl ]\n", "{\n  lib,\n  stdenv,\n  fetchurl,\n}:\n[ lib stdenv fetchurl ]\n"),
            ("{ lib\n, stdenv\n}: [ lib stdenv |fetchurl ]", "{ lib\n, stdenv\n, fetchurl\n}: [ lib stdenv fetchurl ]"),
        ]:
            self.assertEqual(self.actions(marked)[title], wanted)
        for marked in ["{ lib }: with lib; |fetchurl", "lib: |fetchurl", "{ lib }: [ |fetchurl (with lib; fetchurl) ]", "{ lib }: lib.|fetchurl"]:
            self.assertNotIn(title, self.actions(marked))

    def test_entries_and_inherited_names_change_into_each_other(self):
        for entry, inherit in [
            ("a: { |x = a.x; }", "a: { inherit (a) |x; }"),
            ("a: { |x = a.b.x; }", "a: { inherit (a.b) |x; }"),
            ("x: { |x = x; }", "x: { inherit |x; }"),
            ("a: rec { |x = a.x; y = x; }", "a: rec { inherit (a) |x; y = x; }"),
            ("let a = b; |x = a.x; in x", "let a = b; inherit (a) |x; in x"),
        ]:
            plain = lambda marked: marked.replace("|", "")
            self.assertEqual(self.actions(entry)["Inherit `x`"], plain(inherit))
            self.assertEqual(self.actions(inherit)["Give `x` its own entry"], plain(entry))
        for marked in ["x: rec { |x = x; }", "let |x = x; in x", "a: { |x = a.y; }", "a: { |x = a.x or 1; }"]:
            self.assertNotIn("Inherit `x`", self.actions(marked))
        for marked in ["x: rec { inherit |x; }", "x: let inherit |x; in x", "a: { inherit (a) /* b */ |x; }"]:
            self.assertNotIn("Give `x` its own entry", self.actions(marked))

    def test_inherited_names_are_sorted(self):
        self.assertEqual(self.actions("a: { inherit (a) c |b a; }")["Sort the inherited names"], "a: { inherit (a) a b c; }")
        self.assertNotIn("Sort the inherited names", self.actions("a: { inherit (a) a |b c; }"))

    def test_paths_and_sets_change_into_each_other(self):
        for flat, packed in [
            ("{ |a.b = 1; }", "{ |a = { b = 1; }; }"),
            ("x: { |a.b.c = x; }", "x: { |a = { b.c = x; }; }"),
            ("let |a.b = c: a; in a", "let |a = { b = c: a; }; in a"),
            ("{ |a.b = 1; a.c.d = 2; }", "{ |a = { b = 1; c.d = 2; }; }"),
            ("x: {\n  |a.b = x;\n  a.c = [\n    2\n  ];\n}\n", "x: {\n  |a = {\n    b = x;\n    c = [\n    2\n  ];\n  };\n}\n"),
        ]:
            plain = lambda marked: marked.replace("|", "")
            self.assertEqual(self.actions(flat)["Write as `a = { .. }`"], plain(packed))
            titles = self.actions(packed)
            self.assertIn(plain(flat), titles.values())
        apart = "{\n  a.b = 1;\n  c = 2;\n  a.|d = 3;\n}\n"
        self.assertEqual(self.actions(apart)["Write as `a = { .. }`"], "{\n  a = {\n    b = 1;\n    d = 3;\n  };\n  c = 2;\n}\n")
        for marked in ["{ |a = rec { b = 1; }; }", "{ |a = { b = 1; inherit c; }; }", "{ |a = { /* d */ b = 1; }; }", "x: { |${x} = { b = 1; c = 2; }; }"]:
            self.assertEqual(self.actions(marked, ["refactor"]), {})

    def test_strings_get_other_quotes(self):
        for quoted, indented in [
            ('|"a ${b} \\"c\\""', "|''a ${b} \"c\"''"),
            ('{\n  a = |"b\\n\\n  c\\n";\n}', "{\n  a = |''\n    b\n\n      c\n  '';\n}"),
            ('|"\\${a} it\'s"', "|''''${a} it's''"),
        ]:
            plain = lambda marked: marked.replace("|", "")
            self.assertEqual(self.actions(quoted)["Write the string in `''`"], plain(indented))
            self.assertEqual(self.actions(indented)['Write the string in `"`'], plain(quoted))
        self.assertEqual(self.actions('{ |"a b" = 1; }', ["refactor"]), {})

    def test_names_get_and_lose_quotes(self):
        self.assertEqual(self.actions('x: { |"a".b = x."a b"; }')["Write `a` without quotes"], 'x: { a.b = x."a b"; }')
        self.assertEqual(self.actions("x: { |a|.b = x; }")["Write `a` in quotes"], 'x: { "a".b = x; }')
        for marked in ['x: { |"a b" = x; }', "x: { |a.b = x; }", 'x: { a = |"b"; }']:
            self.assertFalse([it for it in self.actions(marked) if "quotes" in it])

    def test_all_unused_names_are_removed(self):
        title = "Remove all unused names"
        text = "{ lib, |b, c, ... }:\nlet\n  d = 1;\n  e = 2;\n  inherit (lib) f g;\nin\ne + g\n"
        wanted = "{ lib, ... }:\nlet\n  e = 2;\n  inherit (lib) g;\nin\ne + g\n"
        self.assertEqual(self.actions(text)[title], wanted)
        elsewhere = text.replace("|", "").replace("e + g", "e| + g")
        self.assertNotIn(title, self.actions(elsewhere))
        self.assertEqual(self.actions(elsewhere, ["source"])[title], wanted)
        self.assertEqual(self.actions("let a = 1; in |a", ["source.removeUnused"]), {})

    def test_selected_json_becomes_nix(self):
        found = self.actions('{\n  a = |{"b c": [1, -2, "${d}"], "e": null}|;\n}')
        self.assertEqual(found["Convert JSON to Nix"], '{\n  a = {\n    "b c" = [\n      1\n      (-2)\n      "\\${d}"\n    ];\n    e = null;\n  };\n}')
        for marked in ['{ a = |{"b": 1, "b": 2}|; }', '{ a = |{"b": 1|}; }', '{ a = |[ 1 2 ]|; }', '{ a = |{"b": 1}| }']:
            self.assertNotIn("Convert JSON to Nix", self.actions(marked))

    def test_an_expression_is_extracted_into_a_let(self):
        title = "Extract into a `let`"
        for marked, wanted in [
            ("{ a = f |(b 1)|; }", "{ a = let value = (b 1); in f value; }"),
            ("let\n  a = 1;\nin\n[ |(a + 1)| ]\n", "let\n  a = 1;\n  value = (a + 1);\nin\n[ value ]\n"),
            ("x: [ |\"${x}\"| value ]", "x: let value2 = \"${x}\"; in [ value2 value ]"),
        ]:
            self.assertEqual(self.actions(marked)[title], wanted)
        for marked in ["x: f |x|", "x: 1 + |2 + x|", "{ a, b ? [ |(f a)| ] }: b", "|1 + 2|"]:
            self.assertNotIn(title, self.actions(marked))

    def test_only_the_kinds_that_are_asked_for_are_offered(self):
        text = "{ lib }: let |a| = { b = missing; }; in 1"
        self.assertEqual(set(self.actions(text, ["source"])), {"Remove all unused names"})
        self.assertEqual(set(self.actions(text, ["refactor.rewrite"])), {"Write as `a.b = ..`", "Write `a` in quotes"})
        self.assertEqual(set(self.actions(text, ["refactor.inline"])), set())
        self.assertEqual(set(self.actions(text, ["ref"])), set())

    def test_each_action_leaves_a_text_without_errors_whose_names_mean_the_same(self):
        numbers = random.Random(7)
        pieces = [
            "a", "b", "{ a = b; }", "{ a.b = 1; }", "rec { a = { b = a; }; }", "(a: b)", "(let a = b; in a)", "(with a; b)", "{ inherit (a) b a; }",
            "\"${a} b\"", "''a''", "a.b", "[ a b ]", "{ a.b = 1; a.c = b; }", "rec { a = { b = 1; c = a; }; }", "{ a.b = 1; c = 2; a.${b} = a; }",
        ]
        tried = 0
        for _ in range(1000):
            inner = " ".join(numbers.choice(pieces) for _ in range(3))
            text = numbers.choice(["{ a, ... }: let b = [ %s ]; in b", "a: { b = [ %s ]; }", "[ %s ]"]) % inner
            at = numbers.randrange(len(text))
            end = numbers.choice([at, numbers.randrange(at, min(len(text), at + 12) + 1)])
            self.client.open(text)
            params = {"start": place((0, at)), "end": place((0, end))}
            found = self.client.at("codeAction", range=params, context={"diagnostics": []})
            after = [(it["title"], applied(text, self.edits(it["edit"]))) for it in found]
            for title, text_after in after:
                self.client.open(text_after, "file:///after.nix")
                codes = [it["code"] for it in self.client.at("diagnostic", uri="file:///after.nix")["items"]]
                self.assertNotIn("syntax-error", codes, (text, title, text_after))
                tried += 1
        self.assertGreater(tried, 100)

    def test_long_texts_are_parsed_fewer_times(self):
        line = '  p%d = { q = "x"; };\n'
        text = "{ lib }:\n{\n" + "".join(line % number for number in range(100_000)) + "}\n"
        self.client.open(text)
        self.client.at("hover", (0, 0))
        before = self.client.processor_time()
        spot = {"start": place((500, 3)), "end": place((500, 3))}
        self.client.at("codeAction", range=spot, context={"diagnostics": []})
        self.assertLess(self.client.processor_time() - before, 10)


if __name__ == "__main__":
    unittest.main()
