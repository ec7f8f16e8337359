"""What rnix-ls says is wrong with documents."""

import unittest

from client import CAPABILITIES, URI, Client, applied, span

WHOLE = {"start": {"line": 0, "character": 0}, "end": {"line": 9999, "character": 0}}


class Diagnostics(unittest.TestCase):
    """One server for all tests."""

    @classmethod
    def setUpClass(cls):
        cls.client = Client()

    @classmethod
    def tearDownClass(cls):
        cls.client.__exit__()

    def found(self, text):
        """Opens a text, and returns its diagnostics."""
        self.client.open(text)
        return self.client.diagnostics()

    def fixes(self, text):
        """Returns the titles of the quick fixes for a text, each with the text after it."""
        self.client.open(text)
        actions = self.client.at("codeAction", range=WHOLE, context={"diagnostics": [], "only": ["quickfix"]})
        return [(it["title"], applied(text, it["edit"]["documentChanges"][0]["edits"])) for it in actions]

    def related(self, diagnostic):
        """Returns the places that a diagnostic names, with what it says of them."""
        information = diagnostic.get("relatedInformation", [])
        self.assertEqual({it["location"]["uri"] for it in information} - {URI}, set())
        return [(span(it["location"]), it["message"]) for it in information]

    def test_an_attribute_that_is_defined_again_names_the_place_of_the_first(self):
        (error,) = self.found('{\n  "😀" = 0; a = 1;\n  b = 2;\n  a = 3;\n}\n')
        self.assertEqual((span(error), error["severity"], error["code"]), ((3, 2, 3, 3), 1, "repeated-attribute"))
        self.assertEqual(error["message"], "this attribute is already defined")
        self.assertEqual(self.related(error), [((1, 12, 1, 13), "first defined here")])

    def test_an_error_names_the_bracket_that_is_not_closed(self):
        (error,) = self.found("{\n" + "  a = [ 1 2 ];\n" * 100 + "  b = ]")
        self.assertEqual((span(error)[0], error["severity"], error["code"]), (101, 1, "syntax-error"))
        self.assertIn(((0, 0, 0, 1), 'this "{" is not closed'), self.related(error))

    def test_clients_that_take_no_other_places_get_them_in_the_message(self):
        with Client({**CAPABILITIES, "textDocument": {}}) as client:
            client.open("{\n  a = 1;\n  a = 2;\n}\n")
            (error,) = client.diagnostics()
            self.assertEqual(error["message"], "this attribute is already defined\nnote: first defined here, line 2")
            self.assertNotIn("relatedInformation", error)

    def test_help_without_a_place_of_its_own_follows_the_message(self):
        (error,) = self.found("[ 1, 2 ]")
        self.assertEqual(error["message"], 'expected an expression, found ","\nhelp: list items are separated by white space alone')
        self.assertNotIn("relatedInformation", error)

    def test_lints_are_shown_with_their_severities(self):
        found = self.found("{ x }: { x = x; a = x.a; b = y; }")
        shown = [(it["severity"], it["code"], span(it)[1::2], it["source"]) for it in found]
        self.assertEqual(
            sorted(shown, key=lambda it: it[2]),
            [
                (2, "manual-inherit", (9, 15), "rnix"),
                (2, "manual-inherit", (16, 24), "rnix"),
                (1, "unbound-name", (29, 30), "rnix"),
            ],
        )
        (warning,) = self.found('[ ("a") ]')
        self.assertEqual(warning["message"], "these parentheses change nothing\nhelp: leave them out")
        self.assertEqual(set(warning), {"range", "severity", "code", "source", "message"})

    def test_lints_find_nothing_in_a_text_with_errors(self):
        self.assertEqual([it["code"] for it in self.found('[ ("a") , ]')], ["syntax-error"])

    def test_names_that_nothing_uses_are_hints(self):
        for text, names in [
            ("let a = 1; b = a; in 2", ["b"]),
            ("{ a, b ? a, ... }@c: x: _y: 1", ["b", "c", "x"]),
            ('let a.b = 1; a.c = 2; "q" = 3; inherit ({ }) y; in 1', ["a", "q", "y"]),
            ("args@{ a }: args.a", []),
            ("{ a, b ? 1 }@args: x: args", ["x"]),
            ("args@{ a }: 1", ["a", "args"]),
            ("args@{ a }: { b }: args", ["b"]),
            ("rec { a = 1; }", []),
            ("let { body = 1; a = 2; }", ["a"]),
        ]:
            hints = self.found(text)
            self.assertEqual(sorted(it["message"] for it in hints), [f"`{name}` is not used" for name in names], text)
            self.assertEqual({(it["severity"], it["code"], *it["tags"]) for it in hints}, {(4, "unused-name", 1)} if names else set())

    def test_a_comment_leaves_out_a_finding(self):
        text = "{\n  a = 1;\n  # nix-check: ignore repeated-attribute\n  a = (2);\n}\n"
        self.assertEqual([it["code"] for it in self.found(text)], ["needless-parentheses"])

    def test_a_quick_fix_writes_what_a_lint_proposes(self):
        for text, title, fixed in [
            ('[ ("a") ]', 'Replace `("a")` by `"a"`', '[ "a" ]'),
            ("{ a = (1 + 2); }", "Replace `(1 + 2)` by `1 + 2`", "{ a = 1 + 2; }"),
            ("{ x }: { x = x; }", "Replace `x = x;` by `inherit x;`", "{ x }: { inherit x; }"),
            ("[ 1\u00a02 ]", "Replace an invisible character by a space", "[ 1 2 ]"),
        ]:
            self.assertEqual(self.fixes(text), [(title, fixed)])
        self.assertEqual(self.fixes("{ a = 1; a = 2; }"), [])

    def test_a_quick_fix_names_its_diagnostic(self):
        for text in '[ ("a") ]', "{ a }: [ (a) ]", "let a = 1; in 2", "{ a = 1; b = [ 1, 2 ]; }":
            found = self.found(text)
            actions = self.client.at("codeAction", range=WHOLE, context={"diagnostics": found, "only": ["quickfix"]})
            self.assertEqual([it["diagnostics"] for it in actions], [[it] for it in found])

    def test_an_answer_has_at_most_20_quick_fixes_of_lints(self):
        self.assertEqual(len(self.fixes('[ ' + '("a") ' * 100 + ']')), 20)

    def test_errors_are_shown_where_hints_are_left_out(self):
        found = self.found("let " + "".join(f"n{it} = 1; " for it in range(1_500)) + "in nothing")
        self.assertEqual((len(found), found[0]["code"]), (1001, "unbound-name"))
        self.assertEqual((found[-1]["message"], found[-1]["severity"]), ("errors, warnings and unused names that are not shown: 501", 3))

    def test_each_change_shows_what_is_wrong_then(self):
        self.assertEqual([it["code"] for it in self.found("{ a = 1; a = 2; }")], ["repeated-attribute"])
        self.client.change(((0, 9), (0, 10), "b"))
        self.assertEqual(self.client.diagnostics(), [])
        self.client.change(((0, 13), (0, 14), "(2)"))
        self.assertEqual([it["code"] for it in self.client.diagnostics()], ["needless-parentheses"])
        self.client.change(((0, 16), (0, 17), ""))
        self.assertEqual([it["code"] for it in self.client.diagnostics()], ["syntax-error"])


if __name__ == "__main__":
    unittest.main()
