"""What rnix-ls completes: words, snippets, attributes, arguments, options and paths; and what hovering shows of these."""

import copy
import json
import pathlib
import tempfile
import time
import unittest

from client import CAPABILITIES, URI, Client, applied, position_of, span

SNIPPETS = copy.deepcopy(CAPABILITIES)
SNIPPETS["textDocument"]["completion"] = {"completionItem": {"snippetSupport": True}}

# As the file options.json of NixOS has them.
OPTIONS = {
    "services.openssh.enable": {
        "type": "boolean",
        "default": {"_type": "literalExpression", "text": "false"},
        "description": "Whether to enable the daemon.",
        "declarations": ["nixos/modules/services/networking/ssh/sshd.nix"],
        "loc": ["services", "openssh", "enable"],
        "readOnly": False,
    },
    "services.openssh.ports": {
        "type": "list of 16 bit unsigned integer",
        "default": {"_type": "literalExpression", "text": "[ 22 ]"},
        "description": {"_type": "mdDoc", "text": "Where the *daemon* listens."},
    },
    "users.users.<name>.shell": {"type": "null or path", "description": "The shell."},
    "networking.\"a b\"": {"type": "string", "description": ""},
}


class Completion(unittest.TestCase):
    """A server for all tests, with the file of options, and a folder with files."""

    @classmethod
    def setUpClass(cls):
        cls.room = tempfile.TemporaryDirectory()
        cls.folder = pathlib.Path(cls.room.name).resolve() / "a b"
        (cls.folder / "pkgs" / "hello").mkdir(parents=True)
        (cls.folder / "pkgs" / "hello" / "default.nix").write_text("{ lib, stdenv, fetchurl, withX ? false, ... }: lib")
        (cls.folder / "module.nix").write_text("{ config, lib }@args: { }")
        (cls.folder / "lib.nix").write_text("{ }: {\n  strings.join = a: b: a;\n  /** What it gets. */\n  id = x: x;\n}\n")
        (cls.folder / "options.json").write_text(json.dumps(OPTIONS))
        (cls.folder / ".hidden").write_text("")
        cls.uri = (cls.folder / "open.nix").as_uri()
        cls.client = Client(options={"options": {"file": str(cls.folder / "options.json")}, "nixPath": [f"here={cls.folder}"]})

    @classmethod
    def tearDownClass(cls):
        cls.client.__exit__()
        cls.room.cleanup()

    def items(self, text, client=None):
        """Opens a text, and returns what is completed at the `|` in it, by its label."""
        client = client or self.client
        at = text.index("|")
        text = text.replace("|", "", 1)
        client.open(text, self.uri)
        answer = client.at("completion", position_of(text, at), self.uri)
        return {it["label"]: it for it in answer["items"]}

    def hover(self, text):
        """Opens a text, and returns what hovering over the place of the `|` in it shows."""
        at = text.index("|")
        self.client.open(text.replace("|", "", 1), self.uri)
        answer = self.client.at("hover", position_of(text, at), self.uri)
        return answer and answer["contents"]["value"]

    def test_attributes_of_sets_of_the_file_are_listed(self):
        for text, wanted in [
            ("let a = { b = 1; c.d = 2; }; in a.|", {"b", "c"}),
            ("let a = { b = 1; c.d = 2; }; in a.c.|", {"d"}),
            ("let a.b = 1; a.c = 2; in [ a.| ]", {"b", "c"}),
            ("let a = { b = 1; }; in { x = a.|; y = 2; }", {"b"}),
            ("let a = { b = 1; }; in {\n  x = a.|\n  y = 2;\n}", {"b"}),
            ("rec { a = { b = 1; }; c = a.b|; }", {"b"}),
            ("let a = { b = 1; } // { c = 2; }; in a.|", {"b", "c"}),
            ("let x = { a = { b = 1; }; }; inherit (x) a; in (a).|", {"b"}),
            ("{ a ? { b = 1; } }: a.|", {"b"}),
            ("args@{ a, b ? 1, ... }: args.|", {"a", "b"}),
            ("let a = { b = 1; }; in { inherit (a) |; }", {"b"}),
            ("let a = { b = 1; }; in a ? |", {"b"}),
            ("let a = if x then { b = 1; } else { c = 1; }; in a.|", {"b", "c"}),
            ("({ a = 1; }).|", {"a"}),
            ("let a = { \"b c\" = 1; }; in a.|", {"b c"}),
            ("let a = x: { b = 1; }; in a.|", set()),
            ("let a = b; b = a; in a.|", set()),
            ("let f = a: a.|; in f { b = 1; }", {"b"}),
            ("let f = { a }: c: a.|; in f { a = { b = 1; }; } 2", {"b"}),
            ("(a: [ a.| ]) { b = 1; }", {"b"}),
            ("let c = a.|; a = { b = 1; }; in c", {"b"}),
            ("rec {\n  c = a.|\n  a = { b = 1; };\n}", {"b"}),
        ]:
            self.assertEqual(set(self.items(text)), wanted, text)
        item = self.items("let a = { b = 1; }; in a.b|")["b"]
        self.assertEqual((item["detail"], span(item["textEdit"])), ("attribute, line 1", (0, 25, 0, 26)))
        self.assertEqual(self.items("let a = { \"b c\" = 1; }; in a.|")["b c"]["textEdit"]["newText"], '"b c"')
        text = "let\n  a = {\n    /** Adds. */\n    b = x: x;\n  };\nin a.|"
        self.assertEqual(self.items(text)["b"]["documentation"]["value"], "Adds.")

    def test_attributes_of_sets_of_other_files_are_listed(self):
        for text, wanted in [
            ("let lib = import ./lib.nix { }; in lib.|", {"strings", "id"}),
            ("let lib = import <here/lib.nix> { }; in lib.strings.|", {"join"}),
            ("let inherit (import ./lib.nix { }) strings; in strings.|", {"join"}),
            ("{ lib ? import ./lib.nix { } }: lib.|", {"strings", "id"}),
            ("{ inherit (import ./lib.nix { }) |; }", {"strings", "id"}),
            ("(import ./none.nix).|", set()),
        ]:
            self.assertEqual(set(self.items(text)), wanted, text)
        item = self.items("(import ./lib.nix { }).|")["id"]
        self.assertEqual((item["detail"], item["documentation"]["value"]), (f"attribute, line 4 of {self.folder / 'lib.nix'}", "What it gets."))

    def test_words_are_listed_where_they_may_come(self):
        first, after = {"assert", "if", "let", "rec", "with"}, {"else", "in", "then"}
        for text, wanted in [
            ("|", first), ("a: |", first), ("{ a = |; }", first), ("if |", first), ("1 + |", first), ("with a; |", first), ("(|)", first),
            ("let a = 1; in |", first), ("if a |", after), ("let a = 1; in if a then b |", after), ("f a |", after),
            ("[ | ]", set()), ("[ a | ]", set()), ("[ a b| ]", set()), ("[ a ] |", after), ("x: { inherit | }", set()),
        ]:
            found = set(self.items(text)) & (first | after)
            self.assertEqual(found, wanted, text)
        self.assertIn("inherit", self.items("{ | }"))
        self.assertNotIn("inherit", self.items("a: |"))
        self.assertEqual(self.items("# |"), {})

    def test_snippets_are_for_clients_that_take_them(self):
        self.assertNotIn("let .. in", self.items("a: |"))
        with Client(SNIPPETS) as client:
            items = self.items("a: le|", client)
            item = items["let .. in"]
            self.assertEqual((item["insertTextFormat"], item["kind"], item["filterText"]), (2, 15, "let"))
            self.assertEqual(item["textEdit"]["newText"], "let\n  ${1:name} = ${2:value};\nin\n$0")
            self.assertLessEqual({"if .. then .. else", "with ..;", "assert ..;"}, set(items))
            self.assertNotIn("let .. in", self.items("f a |", client))
            self.assertLessEqual({"inherit ..;", "inherit (..) ..;"}, set(self.items("{ | }", client)))

    def test_arguments_of_a_called_file_are_listed(self):
        for text, wanted in [
            ("{ callPackage }: callPackage ./pkgs/hello { | }", {"lib", "stdenv", "fetchurl", "withX"}),
            ("pkgs: pkgs.callPackage ./pkgs/hello/default.nix { lib = 1; | }", {"stdenv", "fetchurl", "withX"}),
            ("import ./module.nix { c| }", {"config", "lib"}),
            ("lib: import ./module.nix { inherit lib; | }", {"config"}),
            ("x ./module.nix { | }", set()),
            ("import ./none.nix { | }", set()),
            ("import <here/module.nix> { | }", {"config", "lib"}),
        ]:
            found = {label for label, item in self.items(text).items() if item["detail"].startswith("argument")}
            self.assertEqual(found, wanted, text)
        self.assertEqual(self.items("import ./pkgs/hello { | }")["withX"]["detail"], "argument, false")

    def test_arguments_of_an_open_file_are_those_of_its_text(self):
        uri = (self.folder / "module.nix").as_uri()
        self.client.open("let x = 1; in { new }: x", uri)
        self.assertLessEqual({"new"}, set(self.items("import ./module.nix { | }")))
        self.client.tell("textDocument/didClose", {"textDocument": {"uri": uri}})
        self.assertLessEqual({"config", "lib"}, set(self.items("import ./module.nix { | }")))

    def test_files_in_the_folder_of_a_path_are_listed(self):
        for text, wanted in [
            ("import ./|", {"pkgs", "lib.nix", "module.nix", "options.json"}),
            ("import ./p|;", {"pkgs", "lib.nix", "module.nix", "options.json"}),
            ("[ ./pkgs/| ]", {"hello"}),
            ("[ ./pkgs/../| ]", {"pkgs", "lib.nix", "module.nix", "options.json"}),
            ("./.|", {".hidden"}),
            ("import <here/pkgs/|", {"hello"}),
            ("import <none/|", set()),
            ("./none/|", set()),
            ("# ./|", set()),
            ("\"./|\"", set()),
        ]:
            self.assertEqual(set(self.items(text)), wanted, text)
        item = self.items("import ./pk|")["pkgs"]
        self.assertEqual((item["kind"], span(item["textEdit"])), (19, (0, 9, 0, 11)))
        self.assertEqual(self.items("./|")["module.nix"]["kind"], 17)

    def test_options_are_listed_where_a_module_sets_them(self):
        def options(text):
            return {label for label, item in self.items(text).items() if item["detail"] != "keyword"}

        for text, wanted in [
            ("{ ... }: { services.| }", {"openssh"}),
            ("{ ... }: { services.openssh.| }", {"enable", "ports"}),
            ("{ ... }: { services.openssh.en| = true; }", {"enable", "ports"}),
            ("{ ... }: { services.openssh = { | }; }", {"enable", "ports"}),
            ("{ ... }: { services.openssh = { en| }; }", {"enable", "ports"}),
            ("{ ... }: { services = mkIf a { openssh = { enable = true; | }; }; }", {"enable", "ports"}),
            ("{ ... }: { config = { services.openssh.| }; }", {"enable", "ports"}),
            ("{ ... }: { | }", {"services", "users", "networking"}),
            ("{ ... }: { users.users.alice.| }", {"shell"}),
            ("{ config, ... }: config.services.openssh.|", {"enable", "ports"}),
            ("{ config, ... }: let cfg = 1; in { x = config.services.|; }", {"openssh"}),
            ("{ pkgs, ... }: pkgs.services.|", set()),
            ("{ ... }: { none.| }", set()),
        ]:
            self.assertEqual(options(text), wanted, text)
        item = self.items("{ ... }: { services.openssh.| }")["enable"]
        self.assertEqual(item["detail"], "boolean")
        self.assertEqual(item["documentation"]["value"], "Default: `false`\n\nWhether to enable the daemon.")
        self.assertEqual(self.items("{ networking.| }")["a b"]["textEdit"]["newText"], '"a b"')

    def test_attributes_of_builtins_are_listed(self):
        for text in ["builtins.|", "builtins.ma|", "x: { y = builtins . | ; }", "[ builtins.|map ]", "a builtins.| b"]:
            found = self.items(text)
            self.assertEqual(len(found), 120, text)
            self.assertEqual(found["map"]["detail"], "map f list")
            self.assertIn("Apply the function *f*", found["map"]["documentation"]["value"])
            self.assertNotIn("documentation", found["storeDir"])
            self.assertEqual(found["warn"]["detail"], "warn e1 e2")
        self.assertEqual(span(self.items("builtins.ma|")["map"]["textEdit"]), (0, 9, 0, 11))
        for text in ["let builtins = 1; in builtins.|", "builtins: builtins.|", "x: x.builtins.|", "builtins.map.|", "{ builtins.| }"]:
            self.assertEqual(self.items(text), {}, text)
        for text in ["builtins ? |", "{ inherit (builtins) |; }"]:
            self.assertEqual(len(self.items(text)), 120, text)

    def test_names_that_nix_binds_have_their_arguments(self):
        found = self.items("ma|")
        self.assertEqual(found["map"]["detail"], "map f list")
        self.assertIn("Apply the function *f*", found["map"]["documentation"]["value"])
        self.assertEqual((found["true"]["detail"], found["derivation"]["detail"]), ("bound by Nix", "bound by Nix"))
        self.assertNotIn("mapAttrs", found)

    def test_hovering_shows_the_manual_on_what_nix_binds(self):
        shown = self.hover
        self.assertTrue(shown("x: |map x").startswith("```nix\nmap f list\n```\n\nBound by Nix\n\nApply the function *f* to each element in the list *list*."))
        wanted = "```nix\nmapAttrs f attrset\n```\n\nBound by Nix\n\nApply function *f* to every element of *attrset*."
        self.assertTrue(shown("builtins.map|Attrs").startswith(wanted))
        self.assertTrue(shown("|builtins.mapAttrs").startswith("```nix\nbuiltins\n```"))
        for text in ["x: let builtins = x; in builtins.map|Attrs", "x: x.builtins.map|Attrs"]:
            self.assertIsNone(shown(text))
        self.assertIn("A parameter", shown("map: |map"))
        self.assertEqual(shown("builtins.store|Dir"), "```nix\nstoreDir\n```\n\nBound by Nix")
        self.assertTrue(shown("builtins.w|arn").startswith("```nix\nwarn e1 e2\n```\n\nBound by Nix since version 2.23\n\n"))

    def test_hovering_shows_an_option(self):
        wanted = (
            "```nix\nservices.openssh.ports\n```\n\nAn option of NixOS: list of 16 bit unsigned integer\n\n"
            "Default: `[ 22 ]`\n\nWhere the *daemon* listens."
        )
        self.assertEqual(self.hover("{ ... }: { services.openssh.po|rts = [ ]; }"), wanted)
        self.assertEqual(self.hover("{ ... }: { services.openssh = { po|rts = [ ]; }; }"), wanted)
        self.assertEqual(self.hover("{ config, ... }: config.services.openssh.po|rts"), wanted)
        self.assertIn("The shell.", self.hover("{ users.users.\"alice\".she|ll = 1; }"))
        self.assertIsNone(self.hover("{ ... }: { serv|ices.openssh.ports = [ ]; }"))
        self.assertIsNone(self.hover("{ ... }: { services.none| = [ ]; }"))

    def test_hovering_shows_a_value_cut_short(self):
        shown = self.hover("let\n  # Of a.\n  a = {\n    b = 1;\n  };\nin\n|a")
        self.assertEqual(shown, "```nix\na = {\n  b = 1;\n};\n```\n\nBound by `let`, line 3\n\nOf a.")
        shown = self.hover("let\n  a = [\n" + "    1\n" * 50 + "  ];\nin\n|a")
        self.assertEqual(shown, "```nix\na = [\n" + "  1\n" * 7 + "..\n```\n\nBound by `let`, line 2")
        shown = self.hover("let a = \"" + "x" * 1000 + "\"; in |a")
        self.assertLess(len(shown), 300)
        shown = self.hover("let a = 1; in rec { inherit a; b = |a; }")
        self.assertEqual(shown, "```nix\na = 1;\n```\n\nBound by `let`, line 1")

    def test_hovering_shows_an_attribute_of_a_set_of_the_file(self):
        shown = self.hover("let\n  a = {\n    /**\n      Adds one.\n\n          f 1\n    */\n    b = x: x + 1;\n  };\nin\na.|b")
        self.assertEqual(shown, "```nix\nb = x: x + 1;\n```\n\nAn attribute, line 8\n\nAdds one.\n\n    f 1")
        self.assertEqual(self.hover("let a.b.c = 1; in a.b.|c"), "```nix\na.b.c = 1;\n```\n\nAn attribute, line 1")
        self.assertIsNone(self.hover("a: a.|b"))
        shown = self.hover("(import ./lib.nix { }).i|d")
        self.assertEqual(shown, f"```nix\nid = x: x;\n```\n\nAn attribute, line 4 of {self.folder / 'lib.nix'}\n\nWhat it gets.")

    def test_twice_the_names_take_twice_the_time_at_the_end_of_a_scope(self):
        def seconds(count):
            names = "".join(f"n{number} = {number}; " for number in range(count))
            best = None
            for text in [f"rec {{ {names} }} ", f"let {names} in n0 ", f"let a = {{ {names} }}; in a."]:
                self.client.open(text, URI)
                self.client.at("hover", (0, 0))
                start = time.perf_counter()
                self.client.at("completion", (0, len(text)))
                took = time.perf_counter() - start
                best = took if best is None else max(best, took)
            return best

        # Three quadratic seconds at 20,000 names would be twelve at 40,000.
        self.assertLess(seconds(40_000), 2)


if __name__ == "__main__":
    unittest.main()
