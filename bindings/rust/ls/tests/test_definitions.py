"""Where rnix-ls finds definitions in other files."""

import os
import unittest

from client import span
from files import Files


class Definitions(Files):
    """Where things are defined."""

    def test_an_import_leads_to_the_expression_of_the_file(self):
        self.write("in/y.nix", "# A file.\n{ a }:\na\n")
        self.write("in/default.nix", "{ b = 1; }")
        self.write("empty.nix", "# nothing\n")
        self.start()
        for text, wanted in [
            ("import ./in/|y.nix", ("in/y.nix", "{ a }:\na")),
            ("im|port ./in/y.nix { a = 1; }", ("in/y.nix", "{ a }:\na")),
            ("import (./in|)", ("in/default.nix", "{ b = 1; }")),
            ("[ ./in/|y.nix ]", ("in/y.nix", "")),
            ("import ./em|pty.nix", ("empty.nix", "")),
        ]:
            self.assertEqual(self.definition("a.nix", text), [wanted], text)
        self.assertIsNone(self.definition("a.nix", "import ./no|ne.nix"))
        self.assertEqual(self.definition("a.nix", "imp|ort ./none.nix"), [])
        self.assertEqual(self.definition("a.nix", "let import = 1; in im|port ./in/y.nix"), [("a.nix", "import")])

    def test_an_import_of_an_open_file_leads_into_its_text(self):
        self.write("b.nix", "1")
        self.start()
        self.open("b.nix", "# ä\n# 😀\n{ new = 2; }")
        self.assertEqual(self.definition("a.nix", "import ./b|.nix"), [("b.nix", "{ new = 2; }")])
        self.assertEqual(self.definition("a.nix", "(import ./b.nix).n|ew"), [("b.nix", "new")])

    def test_a_package_leads_to_its_parameters(self):
        self.write("p/default.nix", "# A package.\n{ lib, a ? 1 }: lib.mk a")
        self.write("set.nix", "{ a = 1; }")
        self.start()
        for text in ["callPackage ./p| { }", "pkgs.callPackage ./p/default|.nix { a = 2; }", "x: x.callPackage (./|p) { }"]:
            self.assertEqual(self.definition("a.nix", text), [("p/default.nix", "{ lib, a ? 1 }")], text)
        self.assertEqual(self.definition("a.nix", "callPackage ./set|.nix"), [("set.nix", "{ a = 1; }")])

    def test_paths_in_angle_brackets_are_looked_for_where_nix_path_says(self):
        self.write("channel/nixpkgs/lib/default.nix", "{ id = x: x; }")
        self.write("channel/nixpkgs/default.nix", "{ }: 1")
        self.write("other.nix", "2")
        path = f"none=https://a.example/b:other={self.root}/other.nix:{self.root}/channel"
        self.start(environment={"NIX_PATH": path})
        for text, wanted in [
            ("<nix|pkgs>", ("channel/nixpkgs/default.nix", "")),
            ("import <nixpkgs/l|ib>", ("channel/nixpkgs/lib/default.nix", "{ id = x: x; }")),
            ("(import <nixpkgs/lib>).i|d", ("channel/nixpkgs/lib/default.nix", "id")),
            ("import <oth|er>", ("other.nix", "2")),
        ]:
            self.assertEqual(self.definition("a.nix", text), [wanted], text)
        for text in ["<no|ne>", "<nixpkgs/no|ne>", "<b|>"]:
            self.assertIsNone(self.definition("a.nix", text), text)
        self.open("a.nix", "[ <nixpkgs> <none> <other> ]")
        links = self.client.at("documentLink", uri=self.uri("a.nix"))
        self.assertEqual([it["target"] for it in links], [self.uri("channel/nixpkgs/default.nix"), self.uri("other.nix")])

    def test_settings_say_where_paths_in_angle_brackets_are_looked_for(self):
        for folder in "one", "two":
            self.write(f"{folder}/lib.nix", "{ x }: x")
        self.write("closed.nix", "import <here/lib.nix> { x = 1; }")
        self.start(options={"nixPath": [f"here={self.root}/one"]})
        self.open("open.nix", "import <here/lib.nix> { x = 2; }")
        passed = lambda folder: self.definition(f"{folder}/lib.nix", "{ |x }: x")
        for folder, other in ("one", "two"), ("two", "one"):
            self.client.tell("workspace/didChangeConfiguration", {"settings": {"nixPath": [f"here={self.root}/{folder}"]}})
            self.assertEqual(self.definition("a.nix", "import <here/l|ib.nix>"), [(f"{folder}/lib.nix", "{ x }: x")])
            self.assertEqual(passed(folder)[:1], [("open.nix", "x")])
            self.wait_until(lambda: passed(folder), [("open.nix", "x"), ("closed.nix", "x")])
            self.assertEqual(passed(other), [(f"{other}/lib.nix", "x")])

    def test_an_attribute_leads_to_its_entries(self):
        self.start()
        for text, wanted in [
            ("let a = { b = 1; c = 2; }; in a.|c", ["c"]),
            ("let a = { b.c = 1; b.d = 2; }; in a.|b", ["b", "b"]),
            ("let a = { b.c = 1; b.d = 2; }; in a.b.|d", ["d"]),
            ("let a.b.c = 1; in a.b.|c", ["c"]),
            ("rec { a = { b = 1; }; c = a.|b; }", ["b"]),
            ("let x = { a = { b = 1; }; }; inherit (x) a; in a.|b", ["b"]),
            ("let x = { a = 1; }; y = { inherit x; }; in y.x.|a", ["a"]),
            ("let x = { a = 1; }; in { inherit (x) |a; }", ["a"]),
            ("let x = { a = 1; }; in with x; |a", ["a"]),
            ("let a = { \"b\" = 1; }; in a.|b", ['"b"']),
            ("let f = x: { b = x; }; in (f 1).|b", ["b"]),
            ("({ a = 1; } // { a = 2; b = 3; }).|a", ["a"]),
            ("(if x then { a = 1; } else { a = 2; }).|a", ["a", "a"]),
            ("let a = { b = 1; }; in a ? |b", ["b"]),
            ("let s = { a = 1; }; in (if x then s else s).|a", ["a"]),
            ("let f = x: y: { a = y; }; in (f 1 2).|a", ["a"]),
            ("{ a ? { b = 1; } }: a.|b", ["b"]),
            ("args@{ a, b ? 1 }: args.|b", ["b"]),
            ("let x = { }; in (x.a or { b = 1; }).|b", ["b"]),
            ("let f = a: a.|b; in f { b = 1; }", ["b"]),
            ("rec { f = { a, ... }: a.|b; g = f { a.b = 1; }; }", ["b"]),
            ("let f = x: (y: y.|b); in [ (f 1 { b = 1; }) ((f 2) { b = 2; }) ]", ["b", "b"]),
            ("let a = with x; assert y; (let z = 1; in { b = z; }); in a.|b or 1", ["b"]),
        ]:
            found = self.definition("a.nix", text)
            self.assertEqual(found, [("a.nix", it) for it in wanted], text)
        text = "({ a = 1; } // { a = 2; }).|a"
        (place,) = self.client.at("definition", self.open("a.nix", text), self.uri("a.nix"))
        self.assertEqual(span(place), (0, 17, 0, 18))
        endless = ["let a = a; in a.|b", "let a = a.b // a; in a.|b", "let inherit (a) a; in a.|b", "let f = x: f x; in (f 1).|a", "(import ./a.nix).|b"]
        for text in [*endless, "x: x.|a"]:
            self.assertEqual(self.definition("a.nix", text), [], text)

    def test_an_attribute_of_another_file_leads_there(self):
        self.write("lib/default.nix", "{ pkgs }: rec {\n  strings = import ./strings.nix { inherit pkgs; };\n  inherit (strings) join;\n}")
        self.write("lib/strings.nix", "{ pkgs }:\nlet x = 1; in {\n  join = a: b: a;\n  other = x;\n} // { more = 1; }")
        self.write("set.nix", "{ a.b = 1; }")
        self.start()
        for text, wanted in [
            ("let lib = import ./lib { pkgs = 1; }; in lib.|strings", ("lib/default.nix", "strings")),
            ("let lib = import ./lib { pkgs = 1; }; in lib.strings.|join", ("lib/strings.nix", "join")),
            ("(callPackage ./lib { }).strings.mo|re", ("lib/strings.nix", "more")),
            ("(import ./set.nix).a.|b", ("set.nix", "b")),
            ("with import ./set.nix; |a", ("set.nix", "a")),
            ("let inherit (import ./set.nix) |a; in a", ("set.nix", "a")),
        ]:
            self.assertEqual(self.definition("a.nix", text), [wanted], text)
        found = self.definition("a.nix", "let lib = import ./lib { pkgs = 1; }; in lib.|join")
        self.assertEqual(found, [("lib/default.nix", "join")])

    def test_an_argument_leads_to_the_parameter(self):
        self.write("f.nix", "{ a, b ? 1 }@args: a")
        self.write("g.nix", "# curried\nx: { a }: a")
        self.start()
        for text in ["import ./f.nix { |a = 1; }", "callPackage ./f.nix ({ |a.b = 1; } // x)", "f: (f.callPackage ./f.nix) { inherit (f) |a; }"]:
            wanted = [("f.nix", "a")]
            self.assertEqual(self.definition("x.nix", text), wanted, text)
        for text in ["import ./f.nix { |c = 1; }", "import ./g.nix { |a = 1; }"]:
            self.assertEqual(self.definition("x.nix", text), [], text)

    def test_a_parameter_leads_to_the_places_that_pass_it(self):
        self.write("f/default.nix", "{ a, b ? 1, c, d }: a")
        self.write("one.nix", "# 😀\n{ x = import ./f { a = 1; inherit d; }; }")
        self.write("sub/two.nix", "with x; callPackage ../f/default.nix ({ a = 2; } // rec { c.e = 3; })")
        self.write("sub/three.nix", "(x.callPackage (../f)) { b = import ./one.nix { a = 3; }; }")
        self.start()
        argument = lambda name: self.definition("f/default.nix", "{ a, b ? 1, c, d }: a".replace(name, f"|{name}", 1))
        self.wait_until(lambda: argument("a"), [("one.nix", "a"), ("sub/two.nix", "a")])
        self.wait_until(lambda: argument("b"), [("sub/three.nix", "b")])
        self.assertEqual(argument("c"), [("sub/two.nix", "c")])
        self.assertEqual(argument("d"), [("one.nix", "d")])
        # A use of a parameter leads to the parameter, and one that no file passes to itself.
        self.assertEqual(self.definition("f/default.nix", "{ a, b ? 1, c, d }: |a"), [("f/default.nix", "a")])
        self.assertEqual(self.definition("f/default.nix", "{ e }: x: |e"), [("f/default.nix", "e")])
        self.assertEqual(self.definition("f/default.nix", "{ |e ? a }: 1"), [("f/default.nix", "e")])
        self.assertEqual(self.definition("f/default.nix", "x: { |a }: 1"), [("f/default.nix", "a")])
        # What is open counts as it is now, and what is closed as it is on the disk.
        self.open("one.nix", "\n\n{ x = import ./f { c = 1; }; }")
        self.write("sub/two.nix", "\n\n\n  callPackage ../f { d = 1; a = 2; }")
        self.write("sub/three.nix", "[ ]")
        self.assertEqual(argument("a"), [("sub/two.nix", "a")])
        self.assertEqual(argument("b"), [("f/default.nix", "b")])
        self.assertEqual(argument("c"), [("one.nix", "c")])
        os.remove(self.root / "sub/two.nix")
        self.assertEqual(argument("a"), [("f/default.nix", "a")])

    def test_an_input_of_a_flake_leads_to_its_line_and_to_the_lock_file(self):
        flake = """{
  inputs.nixpkgs.url = "github:NixOS/nixpkgs";
  inputs = {
    utils.url = "u";
    home = { url = "h"; inputs.nixpkgs.follows = "nixpkgs"; };
  };
  outputs = { self, nixpkgs, utils, ... }@inputs: { a = inputs.home; };
}"""
        self.write("flake.nix", flake)
        self.write("flake.lock", '{\n  "nodes": {\n    "home": { "inputs": { "nixpkgs": ["nixpkgs"] } },\n    "nixpkgs_2": { "original": { "nixpkgs": 1 } },\n'
                   '    "root": { "inputs": { "home": "home", "nixpkgs": "nixpkgs_2" } }\n  },\n  "root": "root"\n}')
        self.start()
        both = [("flake.nix", "nixpkgs"), ("flake.lock", '"nixpkgs_2"')]
        self.assertEqual(self.definition("sub/a.nix", "{ inputs, ... }: inputs.nix|pkgs.lib"), both)
        self.assertEqual(self.definition("sub/a.nix", "{ inputs, ... }: inputs.ut|ils"), [("flake.nix", "utils")])
        self.assertEqual(self.definition("flake.nix", flake.replace("nixpkgs, ut", "|nixpkgs, ut")), both)
        self.assertEqual(self.definition("flake.nix", flake.replace("inputs.home", "inputs.|home")), [("flake.nix", "home"), ("flake.lock", '"home"')])
        self.assertEqual(self.definition("flake.nix", flake.replace("s.nixpkgs.url", "s.|nixpkgs.url")), both)
        self.assertEqual(self.definition("flake.nix", flake.replace("{ self", "{ |self")), [("flake.nix", "self")])
        self.assertEqual(self.definition("sub/a.nix", "let inputs = { nixpkgs = 1; }; in inputs.|nixpkgs"), [("sub/a.nix", "nixpkgs")])
        self.assertEqual(self.definition("sub/a.nix", "{ inputs }: inputs.|none"), [])
        self.write("flake.lock", "{ damaged")
        self.assertEqual(self.definition("sub/a.nix", "{ inputs, ... }: inputs.nix|pkgs.lib"), both[:1])


if __name__ == "__main__":
    unittest.main()
