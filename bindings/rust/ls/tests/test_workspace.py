"""What rnix-ls knows of the files of a workspace that are not open."""

import os
import shutil
import time
import unittest

import workspace
import workspace_random
from client import Client
from files import WATCHING, Files

# The types of changes of files.
CREATED, CHANGED, DELETED = 1, 2, 3


class Index(Files):
    """What is known of files that are not open."""

    def test_symbols_are_the_names_that_files_give(self):
        first = "{ lib }:\nlet\n  \"ä\" = 1; helper = x: x;\nin\nwith lib;\n"
        second = "{ alpha = 1; beta.gamma = { inner = 1; }; inherit (lib) delta; } // rec { alphabet = \"s\"; }"
        self.write("a.nix", first + second)
        self.write("in/b.nix", "f { hidden = 1; }")
        self.write("c.txt", "{ alphas = 1; }")
        self.start()
        self.wait_for("alpha", [("alpha", "a.nix"), ("alphabet", "a.nix")])
        found = self.client.ask("workspace/symbol", {"query": "HELPER"})
        self.assertEqual([(it["name"], it["kind"]) for it in found], [("helper", 12)])
        for query, wanted in [("gamma", ["beta.gamma"]), ("dlt", ["delta"]), ("inner", []), ("hidden", []), ("Ä", ["\"ä\""]), ("alphas", [])]:
            self.assertEqual([it for it, _ in self.symbols(query)], wanted, query)
        self.assertEqual({it for it, _ in self.symbols("")}, {"\"ä\"", "helper", "alpha", "beta.gamma", "delta", "alphabet"})
        self.open("a.nix", "{ other = 1; }")
        self.open("new.nix", "{ alpha = 2; }")
        self.assertEqual(self.symbols("alpha"), [("alpha", "new.nix")])
        self.assertEqual(self.symbols("other"), [("other", "a.nix")])
        self.assertEqual(self.client.greeting["capabilities"]["workspaceSymbolProvider"], True)

    def test_the_index_follows_what_the_client_says_of_files(self):
        self.write("a.nix", "{ first = 1; }")
        self.start(WATCHING)
        request = self.client.notifications.pop(0) if self.client.notifications else self.client.read()
        self.assertEqual(request["method"], "client/registerCapability")
        (registration,) = request["params"]["registrations"]
        self.assertEqual(registration["method"], "workspace/didChangeWatchedFiles")
        self.client.send({"jsonrpc": "2.0", "id": request["id"], "result": None})
        self.wait_for("first", [("first", "a.nix")])
        self.write("sub/b.nix", "{ second = 1; }")
        self.tell_changes(("sub/b.nix", CREATED))
        self.wait_for("second", [("second", "sub/b.nix")])
        self.write("a.nix", "{ third = 1; }")
        self.tell_changes(("a.nix", CHANGED))
        self.wait_for("third", [("third", "a.nix")])
        shutil.rmtree(self.root / "sub")
        self.tell_changes(("sub", DELETED))
        self.wait_for("second", [])
        self.write("out/c.nix", "{ fourth = 1; }")
        self.write(".gitignore", "out\n")
        self.tell_changes(("out/c.nix", CREATED))
        self.write("d.nix", "{ fifth = 1; }")
        self.tell_changes(("d.nix", CREATED))
        self.wait_for("fifth", [("fifth", "d.nix")])
        self.assertEqual(self.symbols("fourth"), [])
        os.remove(self.root / ".gitignore")
        self.tell_changes((".gitignore", DELETED))
        self.wait_for("fourth", [("fourth", "out/c.nix")])
        os.rename(self.root / "out", self.root / "moved")
        self.tell_changes(("out", DELETED), ("moved", CREATED))
        self.wait_for("fourth", [("fourth", "moved/c.nix")])

    def test_without_a_watching_client_files_are_looked_at_after_a_save(self):
        self.write("a.nix", "{ first = 1; }")
        self.start()
        self.wait_for("first", [("first", "a.nix")])
        self.write("a.nix", "{ second = 1; }")
        self.write("b.nix", "{ third = 1; }")
        self.assertEqual(self.symbols("first"), [])
        self.open("c.nix", "1")
        self.client.tell("textDocument/didSave", {"textDocument": {"uri": self.uri("c.nix")}})
        self.wait_for("third", [("third", "b.nix")])
        self.wait_for("second", [("second", "a.nix")])
        os.remove(self.root / "b.nix")
        self.client.tell("textDocument/didSave", {"textDocument": {"uri": self.uri("c.nix")}})
        self.wait_for("third", [])

    def test_after_a_refusal_to_watch_files_are_looked_at_after_a_save(self):
        self.write("a.nix", "{ first = 1; }")
        self.start(WATCHING)
        request = self.client.read()
        self.client.send({"jsonrpc": "2.0", "id": request["id"], "error": {"code": -32601, "message": "no"}})
        self.wait_for("first", [("first", "a.nix")])
        self.write("b.nix", "{ second = 1; }")
        self.client.tell("textDocument/didSave", {"textDocument": {"uri": self.uri("a.nix")}})
        self.wait_for("second", [("second", "b.nix")])

    def test_nonsense_about_files_is_survived(self):
        self.write("a.nix", "{ first = 1; }")
        self.start()
        uris = [self.root.as_uri(), self.uri("a.nix"), self.uri("none"), "file:///", "file://host/a", "untitled:a", "", "file:///%00", 1, None]
        for uri in uris:
            for folders in [{"added": [{"uri": uri}], "removed": []}, {"added": [], "removed": [{"uri": uri}]}, {"added": uri}, uri]:
                self.client.tell("workspace/didChangeWorkspaceFolders", {"event": folders})
            for changes in [[{"uri": uri, "type": 1}], [uri], uri]:
                self.client.tell("workspace/didChangeWatchedFiles", {"changes": changes})
            self.client.tell("textDocument/didSave", {"textDocument": {"uri": uri}})
            self.client.send({"jsonrpc": "2.0", "id": uri, "result": None})
            for params in [{}, {"query": uri}, uri]:
                self.assertIsInstance(self.client.ask("workspace/symbol", params), list)
            with Client(folders=[uri]) as other:
                self.assertIsInstance(other.ask("workspace/symbol", {"query": ""}), list)
        folder = [{"uri": self.root.as_uri(), "name": "a"}]
        self.client.tell("workspace/didChangeWorkspaceFolders", {"event": {"added": folder, "removed": []}})
        self.wait_for("first", [("first", "a.nix")])

    def test_a_closed_document_counts_as_it_is_on_the_disk(self):
        self.write("a.nix", "{ first = 1; }")
        self.start()
        self.wait_for("first", [("first", "a.nix")])
        self.open("a.nix", "{ second = 1; }")
        self.wait_for("second", [("second", "a.nix")])
        self.assertEqual(self.symbols("first"), [])
        self.write("a.nix", "{ third = 1; }")
        del self.texts[self.uri("a.nix")]
        self.client.tell("textDocument/didClose", {"textDocument": {"uri": self.uri("a.nix")}})
        self.wait_for("third", [("third", "a.nix")])
        self.assertEqual(self.symbols("second"), [])

    def test_folders_come_and_go(self):
        self.write("one/a.nix", "{ first = 1; }")
        self.write("two/b.nix", "{ second = 1; }")
        self.folders = ["one"]
        self.start()
        self.wait_for("first", [("first", "a.nix")])
        self.assertEqual(self.symbols("second"), [])
        folder = lambda name: [{"uri": self.uri(name), "name": name}]
        self.client.tell("workspace/didChangeWorkspaceFolders", {"event": {"added": folder("two"), "removed": folder("one")}})
        self.wait_for("second", [("second", "b.nix")])
        self.assertEqual(self.symbols("first"), [])

    def test_a_workspace_is_named_as_the_client_names_it(self):
        self.write("real/a.nix", "{ first = 1; }")
        self.write("real/f.nix", "{ first }: 1")
        self.write("real/b.nix", "import ./f.nix { first = 1; }")
        os.symlink(self.root / "real", self.root / "link")
        self.folders = ["link"]
        self.start()
        self.wait_for("first", [("first", "a.nix")])
        (found,) = self.client.ask("workspace/symbol", {"query": "first"})
        self.assertEqual(found["location"]["uri"], self.uri("link/a.nix"))
        self.wait_until(lambda: self.definition("link/f.nix", "{ |first }: 1"), [("link/b.nix", "first")])

    def test_what_is_no_source_is_left_out(self):
        self.write("a.nix", "{ shown = 1; }")
        for name in [".git/x.nix", "out/x.nix", "in/left.nix", "result-real/x.nix"]:
            self.write(name, "{ shown = 2; }")
        self.write(".gitignore", "out/\nresult*\n")
        self.write("in/.gitignore", "left.*\n")
        os.symlink(self.root, self.root / "in/loop")
        os.symlink(self.root / "a.nix", self.root / "in/link.nix")
        os.symlink("/", self.root / "result")
        os.symlink("/none", self.root / "broken.nix")
        self.start()
        self.wait_for("shown", [("shown", "a.nix")])
        workspace.wait_for_rest(self.client)
        self.assertEqual(self.symbols("shown"), [("shown", "a.nix")])

    def test_files_that_cannot_be_read_hurt_nobody(self):
        self.write("huge.nix", "{ huge = 1; }" + " " * 3_000_000)
        self.write("broken.nix", "{ broken = 1; x = {{{{ ]] '' \"${")
        self.write("deep.nix", "[" * 100_000)
        self.write("parens.nix", "(" * 50_000 + "{ parens = 1; }" + ")" * 50_000)
        self.write("functions.nix", "a: " * 400 + "{ functions = 1; }")
        self.write("sets.nix", "{ a = " * 50_000 + "1" + "; }" * 50_000)
        (self.root / "bytes.nix").write_bytes(b"{ bytes = \xff\xfe; }")
        (self.root / "nothing.nix").write_bytes(b"")
        (self.root / "folder.nix").mkdir()
        os.mkfifo(self.root / "pipe.nix")
        self.write("secret.nix", "{ secret = 1; }")
        os.chmod(self.root / "secret.nix", 0)
        self.write("z.nix", "{ last = import ./pipe.nix; }")
        self.start()
        self.wait_for("last", [("last", "z.nix")])
        self.wait_for("broken", [("broken", "broken.nix")])
        self.wait_for("functions", [("functions", "functions.nix")])
        workspace.wait_for_rest(self.client)
        os.chmod(self.root / "secret.nix", 0o600)
        for query in ["huge", "bytes", "nothing"]:
            self.assertEqual(self.symbols(query), [])
        for name in ["pipe", "deep", "bytes", "folder", "huge", "parens", "nothing", "sets", "secret"]:
            self.client.at("definition", self.open("b.nix", f"(import ./{name}|.nix).a"), self.uri("b.nix"))
            self.client.at("definition", self.open("b.nix", f"(import ./{name}.nix).|a"), self.uri("b.nix"))

    def test_files_that_vanish_while_they_are_read_hurt_nobody(self):
        for turn in range(3):
            for number in range(300):
                self.write(f"d{number % 7}/f{number}.nix", f"{{ name{number} = import ./f{number + 7}.nix {{ a = 1; }}; }}")
            self.start()
            for number in range(7):
                shutil.rmtree(self.root / f"d{number}")
                self.client.ask("workspace/symbol", {"query": f"name{turn}"})
            workspace.wait_for_rest(self.client)
            self.assertEqual(self.symbols("name"), [])

    def test_key_presses_do_not_wait_for_the_index(self):
        workspace.make(self.root / "made", 1500)
        self.start()
        package = "made/pkgs/g1/p1.nix"
        self.open(package, (self.root / package).read_text())
        longest = 0
        for turn in range(50):
            start = time.perf_counter()
            workspace.press(self.client, self.uri(package), turn)
            longest = max(longest, time.perf_counter() - start)
        print(f"a key press while 1,500 files are read: at most {1000 * longest:.0f} ms")
        self.assertLess(longest, 1)
        self.wait_for("name499", [("name499", "made/pkgs/all.nix")])
        self.wait_for("f499", [("f499", "made/lib/f499.nix")])

    def test_memory_does_not_grow_as_files_change(self):
        self.start(WATCHING)
        sizes = []
        for turn in range(60):
            for number in range(20):
                self.write(f"f{number}.nix", f"{{ n{turn} = import ./g{turn}.nix {{ a = {number}; }}; }}")
            self.tell_changes(*[(f"f{number}.nix", CHANGED) for number in range(20)])
            self.wait_for("n", sorted([(f"n{turn}", f"f{number}.nix") for number in range(20)]))
            sizes.append(self.client.memory())
        print(f"memory after 20 and 1,200 changes of files: {sizes[0] // 1000} and {sizes[-1] // 1000} KB")
        self.assertLess(sizes[-1] - sizes[5], 1_000_000)

    def test_callers_are_found_through_links_as_they_are_now(self):
        self.write("a.nix", "import ./t.nix { x = 1; }")
        self.write("f.nix", "{ x }: 2")
        target, caller, own = self.root / "t.nix", [("a.nix", "x")], lambda name: [(name, "x")]
        target.symlink_to("f.nix")
        self.start(WATCHING)
        self.wait_until(lambda: self.definition("f.nix", "{ |x }: 2"), caller)
        target.unlink()
        self.write("t.nix", "{ x }: x")
        self.tell_changes(("t.nix", CHANGED))
        self.wait_until(lambda: self.definition("t.nix", "{ |x }: x"), caller)
        self.wait_until(lambda: self.definition("f.nix", "{ |x }: 2"), own("f.nix"))
        self.client.tell("textDocument/didClose", {"textDocument": {"uri": self.uri("t.nix")}})
        target.unlink()
        target.symlink_to("f.nix")
        self.tell_changes(("t.nix", CHANGED))
        self.wait_until(lambda: self.definition("f.nix", "{ |x }: 2"), caller)

    def test_random_steps_in_a_workspace_give_what_a_new_server_says(self):
        for seed in (1, 2):
            asked, found, edits = workspace_random.Driver(seed).run(400)
            self.assertGreater(asked, 100)
            print(f"random steps: {asked} requests, {found} places in other files, {edits} edits")


if __name__ == "__main__":
    unittest.main()
