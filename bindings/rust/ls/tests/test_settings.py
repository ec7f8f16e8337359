"""What can be set, and which diagnostics a client gets that asks for them."""

import copy
import pathlib
import random
import tempfile
import time
import unittest

from client import CAPABILITIES, URI, Client, applied, span

ASKING = copy.deepcopy(CAPABILITIES)
ASKING["textDocument"]["diagnostic"] = {}
ASKING["workspace"]["diagnostics"] = {"refreshSupport": True}
WITH_CONFIGURATION = copy.deepcopy(CAPABILITIES)
WITH_CONFIGURATION["workspace"]["configuration"] = True
TEXT = "let\n  a = 1;\nin\n  map\n"


def formatting(*command):
    """Returns the settings with a command that formats."""
    return {"formatting": {"command": list(command)}}


class Settings(unittest.TestCase):
    """Each test has a server of its own."""

    def formatted(self, client, text=TEXT):
        """Opens a text, and returns it after formatting, or the message that refuses that."""
        client.open(text)
        edits = client.at("formatting", options={"tabSize": 2, "insertSpaces": True})
        return edits["message"] if "message" in edits else applied(text, edits)

    def test_a_command_formats_what_it_reads(self):
        with Client(options=formatting("sed", "s/1/two😀/")) as client:
            self.assertEqual(self.formatted(client), TEXT.replace("1", "two😀"))
            client.open(TEXT)
            (edit,) = client.at("formatting")
            self.assertEqual(span(edit), (1, 6, 1, 7))
            self.assertEqual(self.formatted(client, "{ a = 1 "), "{ a = two😀 ")
            whole = {"start": {"line": 0, "character": 0}, "end": {"line": 9, "character": 0}}
            self.assertEqual(client.at("rangeFormatting", range=whole)["code"], -32803)
        with Client(options=formatting("cat")) as client:
            client.open("{a=1;}" * 100_000)
            self.assertEqual(client.at("formatting"), [])

    def test_a_command_that_fails_leaves_the_text(self):
        for command, reason in [
            (["/none/nixfmt"], "/none/nixfmt"),
            (["sh", "-c", "echo half; echo no >&2; exit 1"], "no"),
            (["true"], "written nothing"),
            (["printf", "\\377"], "not UTF-8"),
        ]:
            with Client(options=formatting(*command)) as client:
                client.open(TEXT)
                answer = client.at("formatting")
                self.assertEqual(answer["code"], -32803)
                self.assertIn(reason, answer["message"])
                self.assertIsNotNone(client.at("hover", (3, 2)))

    def test_a_command_that_hangs_is_ended(self):
        with Client(options=formatting("sleep", "600")) as client:
            client.open(TEXT)
            start = time.monotonic()
            answer = client.at("formatting")
            self.assertEqual(answer["code"], -32803)
            self.assertIn("more than 10 seconds", answer["message"])
            self.assertLess(time.monotonic() - start, 60)

    def test_codes_of_diagnostics_are_left_out(self):
        for ignored, severities in [([], [4]), (["unused-name"], []), (["other"], [4]), (["other", "unused-name"], [])]:
            with Client(options={"diagnostics": {"ignored": ignored}}) as client:
                client.open(TEXT)
                self.assertEqual([it["severity"] for it in client.diagnostics()], severities)
                client.open("{ a = 1 }")
                self.assertEqual([it["severity"] for it in client.diagnostics()], [1])

    def test_findings_of_lints_are_left_out_with_their_quick_fixes(self):
        whole = {"start": {"line": 0, "character": 0}, "end": {"line": 9, "character": 0}}
        only = {"diagnostics": [], "only": ["quickfix"]}
        for ignored, codes, fixed in [
            ([], ["needless-parentheses", "unbound-name", "unused-name"], 2),
            (["needless-parentheses"], ["unbound-name", "unused-name"], 1),
            (["unused-name", "unbound-name"], ["needless-parentheses"], 1),
            (["unused-name", "unbound-name", "needless-parentheses"], [], 0),
        ]:
            with Client(options={"diagnostics": {"ignored": ignored}}) as client:
                client.open("let a = (2); in b")
                self.assertEqual(sorted(it["code"] for it in client.diagnostics()), codes)
                self.assertEqual(sorted(it["code"] for it in client.at("diagnostic")["items"]), codes)
                self.assertEqual(len(client.at("codeAction", range=whole, context=only)), fixed)

    def test_syntax_errors_are_never_left_out(self):
        with Client(options={"diagnostics": {"ignored": ["syntax-error", "unused-name"]}}) as client:
            client.open("{ a = 1 }")
            self.assertEqual([it["code"] for it in client.diagnostics()], ["syntax-error"])

    def test_settings_that_change_are_used_at_once(self):
        with Client() as client:
            client.open(TEXT)
            self.assertEqual(len(client.diagnostics()), 1)
            client.tell("workspace/didChangeConfiguration", {"settings": {"rnix-ls": {"diagnostics": {"ignored": ["unused-name"]}}}})
            self.assertEqual(client.diagnostics(), [])
            client.tell("workspace/didChangeConfiguration", {"settings": {"diagnostics": {"ignored": []}}})
            self.assertEqual(len(client.diagnostics()), 1)
            client.tell("workspace/didChangeConfiguration", {"settings": formatting("tr", "1", "2")})
            self.assertEqual(self.formatted(client), TEXT.replace("1", "2"))

    def test_unknown_settings_are_ignored_and_wrong_ones_are_logged(self):
        with Client(options={"formatting": {"command": "nixfmt", "else": 1}, "else": {"a": 1}}) as client:
            message = client.message("window/logMessage")["params"]
            self.assertEqual((message["type"], message["message"]), (2, "rnix-ls: the setting `formatting.command` is not a list of strings"))
            self.assertEqual(self.formatted(client, "{a=1;}"), "{ a = 1; }\n")
            for settings, name in [({"nixPath": {}}, "nixPath"), ({"options": {"file": []}}, "options.file"), ([], "settings")]:
                client.tell("workspace/didChangeConfiguration", {"settings": settings})
                self.assertIn(name, client.message("window/logMessage")["params"]["message"])

    def test_a_file_of_options_that_cannot_be_read_is_logged_once(self):
        with tempfile.TemporaryDirectory() as room:
            wrong = pathlib.Path(room) / "options.json"
            wrong.write_text('{"a": ')
            for file in [str(wrong), room, room + "/none"]:
                with Client(options={"options": {"file": file}}) as client:
                    self.assertIn(file, client.message("window/logMessage")["params"]["message"])
                    client.tell("workspace/didChangeConfiguration", {"settings": {"options": {"file": file}}})
                    client.open("{ a.b }")
                    client.diagnostics()
                    self.assertEqual(client.at("completion", (0, 4))["items"], [])
                    self.assertNotIn("window/logMessage", [it["method"] for it in client.notifications])

    def test_a_client_that_has_settings_is_asked_for_them(self):
        with Client(WITH_CONFIGURATION) as client:
            request = client.message("workspace/configuration")
            self.assertEqual(request["params"], {"items": [{"section": "rnix-ls"}]})
            client.send({"jsonrpc": "2.0", "id": request["id"], "result": [{"diagnostics": {"ignored": ["unused-name"]}}]})
            client.open(TEXT)
            self.assertEqual(client.diagnostics(), [])
            client.tell("workspace/didChangeConfiguration", {"settings": None})
            request = client.message("workspace/configuration")
            for answer in [{"error": {"code": -32601, "message": "no"}}, {"result": None}, {"result": [None]}]:
                client.send({"jsonrpc": "2.0", "id": request["id"], **answer})
            for number in (request["id"], 99, "x", None):
                client.send({"jsonrpc": "2.0", "id": number, "result": [{"diagnostics": {"ignored": []}}]})
            client.open(TEXT)
            self.assertEqual(client.diagnostics(), [])

    def test_a_client_that_asks_for_diagnostics_gets_them_once(self):
        with Client(ASKING) as client:
            self.assertEqual(client.greeting["capabilities"]["diagnosticProvider"]["interFileDependencies"], False)
            client.open("{ a = 1 }")
            answer = client.at("diagnostic")
            self.assertEqual((answer["kind"], len(answer["items"])), ("full", 1))
            same = client.at("diagnostic", previousResultId=answer["resultId"])
            self.assertEqual(same, {"kind": "unchanged", "resultId": answer["resultId"]})
            client.change(TEXT)
            other = client.at("diagnostic", previousResultId=answer["resultId"])
            self.assertEqual((other["kind"], [it["code"] for it in other["items"]]), ("full", ["unused-name"]))
            client.change("{ a = 1 }")
            again = client.at("diagnostic", previousResultId=other["resultId"])
            self.assertEqual(again, answer)
            client.tell("workspace/didChangeConfiguration", {"settings": {"diagnostics": {"ignored": ["unused-name"]}}})
            self.assertEqual(client.message("workspace/diagnostic/refresh")["method"], "workspace/diagnostic/refresh")
            client.change(TEXT)
            self.assertEqual(client.at("diagnostic", previousResultId=again["resultId"])["items"], [])
            self.assertEqual([it for it in client.notifications if it["method"] == "textDocument/publishDiagnostics"], [])

    def test_random_settings_are_answered(self):
        numbers = random.Random(5)
        words = ["rnix-ls", "formatting", "command", "diagnostics", "ignored", "nixPath", "options", "file", "settings"]

        def value(depth):
            kind = numbers.randrange(9 if depth < 4 else 5)
            if kind > 5:
                return {numbers.choice(words): value(depth + 1) for _ in range(numbers.randrange(4))}
            if kind == 5:
                return [value(depth + 1) for _ in range(numbers.randrange(3))]
            return [None, True, -1.5, "", "/none"][kind]

        with Client() as client:
            for _ in range(500):
                client.tell("workspace/didChangeConfiguration", value(0))
            client.open("a: a")
            self.assertEqual(len(client.at("definition", (0, 3))), 1)

    def test_long_names_are_cut_in_messages(self):
        with Client() as client:
            client.open("let " + "".join(f'"{"x" * 10_000}{number}" = 1; ' for number in range(100)) + "in 2")
            found = client.diagnostics()
            self.assertEqual(len(found), 100)
            self.assertLess(max(len(it["message"]) for it in found), 600)

    def test_links_follow_the_nix_path(self):
        with tempfile.TemporaryDirectory() as room:
            room = pathlib.Path(room).resolve()
            (room / "lib").mkdir()
            (room / "lib" / "default.nix").write_text("1")
            (room / "a.nix").write_text("1")
            with Client(options={"nixPath": [f"here={room}", f"{room / 'lib'}/.."]}) as client:
                client.open("[ <here/a.nix> <here/lib> <a.nix> <here> <none> <herea.nix> ]")
                found = [(span(it)[1], it["target"]) for it in client.at("documentLink")]
                file, folder = (room / "a.nix").as_uri(), (room / "lib" / "default.nix").as_uri()
                self.assertEqual(found[:2], [(2, file), (15, folder)])
                self.assertEqual([column for column, _ in found], [2, 15, 26])


if __name__ == "__main__":
    unittest.main()
