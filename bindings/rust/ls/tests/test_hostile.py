"""What rnix-ls makes of clients that lie, hurry, or go away."""

import json
import random
import re
import time
import unittest

import hostile_random
from client import URI, Client, anonymous, change_of, frame, is_bounded, place

METHODS = [
    "codeAction", "completion", "definition", "diagnostic", "documentHighlight", "documentLink", "documentSymbol", "foldingRange", "formatting", "hover",
    "prepareRename", "rangeFormatting", "references", "rename", "selectionRange", "semanticTokens/full", "semanticTokens/full/delta", "semanticTokens/range",
]


def packages(size):
    """Returns a text of about a size, with bindings and uses."""
    line = '  p%d = lib.mk { name = "p%d"; deps = [ lib.a "x" ]; v = if lib.x then %d else ./p.nix; };\n'
    return "{ lib }:\n{\n" + "".join(line % (it, it, it) for it in range(size // 95)) + "}\n"


def model(text, start, end, new):
    """Returns a text after a change, by the rules of the protocol; columns count UTF-16 units."""

    def offset(position):
        lines = re.findall(r"[^\r\n]*(?:\r\n|\r|\n)|[^\r\n]+$|$", text)
        lines = lines if text[-1:] in "\r\n" else [it for it in lines if it]
        if position[0] >= len(lines):
            return len(text)
        line = lines[position[0]].rstrip("\r\n")
        column = len(line.encode("utf-16-le")[: 2 * position[1]].decode("utf-16-le", "ignore"))
        return sum(len(it) for it in lines[: position[0]]) + column

    one, other = offset(start), offset(end)
    return text[: min(one, other)] + new + text[max(one, other) :]


class Hostile(unittest.TestCase):
    """Each test has a server of its own, which must be alive at its end."""

    def setUp(self):
        self.client = Client()

    def tearDown(self):
        if self.client.process.poll() is None:
            self.assert_alive()
        self.client.__exit__()

    def assert_alive(self):
        self.client.open("a: a", "file:///alive.nix")
        self.assertEqual(len(self.client.at("definition", (0, 3), "file:///alive.nix")), 1)

    def code(self):
        """Returns the code of the next answer, which belongs to no request."""
        answer = self.client.response()
        self.assertIsNone(answer["id"])
        return answer["error"]["code"]

    def test_messages_may_come_in_pieces(self):
        message = frame({"jsonrpc": "2.0", "id": 7, "method": "textDocument/hover", "params": {"textDocument": {"uri": "ä"}}})
        for byte in message:
            self.client.write(bytes([byte]))
        self.assertEqual(self.client.response()["id"], 7)
        self.client.write(message[:30])
        time.sleep(0.1)
        self.client.write(message[30:] + message + message)
        self.assertEqual([self.client.response()["id"] for _ in range(3)], [7, 7, 7])

    def test_after_a_length_that_lies_the_server_goes_on(self):
        body = json.dumps({"jsonrpc": "2.0", "id": 1, "method": "shutdown"}).encode()
        for length in (1, len(body) - 1):
            self.client.write(b"Content-Length: %d\r\n\r\n%s" % (length, body))
            self.assertEqual(self.code(), -32700)
        for length in (b"-1", b"x", b"", b"1e3", b"99999999999", b"9" * 99):
            self.client.write(b"Content-Length: " + length + b"\r\n\r\n" + body)
            self.assertEqual(self.code(), -32700)
        self.assert_alive()
        self.client.write(b"Hello\r\n\r\n")
        self.assertEqual(self.code(), -32700)
        # The body takes the beginning of the next message, which is lost.
        self.client.write(b"Content-Length: %d\r\n\r\n%s" % (len(body) + 30, body) + frame(body))
        self.assertEqual(self.code(), -32700)

    def test_what_is_not_json_is_a_parse_error(self):
        for body in (b"", b"{", b"nul", b'{"a":1,}', b'"\xff"', b"\x00", b"[" * 1_000_000, b'{"a":' * 1_000_000, b"1 2"):
            self.client.write(frame(body))
            self.assertEqual(self.code(), -32700)

    def damage(self, kind, start, new):
        """Sends a change of the document that cannot be read, and takes what the server answers to it."""
        self.client.version += 1
        good, bad = change_of((start, start, new)), change_of(((0, -1), (0, 0), new))
        changes = [good, bad, good] if kind == "range" else [good]
        params = {"textDocument": {"uri": URI, "version": self.client.version}, "contentChanges": changes}
        body = json.dumps({"jsonrpc": "2.0", "method": "textDocument/didChange", "params": params}).encode()
        if kind == "byte":
            body = body.replace(json.dumps(new).encode(), b'"\xe9"')
        whole = {"json": frame(body[:-1]), "header": b"Content-Length: x\r\n\r\n" + body}
        self.client.write(whole.get(kind, frame(body)))
        if kind != "range":
            self.assertEqual(self.code(), -32700)

    def test_no_edit_is_computed_on_another_text(self):
        numbers = random.Random(4)
        line = "  a = [ 1 2 ];   b={ }; # c\n"
        text, is_lost, count = "{\n" + 20 * line + "}\n", False, 0
        self.client.open(text)
        for turn in range(600):
            start = (numbers.randrange(20), numbers.randrange(12))
            new = numbers.choice([" ", "\n", "# d\n", "", "  "])
            if turn % 10 == 7:
                self.damage(numbers.choice(["byte", "json", "header", "range"]), start, "xyz")
                is_lost = True
            elif numbers.random() < 0.1:
                text, is_lost = "{\n" + numbers.randrange(1, 20) * line + "}\n", False
                self.client.change(text)
            else:
                self.client.change((start, start, new))
                text = text if is_lost else model(text, start, start, new)
            found = self.client.at("formatting", options={"tabSize": 2, "insertSpaces": True})
            if is_lost:
                self.assertEqual(found["code"], -32803)
                self.assertIn(URI, found["message"])
                continue
            count += 1
            self.client.open(text, "file:///whole.nix")
            self.assertEqual(found, self.client.at("formatting", uri="file:///whole.nix", options={"tabSize": 2, "insertSpaces": True}))
        self.assertGreater(count, 150)
        said = [it["params"]["message"] for it in self.client.notifications if it["method"] == "window/showMessage"]
        self.assertTrue(said and all("file:///" in it for it in said))

    def lost(self, message):
        """Returns which of two open documents a message loses."""
        self.client.open("a: a")
        self.client.open("b: b", "file:///b.nix")
        self.client.write(message if message.startswith(b"Content") else frame(message))
        found = [self.client.request("textDocument/hover", {"textDocument": {"uri": uri}, "position": place((0, 0))}) for uri in (URI, "file:///b.nix")]
        answers = []
        while len(answers) < 2:
            answer = self.client.response()
            answers += [answer] if answer["id"] in found else []
        return [it.get("error", {}).get("code") == -32803 for it in answers]

    def test_a_message_loses_what_it_may_have_changed(self):
        def change(uri, **others):
            return json.dumps({"jsonrpc": "2.0", **others, "params": {"textDocument": {"uri": uri}, "contentChanges": []}}).encode()

        one, other, byte = [True, False], [True, True], (b"contentChanges", b"contentChanges\xe9")
        did_change, did_open = {"method": "textDocument/didChange"}, {"method": "textDocument/didOpen"}
        for message, wanted in [
            (change(URI, **did_change).replace(*byte), one),
            (change(URI, **did_change).replace(b"t.nix", b"\xe9.nix"), other),
            (change("file:///c.nix", **did_open).replace(*byte), [False, False]),
            (change(URI, method="$/cancelRequest").replace(*byte), [False, False]),
            (change(URI, method="textDocument/hover", id=0).replace(*byte), [False, False]),
            (change(URI, **did_change, id=0), one),
            (change(URI, **did_change, id=0).replace(*byte), one),
            (change(URI, method=7), other),
            (b"[%s]" % change(URI, **did_change), other),
            (b"{", other),
        ]:
            self.assertEqual(self.lost(message), wanted, message)

    def test_edits_of_several_documents_are_those_of_their_texts(self):
        broken, answered, refused = hostile_random.Driver(1).run(1000)
        print(f"{broken} broken messages: {answered} answers and {refused} refusals")
        self.assertGreater(min(broken, answered, refused), 50)

    def test_requests_before_a_loss_are_not_answered(self):
        def tell(method, **params):
            return {"jsonrpc": "2.0", "method": f"textDocument/{method}", "params": params}

        document = {"uri": URI}
        slow = {"uri": "file:///slow.nix", "text": packages(2_000_000)}
        unreadable = frame(tell("didChange", textDocument=document, x="Q")).replace(b"Q", b"\xe9")
        for last in (frame(b"{"), unreadable):
            self.client.open("{a=1;}")
            number = self.client.count = self.client.count + 1
            request = {**tell("formatting", textDocument=document, options={"tabSize": 2, "insertSpaces": True}), "id": number}
            hover = {**tell("hover", textDocument={"uri": slow["uri"]}, position=place((0, 0))), "id": -1}
            self.client.write(frame(tell("didOpen", textDocument=slow)) + frame(hover) + frame(request) + last)
            answers = [self.client.response() for _ in range(3)]
            (found,) = [it for it in answers if it["id"] == number]
            self.assertEqual(found["error"]["code"], -32801)

    def test_what_is_no_request_is_invalid(self):
        for message in (b"[]", b"1", b"null", b"{}", b'{"id":1}', b'{"method":1,"id":2}', b'[{"id":1,"method":"shutdown"}]'):
            self.client.write(frame(message))
            self.assertEqual(self.code(), -32600)
        self.client.send({"jsonrpc": "2.0", "id": 1, "result": None})

    def test_unknown_methods_are_refused_and_unknown_notifications_ignored(self):
        for method in ("", "x", "textDocument/", "textDocument/onTypeFormatting", "$/x", "workspace/executeCommand", "exit "):
            self.client.tell(method, None)
            self.assertEqual(self.client.ask(method, None)["code"], -32601)

    def test_the_life_of_the_server_has_an_order(self):
        with Client(is_initialized=False) as client:
            self.assertEqual(client.ask("shutdown", None)["code"], -32002)
            client.open("a")
            self.assertIn("capabilities", client.ask("initialize", {}))
            self.assertEqual(client.ask("initialize", {})["code"], -32600)
            self.assertEqual(client.at("hover", (0, 0))["code"], -32602)
            self.assertIsNone(client.ask("shutdown", None))
            self.assertEqual(client.at("hover", (0, 0))["code"], -32600)
            client.tell("exit", None)
            self.assertEqual(client.process.wait(60), 0)
        with Client() as client:
            client.tell("exit", None)
            self.assertEqual(client.process.wait(60), 1)

    def test_wrong_parameters_are_refused(self):
        self.client.open("a: a")
        text = {"textDocument": {"uri": URI}}
        for params in (None, [], {}, {"textDocument": None}, {"textDocument": {"uri": 1}}, {"textDocument": {"uri": "x"}}):
            for method in METHODS:
                self.assertEqual(self.client.ask(f"textDocument/{method}", params)["code"], -32602, (method, params))
            for method in ("didOpen", "didChange", "didClose"):
                self.client.tell(f"textDocument/{method}", params)
        # A change without a name may have been one of this document.
        self.assertEqual(self.client.at("hover", (0, 0))["code"], -32803)
        self.client.open("a: a")
        for position in (None, 1, {}, {"line": 0}, {"line": -1, "character": 0}, {"line": 0.5, "character": 0}, {"line": "0", "character": 0}):
            self.assertEqual(self.client.ask("textDocument/hover", {**text, "position": position})["code"], -32602)
        self.assertEqual(self.client.ask("textDocument/rename", {**text, "position": place((0, 0))})["code"], -32602)

    def test_random_parameters_are_answered(self):
        numbers = random.Random(1)
        words = ["textDocument", "position", "range", "start", "end", "line", "character", "uri", "newName", "context", "positions", "text"]

        def value(depth):
            kind = numbers.randrange(8 if depth < 4 else 4)
            if kind > 4:
                return {numbers.choice(words): value(depth + 1) for _ in range(numbers.randrange(5))}
            if kind == 4:
                return [value(depth + 1)]
            return [None, True, numbers.choice([-1, 0, 1, 2.5, 1e300, 2**53]), "a"][kind]

        text, codes = "let a = 1; in { inherit a; }", set()
        self.client.open(text)
        for _ in range(2000):
            params = value(0)
            if isinstance(params, dict):
                params["textDocument"] = {"uri": URI}
            if numbers.random() < 0.3:
                self.client.tell("textDocument/didChange", params)
                self.client.open(text)
            found = self.client.ask(f"textDocument/{numbers.choice(METHODS)}", params)
            codes.add(found["code"] if isinstance(found, dict) and "code" in found else None)
        self.assertEqual(codes, {None, -32602})

    def test_positions_out_of_range_mean_the_nearest_end(self):
        self.client.open("a: b")
        far = (2**31 - 1, 2**31 - 1)
        for start, end, new in [((0, 9), far, "\n+ x"), (far, (1, 9), "y"), ((1, 3), (0, 9), " "), (far, far, "\n")]:
            self.client.change((start, end, new))
        self.assertEqual(self.client.at("selectionRange", positions=[place(far)])[0]["range"]["end"], place((1, 0)))
        (error,) = [it for it in self.client.at("documentHighlight", (0, 3))]
        self.assertEqual(error["range"]["start"], place((0, 3)))
        for change in ({}, {"text": 1}, {"range": 1, "text": "x"}, {"range": {"start": place((0, -1)), "end": place((0, 0))}, "text": ""}):
            self.client.tell("textDocument/didChange", {"textDocument": {"uri": URI, "version": 9}, "contentChanges": [change]})

    def test_random_changes_give_what_the_whole_text_gives(self):
        numbers = random.Random(2)
        pieces = ["a", "b ", "= ", "; ", "let ", "in ", "{ ", "} ", "inherit ", "x: ", '"', "\n", "\r\n", "\r", "ä", "😀", "# c\n", "''", "${"]
        text = ""
        self.client.open(text)
        for _ in range(300):
            changes = []
            for _ in range(numbers.randrange(1, 4)):
                start, end = [(numbers.randrange(8), numbers.randrange(12)) for _ in range(2)]
                new = "".join(numbers.choice(pieces) for _ in range(numbers.randrange(6)))
                text = model(text, start, end, new)
                changes.append((start, end, new))
            self.client.change(*changes)
            found = anonymous(self.client.diagnostics()), self.client.at("semanticTokens/full")["data"], self.client.at("documentSymbol")
            self.client.open(text, "file:///whole.nix")
            whole = "file:///whole.nix"
            wanted = anonymous(self.client.diagnostics()), self.client.at("semanticTokens/full", uri=whole)["data"], self.client.at("documentSymbol", uri=whole)
            self.assertEqual(found, wanted, repr(text))

    def test_a_text_of_10_megabytes_is_served(self):
        text = packages(10_000_000)
        self.client.open(text)
        self.assertEqual(self.client.diagnostics(), [])
        start = time.time()
        self.client.change(((1, 1), (1, 1), "x = lib\n;"))
        self.assertEqual(self.client.diagnostics(), [])
        after = time.time()
        self.assertEqual(len(self.client.at("definition", (1, 6))), 1)
        print(f"10 MB: a change {after - start:.2f} s, then a definition {time.time() - after:.2f} s, {self.client.memory() // 10**6} MB")

    def test_deep_and_wide_texts_are_served(self):
        for text in ("[" * 100_000, "(" * 100_000, "{ a = " * 20_000, "+".join("a" * 50_000), "a: " * 10_000, '"${' * 30_000, "f " * 50_000):
            self.client.open(text)
            self.client.diagnostics()
            for method in METHODS:
                others = {"positions": [place((0, len(text) // 2))], "newName": "z", "context": {"diagnostics": []}, "previousResultId": "0"}
                others["range"] = {"start": place((0, 0)), "end": place((0, len(text)))}
                self.client.at(method, (0, len(text) // 2), **others)

    def test_many_changes_at_once_are_applied(self):
        text = packages(100_000)
        self.client.open(text)
        self.client.diagnostics()
        start = time.time()
        for count in range(1000):
            self.client.change(((1, 1), (1, 1 + (count > 0)), "?" if count < 999 else " "))
        self.assertEqual(self.client.diagnostics(), [])
        print(f"1,000 changes of 100 KB: {time.time() - start:.2f} s")

    def test_memory_does_not_grow_with_changes(self):
        self.client.open(packages(20_000))
        self.client.change(((1, 1), (1, 1), " "))

        def sizes_of_round():
            sizes = []
            for count in range(10_000):
                self.client.change(((1, 1), (1, 2), "x "[count % 2]))
                if count % 10 == 0:
                    self.client.diagnostics()
                    self.client.at("semanticTokens/full")
                    self.client.at("rename", (0, 3), newName=f"a{count}")
                sizes.append(self.client.memory())
            return sizes

        self.assertTrue(is_bounded(sizes_of_round))

    def test_names_at_the_end_of_a_large_scope_are_found_in_linear_time(self):
        count = 20_000
        self.client.open("rec {\n" + "".join(f"  n{it} = 1;\n" for it in range(count)) + "}")
        self.client.at("hover", (0, 0))
        before = self.client.processor_time()
        self.client.at("completion", (count + 1, 1))
        self.assertLess(self.client.processor_time() - before, 1)

    def test_selection_ranges_of_many_positions_are_bounded(self):
        self.client.open("(" * 300)
        count = 0
        for one in self.client.at("selectionRange", positions=[place((0, it % 300)) for it in range(10_000)]):
            while one:
                one, count = one.get("parent"), count + 1
        self.assertLessEqual(count, 10_000)

    def test_diagnostics_are_bounded(self):
        self.client.open("let " + "".join(f"n{it} = 1; " for it in range(3_000)) + "in 1")
        found = self.client.diagnostics()
        self.assertEqual((len(found), found[-1]["message"]), (1001, "errors, warnings and unused names that are not shown: 2000"))

    def test_each_request_has_one_answer_even_if_cancelled(self):
        self.client.open(packages(100_000))
        wanted = []
        for _ in range(50):
            wanted.append(self.client.request("textDocument/semanticTokens/full", {"textDocument": {"uri": URI}}))
            self.client.tell("$/cancelRequest", {"id": wanted[-1]})
        answers = [self.client.response() for _ in wanted]
        self.assertEqual([it["id"] for it in answers], wanted)
        self.assertLessEqual({it["error"]["code"] for it in answers if "error" in it}, {-32800})

    def test_the_server_ends_when_the_client_goes_away(self):
        for last in (b"", b"Content-Length: 100\r\n\r\n{", b"Content-Le"):
            with Client() as client:
                client.write(last)
                client.process.stdin.close()
                self.assertEqual(client.process.wait(60), 1)
        with Client() as client:
            client.process.stdout.close()
            client.open("a")
            self.assertEqual(client.process.wait(60), 1)


if __name__ == "__main__":
    unittest.main()
