"""What rnix-ls says after edits: the semantic tokens that have changed, and which responses come too late."""

import random
import re
import unittest

from client import URI, Client, anonymous, frame, is_bounded, patched, place

OTHER = "file:///other.nix"

# Letters of two, three and four bytes; the last are two UTF-16 units.
WIDE = """\
# Ä — 😀
{ lib, größe ? "x" }:
let
  a = "😀${lib.x "é"}😀" + a; # 漢字 𝒳
  b = ''
    𝒳 ${a} 𝒳
    Ä'${"$"}{
  '';
in
{ inherit a b; c = "𝒳"; d = [ a /* 😀
  𝒳 */ b ]; }
"""
BROKEN = """\
{ a = 1
let 😀 b = "𝒳 ${ in { c = ; d = [ "ä
"""
PIECES = ["a", "lib ", "= ", "; ", "let ", "in ", "{ ", "} ", "with ", "x: ", '"', "\n", "\r\n", "\r", "ä", "😀", "𝒳 "]
PIECES += ["# c\n", "/*", "*/", "''", "${", "1 "]


def packages(size):
    """Returns a text of about a size, with bindings and uses, and some letters outside ASCII."""
    line = '  p%d = lib.mk { name = "p%d"; deps = [ lib.a "é😀" ]; v = if lib.x then %d else ./p.nix; };\n'
    return "{ lib }:\n{\n" + "".join(line % (it, it, it) for it in range(size // 95)) + "}\n"


def edit_of(numbers, text, most):
    """Returns a random edit: where it begins and ends, and its text, of at most so many pieces."""
    lines = re.split(r"\r\n|\r|\n", text)
    line = numbers.randrange(len(lines))
    last = min(len(lines) - 1, line + numbers.choice([0, 0, 0, 1, 2]))
    start = line, numbers.randrange(len(lines[line]) + 2)
    end = numbers.choice([start, (last, numbers.randrange(len(lines[last]) + 2))])
    return start, end, "".join(numbers.choice(PIECES) for _ in range(numbers.randrange(most + 1)))


def model(text, start, end, new):
    """Returns a text after an edit, whose columns count UTF-16 units and may be after the end of the line."""
    parts = re.split(r"(\r\n|\r|\n)", text)

    def offset(position):
        line, column = parts[2 * position[0]], position[1]
        before = line.encode("utf-16-le")[: 2 * column].decode("utf-16-le", "ignore")
        return len("".join(parts[: 2 * position[0]])) + len(before)

    one, other = offset(start), offset(end)
    return text[: min(one, other)] + new + text[max(one, other) :]


class Edits(unittest.TestCase):
    """Each test has a server of its own."""

    def setUp(self):
        self.client = Client()

    def tearDown(self):
        self.client.__exit__()

    def delta(self, previous, uri=URI):
        """Asks for what has changed in the tokens."""
        return self.client.at("semanticTokens/full/delta", uri=uri, previousResultId=previous)

    def follow(self, text, turns, most):
        """Makes random edits of a text, and compares the tokens that the edits of tokens give with those of the whole text."""
        numbers = random.Random(len(text))
        self.client.open(text)
        answer = self.client.at("semanticTokens/full")
        tokens, name = answer["data"], answer["resultId"]
        for _ in range(turns):
            start, end, new = edit_of(numbers, text, most)
            text = model(text, start, end, new)
            self.client.change((start, end, new))
            answer = self.delta(name)
            self.assertIn("edits", answer)
            tokens, name = patched(tokens, answer), answer["resultId"]
            found = [tokens, *self.asked(URI)]
            self.client.open(text, OTHER)
            self.assertEqual(found, [self.client.at("semanticTokens/full", uri=OTHER)["data"], *self.asked(OTHER)], repr(text))

    def asked(self, uri):
        """Asks for more that depends on the whole text."""
        diagnostics = anonymous(self.client.diagnostics())
        return diagnostics, self.client.at("foldingRange", uri=uri), self.client.at("documentSymbol", uri=uri)

    def test_edits_of_tokens_give_those_of_the_whole_text(self):
        self.follow(WIDE, 1000, 6)

    def test_edits_of_tokens_in_broken_texts(self):
        self.follow(BROKEN, 300, 5)
        self.follow("", 100, 8)

    def test_a_key_press_changes_few_tokens(self):
        text = packages(20_000)
        self.client.open(text)
        name = self.client.at("semanticTokens/full")["resultId"]
        column = text.split("\n")[100].index("[ ") + 2
        for at, key in enumerate("lib.x ", column):
            self.client.change(((100, at), (100, at), key))
            answer = self.delta(name)
            (edit,) = answer["edits"]
            self.assertLessEqual(len(edit["data"]) + edit["deleteCount"], 60)
            self.assertEqual((edit["start"] % 5, edit["deleteCount"] % 5, len(edit["data"]) % 5), (0, 0, 0))
            name = answer["resultId"]
        same = self.delta(name)
        self.assertEqual(same["edits"], [])
        self.assertNotEqual(same["resultId"], name)

    def test_an_unknown_name_of_tokens_gets_all_of_them(self):
        self.client.open(WIDE)
        self.client.open("a: b", OTHER)
        first = self.client.at("semanticTokens/full")
        other = self.client.at("semanticTokens/full", uri=OTHER)
        for name in ("", "x", "-1", "99999999999999999999", "😀", other["resultId"]):
            answer = self.delta(name)
            self.assertEqual(answer["data"], first["data"])
        self.assertIn("edits", self.delta(answer["resultId"]))
        self.assertEqual(self.delta(first["resultId"])["data"], first["data"])
        for params in ({}, {"previousResultId": None}, {"previousResultId": 7}, {"previousResultId": ["1"]}):
            self.assertEqual(self.client.at("semanticTokens/full/delta", **params)["code"], -32602)
        self.assertEqual(self.delta("1", "file:///none.nix")["code"], -32602)

    def test_a_document_that_is_opened_again_has_no_earlier_tokens(self):
        self.client.open(WIDE)
        name = self.client.at("semanticTokens/full")["resultId"]
        self.client.tell("textDocument/didClose", {"textDocument": {"uri": URI}})
        self.client.open("a: b")
        self.assertIn("data", self.delta(name))

    def test_clients_that_take_no_edits_of_tokens_get_no_names(self):
        with Client({}) as client:
            client.open(WIDE)
            self.assertEqual(list(client.at("semanticTokens/full")), ["data"])
            self.assertEqual(list(client.at("semanticTokens/full/delta", previousResultId="0")), ["data"])

    def test_the_tokens_of_a_range_are_those_of_the_whole_text_there(self):
        self.client.open(WIDE)
        lines = WIDE.count("\n") + 1
        whole = list(self.places(self.client.at("semanticTokens/full")["data"]))
        for first in range(lines):
            for last in range(first, lines):
                answer = self.client.at("semanticTokens/range", range={"start": place((first, 0)), "end": place((last, 99))})
                found = list(self.places(answer["data"]))
                at = whole.index(found[0]) if found else 0
                self.assertEqual(found, whole[at : at + len(found)])
                inside = [it for it in whole if first <= it[0] <= last]
                self.assertEqual([it for it in found if first <= it[0] <= last], inside)

    def places(self, numbers):
        """Yields the tokens with their lines and columns."""
        line = column = 0
        for lines_on, columns_on, *others in zip(*[iter(numbers)] * 5):
            line, column = line + lines_on, columns_on + (column if lines_on == 0 else 0)
            yield line, column, *others

    def test_what_a_later_change_has_made_stale_is_not_computed(self):
        text = packages(1_000_000)
        document = {"textDocument": {"uri": URI}}
        self.client.open(text)
        raw, wanted = b"", {}
        for turn in range(30):
            for method in ("semanticTokens/full", "documentSymbol", "completion"):
                self.client.count += 1
                wanted[self.client.count] = turn, method
                params = {**document, "position": place((3, 4))}
                message = {"jsonrpc": "2.0", "id": self.client.count, "method": f"textDocument/{method}", "params": params}
                raw += frame(message)
            change = {"range": {"start": place((2, 0)), "end": place((2, 0))}, "text": " "}
            version = {"textDocument": {"uri": URI, "version": turn + 2}, "contentChanges": [change]}
            raw += frame({"jsonrpc": "2.0", "method": "textDocument/didChange", "params": version})
        self.client.write(raw)
        for number, (turn, method) in wanted.items():
            answer = self.client.response()
            self.assertEqual(answer["id"], number)
            code = answer.get("error", {}).get("code")
            # The first ones may have been taken before the change arrived.
            if method == "completion" or turn > 0 or code is not None:
                self.assertEqual(code, None if method == "completion" else -32801)
        self.client.version = 31
        self.assertEqual(self.client.diagnostics(), [])
        self.assertEqual(len(self.client.at("definition", (3, 8))), 1)

    def test_each_request_among_changes_has_one_answer(self):
        numbers = random.Random(4)
        methods = ["semanticTokens/full", "semanticTokens/full/delta", "hover", "completion", "formatting", "nothing"]
        self.client.open(WIDE)
        raw, wanted = b"", []
        for turn in range(3000):
            document = {"uri": URI, "version": turn + 2}
            if numbers.random() < 0.5:
                change = {"range": {"start": place((1, 0)), "end": place((1, turn % 3))}, "text": numbers.choice(["😀", "{", "", "a: "])}
                raw += frame({"jsonrpc": "2.0", "method": "textDocument/didChange", "params": {"textDocument": document, "contentChanges": [change]}})
            else:
                wanted.append(f"r{turn}")
                params = {"textDocument": document, "position": place((2, 1)), "previousResultId": str(turn % 7)}
                raw += frame({"jsonrpc": "2.0", "id": wanted[-1], "method": f"textDocument/{numbers.choice(methods)}", "params": params})
        self.client.write(raw)
        answers = [self.client.response() for _ in wanted]
        self.assertEqual([it["id"] for it in answers], wanted)
        self.assertLessEqual({it["error"]["code"] for it in answers if "error" in it}, {-32801, -32601})
        self.assertIsNone(self.client.ask("shutdown", None))

    def test_memory_after_10_000_edits_is_that_after_1_000(self):
        self.client.open(packages(20_000))
        name = self.client.at("semanticTokens/full")["resultId"]
        rounds = []

        def sizes_of_round():
            nonlocal name
            sizes = []
            for count in range(10_000):
                self.client.change(((100, 0), (100, count % 2), " "[count % 2 :]))
                if count % 10 == 0:
                    name = self.delta(name)["resultId"]
                    self.client.diagnostics()
                sizes.append(self.client.memory())
            rounds.append(sizes)
            return sizes

        self.assertTrue(is_bounded(sizes_of_round))
        # The heap grows in the first hundred edits.
        self.assertLess(rounds[0][1000], rounds[0][10] * 2)


if __name__ == "__main__":
    unittest.main()
