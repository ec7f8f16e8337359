"""Random requests, edits and changes of files in a workspace of 50 files: RNIX_LS=PROGRAM python3 workspace_random.py [STEPS [SEED..]]

After each step all ranges of the answers must be ranges of their texts, and have the name that was asked for, and edits must leave no more errors. At the end
of each round, the diagnostics of the open documents must be those of a new server that opens the same texts, and the symbols and the callers those of a new
server for the same files.
"""

import os
import pathlib
import random
import re
import shutil
import sys
import tempfile
import time

from client import Client, applied, place, position_of, span, text_at
from files import PATIENCE, WATCHING

FILES = 50
NAMES = ["a", "b", "c", "lib", "x1", "long-name"]
METHODS = [
    "codeAction", "completion", "definition", "documentHighlight", "documentLink", "documentSymbol", "foldingRange", "formatting", "hover", "prepareRename",
    "rangeFormatting", "references", "rename", "selectionRange", "semanticTokens/full",
]

# A document for what an edit leaves, and the code of the error of a request that is refused, such as a renaming.
AFTER = "untitled:after"
REFUSED = -32803

# How many steps a round has.
ROUND = 500


def file_of(number):
    """Returns the path of a file of the workspace."""
    return ["", "d0/", "d1/", "d2/d1/", "d3/"][number % 5] + ("default.nix" if number % 11 == 5 else f"f{number}.nix")


def expression(numbers, depth, folder):
    """Returns a random expression for a file in a folder."""
    name = lambda: numbers.choice(NAMES)
    inner = lambda: expression(numbers, depth + 1, folder)

    def path():
        found = os.path.relpath(file_of(numbers.randrange(FILES)), folder or ".")
        return ("" if found.startswith("../") else "./") + found.removesuffix("/default.nix")

    if depth > 3 or numbers.random() < 0.15:
        return numbers.choice([name(), name(), path(), "1", '"ä😀${%s}"' % name(), f"{name()}.{name()}", f"inputs.{name()}", "[ ]"])
    entry = lambda: [f"{name()} = {inner()};", f"{name()}.{name()} = {inner()};", f"inherit {name()};", f"inherit ({inner()}) {name()};"]
    entries = lambda: " ".join(numbers.choice(entry()) for _ in range(numbers.randrange(4)))
    kind = numbers.randrange(12)
    return [
        lambda: f"{{ {entries()} }}",
        lambda: f"rec {{ {entries()} }}",
        lambda: f"let {entries()} in {inner()}",
        lambda: f"({{ {name()}, {name()} ? {inner()}, ... }}: {inner()})",
        lambda: f"(import {path()} {{ {entries()} }})",
        lambda: f"(import {path()}).{name()}",
        lambda: f"(callPackage {path()} {{ {entries()} }}).{name()}",
        lambda: f"(with import {path()}; {inner()})",
        lambda: f"(with {inner()}; {inner()})",
        lambda: f"({inner()} // {inner()})",
        lambda: f"(if {name()} then {inner()} else {inner()})",
        lambda: f"(import {path()})",
    ][kind]()


def text_of(numbers, folder=""):
    """Returns a random text for a file in a folder."""
    head = numbers.choice(["", "# ä 😀\n", "\n\n", "/* 😀 */ "])
    body = numbers.choice(["{ a, b, lib ? 1, ... }: ", "{ x1 }:\n", "", ""]) + expression(numbers, 0, folder)
    return head + body.replace("; ", ";\n ") + numbers.choice(["\n", "", " # end"])


def collect(client, said):
    """Keeps the last diagnostics of each document."""
    for message in client.notifications:
        if message.get("method") == "textDocument/publishDiagnostics":
            said[message["params"]["uri"]] = message["params"]
    client.notifications.clear()


class Driver:
    """A server, the files on the disk, and the texts of the open documents."""

    def __init__(self, seed):
        self.numbers = random.Random(seed)
        self.room = pathlib.Path(tempfile.mkdtemp()).resolve()
        self.root = self.room / "w"
        self.root.mkdir()
        self.open = {}
        self.said = {}
        self.versions = {}
        self.changes = []
        for number in range(FILES):
            self.write(self.path(number))
        self.client = self.server()
        self.asked = self.found = self.edits = 0

    def server(self):
        """Starts a server for the files."""
        return Client(WATCHING, folders=[self.root.as_uri()])

    def path(self, number):
        """Returns the path of a file."""
        return self.root / file_of(number)

    def some_path(self):
        return self.path(self.numbers.randrange(FILES))

    def write(self, path):
        """Writes a file, or removes it, or makes something else of it."""
        path.parent.mkdir(parents=True, exist_ok=True)
        if path.is_dir() and not path.is_symlink():
            path.rmdir()
        path.unlink(missing_ok=True)
        kind = self.numbers.randrange(30)
        if kind == 0:
            path.write_bytes(b"{ a = \xff; }")
        elif kind == 1 and path.as_uri() not in self.open:
            path.symlink_to(self.numbers.choice(["/none", "f1.nix", "."]))
        elif kind == 2:
            path.mkdir()
        elif kind > 4:
            path.write_text(self.text_for(path))
        self.changes.append({"uri": path.as_uri(), "type": self.numbers.randrange(1, 4)})

    def text_for(self, path):
        """Returns a random text for a file."""
        return text_of(self.numbers, str(path.parent.relative_to(self.root)))

    def tell_changes(self):
        """Says which files have changed."""
        self.client.tell("workspace/didChangeWatchedFiles", {"changes": self.changes})
        self.changes = []

    def text(self, uri):
        """Returns the text of a document or a file, or None."""
        if uri in self.open:
            return self.open[uri]
        path = pathlib.Path(uri.removeprefix("file://"))
        try:
            return path.read_text()
        except (OSError, UnicodeDecodeError):
            return None

    def open_some(self):
        # A document that is opened through a link is that of another file.
        path = next(it for it in iter(self.some_path, None) if not it.is_symlink())
        uri = path.as_uri()
        self.open[uri] = self.text(uri) if self.numbers.random() < 0.5 and self.text(uri) is not None else self.text_for(path)
        self.client.open(self.open[uri], uri)
        self.versions[uri] = self.client.version

    def close_some(self):
        if self.open:
            uri = self.numbers.choice(sorted(self.open))
            del self.open[uri], self.versions[uri]
            self.client.tell("textDocument/didClose", {"textDocument": {"uri": uri}})

    def change_some(self):
        if not self.open:
            return
        uri = self.numbers.choice(sorted(self.open))
        text = self.open[uri]
        start = self.numbers.randrange(len(text) + 1)
        end = min(len(text), start + self.numbers.choice([0, 0, 1, 3, 20]))
        new = self.numbers.choice(["", "a", " ", "\n", "ä", "{ ", "}", ";", "a = 1; ", text_of(self.numbers)])
        self.client.change((position_of(text, start), position_of(text, end), new), uri=uri)
        self.open[uri] = text[:start] + new + text[end:]
        self.versions[uri] = self.client.version

    def check_location(self, location):
        """Returns the text at an answer; it must be in its text, as it is now."""
        text = self.text(location["uri"])
        found = None if text is None else text_at(text, location)
        if found is None:
            # The start of a file is an answer also for one that is not UTF-8.
            assert location["range"] == {"start": place((0, 0)), "end": place((0, 0))}, (location, text)
        return found

    def ask_some(self):
        """Asks about a document, and checks the answer."""
        if not self.open:
            return
        uri = self.numbers.choice(sorted(self.open))
        text = self.open[uri]
        words = [it.start() for it in re.finditer(r"[\w-]+|[./<]+", text)]
        offset = self.numbers.choice(words) if words and self.numbers.random() < 0.9 else self.numbers.randrange(len(text) + 1)
        end = self.numbers.choice([offset, self.numbers.randrange(offset, len(text) + 1)])
        method = self.numbers.choice(METHODS + ["definition"] * 8)
        others = {
            "context": {"includeDeclaration": True, "diagnostics": []},
            "range": {"start": place(position_of(text, offset)), "end": place(position_of(text, end))},
            "positions": [place(position_of(text, offset))],
            "newName": self.numbers.choice([*NAMES, "z"]),
            "options": {"tabSize": 2, "insertSpaces": True},
        }
        answer = self.client.at(method, position_of(text, offset), uri, **others)
        self.asked += 1
        if isinstance(answer, dict) and "code" in answer:
            assert answer["code"] == REFUSED and method in ("prepareRename", "rename"), (method, answer)
            return
        self.check_ranges(answer, text)
        if method == "definition":
            self.check_definition(answer or [], uri, text, offset, words)
        elif method == "references":
            for location in answer:
                self.check_location(location)
        elif method == "documentLink":
            for link in answer:
                assert set(text_at(text, link)) & set("/<"), (text, link)
                assert pathlib.Path(link["target"].removeprefix("file://")).exists()
        elif method in ("formatting", "rangeFormatting"):
            after = applied(text, answer)
            assert "".join(after.split()) == "".join(text.split()), (text, answer)
            self.check_edits(text, answer)
        elif method == "rename":
            self.check_edits(text, answer["documentChanges"][0]["edits"])
        elif method == "codeAction":
            for action in answer:
                self.check_edits(text, action["edit"]["documentChanges"][0]["edits"], action["kind"] == "quickfix")
        elif method == "foldingRange":
            lines = text.count("\n")
            assert all(0 <= it["startLine"] < it["endLine"] <= lines for it in answer), (text, answer)
        elif method == "semanticTokens/full":
            self.check_tokens(answer["data"], text)

    def check_definition(self, answer, uri, text, offset, words):
        """The places of a definition must have the name that was asked for."""
        word = re.match(r"[a-z0-9_-]*", text[offset:])[0]
        for location in answer:
            found = self.check_location(location)
            self.found += location["uri"] != uri
            assert offset not in words or word not in NAMES or found == word, (uri, text, offset, word, location, found)

    def check_ranges(self, thing, text):
        """All ranges in an answer that are not those of another file must be in the text."""
        if isinstance(thing, list):
            for part in thing:
                self.check_ranges(part, text)
        elif isinstance(thing, dict) and "uri" not in thing:
            if "start" in thing:
                assert text_at(text, thing) is not None, (text, thing)
            for part in thing.values():
                self.check_ranges(part, text)

    def check_tokens(self, numbers, text):
        """Semantic tokens must be in the text, one after the other."""
        line = column = last = 0
        for lines, columns, length, *_ in zip(*[iter(numbers)] * 5):
            line, column, last = line + lines, columns + (0 if lines else column), 0 if lines else last
            assert column >= last and length > 0, (text, numbers)
            last = column + length
            assert text_at(text, {"start": place((line, column)), "end": place((line, last))}) is not None, (text, line, column, length)

    def errors_of(self, text):
        """Returns how many syntax errors a text has."""
        self.client.open(text, AFTER)
        found = self.client.at("diagnostic", uri=AFTER)["items"]
        self.client.tell("textDocument/didClose", {"textDocument": {"uri": AFTER}})
        return sum(it["code"] == "syntax-error" for it in found)

    def check_edits(self, text, edits, is_fix=False):
        """Edits must not overlap, and must leave a text with no more errors than before. The fix of one error may show others that it hid."""
        places = sorted(span(it) for it in edits)
        assert all(one[2:] <= other[:2] for one, other in zip(places, places[1:])), (text, edits)
        self.edits += 1
        before, after = self.errors_of(text), self.errors_of(applied(text, edits))
        assert after <= before or (is_fix and before), (text, edits)

    def ask_symbols(self):
        """Asks for symbols, which must be in their texts."""
        for symbol in self.client.ask("workspace/symbol", {"query": self.numbers.choice(["", "a", "lib", "x", "ng", "none"])}):
            found = self.check_location(symbol["location"])
            assert found == symbol["name"] or " ".join(found.split())[:100] == symbol["name"], (symbol, found)

    def step(self):
        """Does something at random."""
        kind = self.numbers.randrange(100)
        if kind < 6:
            self.open_some()
        elif kind < 9:
            self.close_some()
        elif kind < 30:
            self.change_some()
        elif kind < 38:
            self.write(self.some_path())
        elif kind < 46:
            self.tell_changes()
        elif kind < 48 and self.open:
            self.client.tell("textDocument/didSave", {"textDocument": {"uri": self.numbers.choice(sorted(self.open))}})
        elif kind < 52:
            self.ask_symbols()
        else:
            self.ask_some()

    def facts(self, client):
        """Returns what a server says of all files."""
        symbols = client.ask("workspace/symbol", {"query": ""})
        facts = [(it["name"], it["kind"], str(it["location"]), it["containerName"]) for it in symbols]
        for uri, text in sorted(self.open.items()):
            for word in re.finditer(r"[\w-]+", text):
                facts.append((uri, word.start(), str(client.at("definition", position_of(text, word.start()), uri))))
        return facts

    def check_all(self):
        """Compares the server with a new one, once both have nothing more to do."""
        self.tell_changes()
        end = time.monotonic() + PATIENCE
        with self.server() as other:
            for uri, text in sorted(self.open.items()):
                other.open(text, uri)
            said = {}
            while time.monotonic() < end:
                mine, wanted = self.facts(self.client), self.facts(other)
                collect(self.client, self.said)
                collect(other, said)
                if mine == wanted and all(uri in said and self.said.get(uri, {}).get("version") == self.versions[uri] for uri in self.open):
                    break
                time.sleep(0.05)
        assert mine == wanted, [pair for pair in zip(mine, wanted) if pair[0] != pair[1]][:3]
        for uri in self.open:
            assert self.said.get(uri, {}).get("version") == self.versions[uri], uri
            assert self.said[uri]["diagnostics"] == said[uri]["diagnostics"], uri

    def run(self, steps):
        """Does so many steps, and returns how many requests there were, how many places in other files they found, and how many edits."""
        for number in range(steps):
            self.step()
            if number % ROUND == ROUND - 1 or number == steps - 1:
                self.check_all()
        self.client.__exit__()
        shutil.rmtree(self.room)
        return self.asked, self.found, self.edits


if __name__ == "__main__":
    steps_ = int(sys.argv[1]) if len(sys.argv) > 1 else 10_000
    for seed_ in [int(it) for it in sys.argv[2:]] or [1, 2, 3]:
        begin = time.perf_counter()
        asked_, found_, edits_ = Driver(seed_).run(steps_)
        took = time.perf_counter() - begin
        print(f"seed {seed_}: {steps_} steps, {asked_} requests about documents, {found_} places in other files, {edits_} edits, {took:.0f} s", flush=True)
