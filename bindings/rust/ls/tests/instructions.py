"""Prints how many instructions rnix-ls takes, as valgrind counts them, and how long: RNIX_LS=PROGRAM python3 instructions.py [SIZE..]

Of each size in bytes (20,000 and 1,000,000) there are two texts, one in ASCII and one with letters outside. A session starts the server, opens the text
and parses it. A key press is a change of one letter, the diagnostics, and the edits of the semantic tokens. Other figures are those of one request
after the diagnostics. They are printed in thousands, and after each of them stands how many milliseconds processors worked for the server without valgrind:
the least of some turns.
"""

import glob
import os
import subprocess
import sys
import tempfile
import time

from client import Client, place

HERE = os.path.dirname(os.path.abspath(__file__))
sys.path.insert(0, f"{HERE}/../../../../bench")
from inputs import SHAPES  # noqa: E402

# What is written otherwise in the text with letters outside ASCII.
LETTERS = {"greets": "grüßt 😀", "the flags": "die Schalter — ä", "touch $out": "touch $out/é", "no license": "keine Lizenz 😀"}
PRESSES = 2

# How often each thing is timed.
TURNS = 5


def packages(size, is_ascii):
    """Returns a text of a size in bytes."""
    head, turn, tail = SHAPES["packages"]
    for word, other in {} if is_ascii else LETTERS.items():
        assert word in turn
        turn = turn.replace(word, other)
    count = (size - len(head) - len(tail)) // len(turn.encode())
    return head + turn * count + tail


def position(text, mark):
    """Returns the position of a mark in the middle of a text."""
    lines = text.split("\n")
    line = next(it for it in range(len(lines) // 2, len(lines)) if mark in lines[it])
    return line, lines[line].index(mark)


class Counted:
    """A server whose instructions are counted whenever it begins to wait."""

    def __init__(self, room):
        self.room = room
        self.seen = set()
        options = [f"--callgrind-out-file={room}/out", "--dump-before=*rnix_ls*queue*Queue*wait*"]
        self.client = Client(below=["valgrind", "-q", "--tool=callgrind", *options])

    def new_files(self):
        """Waits until the server waits, and returns the files of counts that it has written since the last call."""
        files = set()
        while True:
            found = {it for it in glob.glob(f"{self.room}/out.*") if os.path.getsize(it)} - self.seen
            if found and found == files:
                self.seen |= found
                return found
            files = found
            time.sleep(0.4)

    def spent(self):
        """Returns the instructions since the last call."""
        total = 0
        for name in self.new_files():
            with open(name, encoding="utf-8") as file:
                total += next(int(it.split()[1]) for it in file if it.startswith("totals:"))
        return total

    def inclusive(self, function):
        """Returns the instructions of one call of a function and of those that it calls."""
        for name in self.seen:
            command = ["callgrind_annotate", "--inclusive=yes", "--threshold=100", name]
            listed = subprocess.run(command, check=True, stdout=subprocess.PIPE, text=True).stdout
            lines = [it for it in listed.split("\n") if f":{function}" in it]
            if lines:
                return int(lines[0].split()[0].replace(",", ""))
        raise LookupError(function)


class Timed:
    """A server whose processor time is measured whenever it has nothing more to do."""

    def __init__(self):
        self.client = Client()
        self.last = 0

    def spent(self):
        """Returns the milliseconds since the last call."""
        total = None
        while total != (total := self.client.processor_time()):
            time.sleep(0.05)
        found, self.last = total - self.last, total
        return 1000 * found


def requests(text):
    """Yields the requests, with their names and parameters."""
    use, bound = {"position": position(text, "stdenv.is")}, {"position": position(text, "x: ")}
    line, column = use["position"]
    lines = {"range": {"start": place((line, 0)), "end": place((line + 50, 0))}}
    inherited = place(position(text, "lib stdenv;"))
    one = {"range": {"start": inherited, "end": inherited}, "context": {"diagnostics": []}}
    yield "hover", "hover", use
    # The first one reads the table of what Nix binds.
    yield "completion, the first", "completion", use
    yield "completion", "completion", use
    yield "completion, after a dot", "completion", {"position": (line, column + len("stdenv.is"))}
    yield "definition", "definition", use
    yield "references", "references", {**use, "context": {"includeDeclaration": True}}
    yield "documentHighlight", "documentHighlight", use
    yield "prepareRename", "prepareRename", bound
    yield "rename", "rename", {**bound, "newName": "path"}
    yield "codeAction", "codeAction", {**lines, "context": {"diagnostics": []}}
    yield "codeAction, at an inherited name", "codeAction", one
    yield "documentSymbol", "documentSymbol", {}
    yield "documentLink", "documentLink", {}
    yield "foldingRange", "foldingRange", {}
    yield "selectionRange", "selectionRange", {"positions": [place(use["position"])]}
    yield "semanticTokens/full", "semanticTokens/full", {}
    yield "semanticTokens/range", "semanticTokens/range", lines
    yield "diagnostic", "diagnostic", {}
    yield "formatting", "formatting", {"options": {}}
    yield "rangeFormatting", "rangeFormatting", {**lines, "options": {}}


def pressed(counted, text):
    """Returns the cost of a key press in a string."""
    client = counted.client
    line, column = position(text, '"touch')
    name = client.at("semanticTokens/full")["resultId"]
    counted.spent()
    for turn in range(PRESSES):
        client.change(((line, column + 1), (line, column + 1), "abc"[turn % 3]))
        name = client.at("semanticTokens/full/delta", previousResultId=name)["resultId"]
        client.diagnostics()
    return counted.spent() / PRESSES


def asked(counted, text, found):
    """Adds the figures of requests."""
    for name, method, others in requests(text):
        answer = counted.client.at(method, **others)
        assert not (isinstance(answer, dict) and "code" in answer), (name, answer)
        label, _, rest = name.partition(", ")
        found[f"`{label}`" + (f", {rest}" if rest else "")] = counted.spent()
    assert counted.client.ask("workspace/symbol", {"query": "greet"})
    found["`workspace/symbol`, the first"] = counted.spent()
    counted.client.ask("workspace/symbol", {"query": "greet"})
    found["`workspace/symbol`"] = counted.spent()


def corrected(counted, text):
    """Returns the cost of a quick fix for the first error of a text."""
    client = counted.client
    client.open(text)
    error, *_ = client.diagnostics()
    counted.spent()
    (action,) = client.at("codeAction", range=error["range"], context={"diagnostics": [error]})
    assert action["title"] == "Insert `;`", action
    return counted.spent()


def figures(counted, text):
    """Returns the figures for a text, by their names."""
    found = {}
    with counted.client as client:
        client.open(text)
        client.diagnostics()
        found["start, open, diagnostics"] = counted.spent()
        if isinstance(counted, Counted):
            found["a parse"], found["names"] = counted.inclusive("rnix_parse_compact"), counted.inclusive("rnix_analysis")
            found["a session"] = found["start, open, diagnostics"] - found["names"]
        asked(counted, text, found)
        found["a key press"] = pressed(counted, text)
        broken = text.replace("= callPackage", "= = callPackage", 1)
        client.open(broken)
        client.diagnostics()
        found["a key press, with an error"] = pressed(counted, broken)
        found["a quick fix for an error"] = corrected(counted, text.replace(";\n", "\n", 1))
    return found


def cells_of(text):
    """Returns what is printed for a text, by the names of the rows."""
    with tempfile.TemporaryDirectory() as room:
        counts = figures(Counted(room), text)
    turns = [figures(Timed(), text) for _ in range(TURNS)]
    cells = {}
    for name, count in counts.items():
        times = [turn[name] for turn in turns if name in turn]
        cells[name] = f"{count / 1000:,.0f}" + (f" ({min(times):.2g})" if times else "")
        if name.startswith("a key press"):
            cells[f"{name}, in parses"] = f"{count / counts['a parse']:.2f}"
    return cells


def main():
    sizes = list(map(int, sys.argv[1:])) or [20_000, 1_000_000]
    columns = [(size, is_ascii, cells_of(packages(size, is_ascii))) for size in sizes for is_ascii in (True, False)]
    names = [f"{size // 1000} KB, {'ASCII' if is_ascii else 'letters'}" for size, is_ascii, _ in columns]
    print(f"| | {' | '.join(names)} |\n|---|{'---|' * len(names)}")
    for name in columns[0][2]:
        print(f"| {name} | {' | '.join(cells[name] for *_, cells in columns)} |")


if __name__ == "__main__":
    main()
