"""A client that breaks every tenth message: RNIX_LS=PROGRAM python3 hostile_random.py [STEPS [SEED..]]

It changes some documents, as an editor does, and asks for edits of them. Each answer must be an error which says that the text is not known, or what another
server says, which gets no broken message, of the text that the client has. Only a document that the client has not sent as a whole since it broke a message
may be unknown.
"""

import json
import random
import sys
import time

from client import Client, change_of, frame, place, position_of

DOCUMENTS = [f"file:///d{number}.nix" for number in range(5)]

# Every so many messages, one is broken.
TURN = 10

# How a message may be broken. What is broken can be seen: of another letter, or another number, no server could know.
WAYS = ["byte", "cut", "header", "length", "range", "type", "text", "uri", "id", "method"]

PIECES = ["a", " ", "\n", "ä", "😀", "# c\n", "{ ", "} ", "; ", "b = 1; ", '"', "", "", "  ", "[ a", "inherit a;", "let x = a; in "]
LINE = "  a = [ 1 2 ];   b.c={ d = a; };  inherit (a) e; # ä\n"

# The error of a request about a text that is not known.
UNKNOWN = -32803


class Driver:
    """A client of two servers: one that gets broken messages, and one that is asked about a text alone."""

    def __init__(self, seed):
        self.numbers = random.Random(seed)
        self.client, self.other = Client(), Client()
        self.texts, self.versions = {}, {}
        # The documents whose text the server may not know.
        self.unsure = set()
        self.sent = self.answered = self.refused = self.broken = 0
        for uri in DOCUMENTS:
            self.open(uri)

    def send(self, method, params, number=None):
        """Sends a message. Each tenth one is broken: then the server may know no text any more."""
        message = {"jsonrpc": "2.0", **({} if number is None else {"id": number}), "method": method, "params": params}
        self.sent += 1
        if self.sent % TURN:
            self.client.write(frame(message))
            return True
        self.broken += 1
        self.unsure.update(DOCUMENTS)
        self.client.write(self.damaged(message))
        return False

    def damaged(self, message):
        """Returns a message that is broken in some way."""
        way, params = self.numbers.choice(WAYS), message["params"]
        changes = params.get("contentChanges")
        if way == "range" and changes:
            changes.insert(self.numbers.randrange(len(changes) + 1), change_of(((0, -1), (0, 0), "xyz")))
        elif way == "type" and changes:
            params["contentChanges"] = self.numbers.choice([None, {}, "x", [1], [None], [changes]])
        elif way == "text" and changes:
            changes[self.numbers.randrange(len(changes))].pop("text")
        elif way == "uri" and changes:
            params["textDocument"] = self.numbers.choice([None, {}, {"uri": 1}, {"uri": None}])
        elif way == "id" and "id" not in message:
            message["id"] = -1
        elif way == "method":
            message["method"] = self.numbers.choice([None, 1, ["x"]])
        else:
            return self.damaged_bytes(message)
        return frame(message)

    def damaged_bytes(self, message):
        """Returns a message whose bytes are broken."""
        body = json.dumps(message, ensure_ascii=False).encode()
        at = self.numbers.randrange(1, len(body))
        way = self.numbers.choice(WAYS[:4])
        if way == "byte":
            return frame(body[:at] + self.numbers.choice([b"\xe9", b"\xff", b"\xc3", b"\xed\xa0\x80"]) + body[at:])
        if way == "cut":
            return frame(body[:at])
        if way == "header":
            return self.numbers.choice([b"Content-Length: x", b"Content-Length: -1", b"Content: 7", b""]) + b"\r\n\r\n" + body
        # The body takes some of the next message, which is lost too.
        return b"Content-Length: %d\r\n\r\n%s" % (len(body) + 30, body) + frame({"jsonrpc": "2.0", "method": "$/none", "params": {"x": 70 * "x"}})

    def ask(self, uri, method, **others):
        """Asks about a document, and returns the answer, or None if the request was broken."""
        self.client.count += 1
        number = self.client.count
        if not self.send(f"textDocument/{method}", {"textDocument": {"uri": uri}, **others}, number):
            return None
        while (answer := self.client.response())["id"] != number:
            pass
        return answer["error"] if "error" in answer else {"result": answer["result"]}

    def new_text(self):
        """Returns a text for a document."""
        return "{ a }: {\n" + self.numbers.randrange(1, 8) * LINE + "}\n"

    def open(self, uri):
        """Opens a document, perhaps once more."""
        text = self.texts[uri] = self.new_text()
        self.client.version += 1
        version = self.versions[uri] = self.client.version
        if self.send("textDocument/didOpen", {"textDocument": {"uri": uri, "languageId": "nix", "version": version, "text": text}}):
            self.unsure.discard(uri)

    def change(self, uri):
        """Changes a document, in one way or in several, of which one may be the whole text."""
        text, changes, is_whole = self.texts[uri], [], False
        for _ in range(self.numbers.choice([1, 1, 1, 2, 3])):
            if self.numbers.random() < 0.1:
                text, is_whole = self.new_text(), True
                changes.append(change_of(text))
                continue
            start = self.numbers.randrange(len(text) + 1)
            end = min(len(text), start + self.numbers.choice([0, 0, 0, 1, 2, 9]))
            new = self.numbers.choice(PIECES)
            changes.append(change_of((position_of(text, start), position_of(text, end), new)))
            text = text[:start] + new + text[end:]
        self.texts[uri] = text
        self.client.version += 1
        version = self.versions[uri] = self.client.version
        if self.send("textDocument/didChange", {"textDocument": {"uri": uri, "version": version}, "contentChanges": changes}) and is_whole:
            self.unsure.discard(uri)

    def request(self, uri):
        """Returns a request for edits of a document."""
        text = self.texts[uri]
        spot = place(position_of(text, self.numbers.randrange(len(text) + 1)))
        end = place(position_of(text, len(text)))
        return self.numbers.choice(
            [
                ("formatting", {"options": {"tabSize": 2, "insertSpaces": True}}),
                ("rangeFormatting", {"range": {"start": spot, "end": end}, "options": {}}),
                ("rename", {"position": spot, "newName": "z"}),
                ("codeAction", {"range": {"start": spot, "end": self.numbers.choice([spot, end])}, "context": {"diagnostics": []}}),
                ("completion", {"position": spot}),
            ]
        )

    def wanted(self, uri, method, others):
        """Returns the answer of the other server about the text that the client has."""
        self.other.version = self.versions[uri] - 1
        self.other.open(self.texts[uri], uri)
        number = self.other.request(f"textDocument/{method}", {"textDocument": {"uri": uri}, **others})
        answer = self.other.response()
        assert answer["id"] == number
        self.other.tell("textDocument/didClose", {"textDocument": {"uri": uri}})
        return answer["error"] if "error" in answer else {"result": answer["result"]}

    def check(self, uri):
        """Asks for edits, which must be those of the text that the client has."""
        method, others = self.request(uri)
        is_unsure = uri in self.unsure
        found = self.ask(uri, method, **others)
        if found is None:
            return
        wanted = self.wanted(uri, method, others)
        if found == wanted:
            self.answered += 1
        else:
            assert is_unsure and found.get("code") == UNKNOWN and uri in found["message"], (uri, self.texts[uri], method, others, found, wanted)
            self.refused += 1
            if self.numbers.random() < 0.7:
                self.send_whole(uri)

    def send_whole(self, uri):
        """Sends the whole text of a document, as a user makes an editor do who sees that the server does not know it."""
        self.client.version += 1
        version = self.versions[uri] = self.client.version
        params = {"textDocument": {"uri": uri, "version": version}, "contentChanges": [change_of(self.texts[uri])]}
        if self.send("textDocument/didChange", params):
            self.unsure.discard(uri)

    def run(self, steps):
        """Does so many steps. Returns how many messages were broken, and how many requests were answered and refused."""
        for _ in range(steps):
            uri, kind = self.numbers.choice(DOCUMENTS), self.numbers.random()
            if kind < 0.05:
                self.open(uri)
            elif kind < 0.5:
                self.change(uri)
            else:
                self.check(uri)
        self.client.__exit__()
        self.other.__exit__()
        return self.broken, self.answered, self.refused


if __name__ == "__main__":
    steps_ = int(sys.argv[1]) if len(sys.argv) > 1 else 10_000
    for seed_ in [int(it) for it in sys.argv[2:]] or [1, 2, 3]:
        begin = time.perf_counter()
        broken_, answered_, refused_ = Driver(seed_).run(steps_)
        took = time.perf_counter() - begin
        print(f"seed {seed_}: {steps_} steps, {broken_} broken messages, {answered_} answers, {refused_} refusals, {took:.0f} s", flush=True)
