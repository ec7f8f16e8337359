"""A client that drives rnix-ls over pipes. RNIX_LS names the program."""

import glob
import json
import os
import select
import statistics
import subprocess

PROGRAM = os.environ.get("RNIX_LS", "rnix-ls")
URI = "file:///t.nix"

# How long an answer may take; valgrind makes the server some fifty times slower.
SECONDS = 120

# What an editor says that it can do.
CAPABILITIES = {
    "workspace": {"workspaceEdit": {"documentChanges": True}},
    "textDocument": {
        "hover": {"contentFormat": ["markdown", "plaintext"]},
        "documentSymbol": {"hierarchicalDocumentSymbolSupport": True},
        "codeAction": {"codeActionLiteralSupport": {"codeActionKind": {"valueSet": ["quickfix"]}}},
        "publishDiagnostics": {"relatedInformation": True},
        "semanticTokens": {"requests": {"range": True, "full": {"delta": True}}},
    },
}


def frame(message):
    """Returns a message with its header."""
    body = message if isinstance(message, bytes) else json.dumps(message).encode()
    return b"Content-Length: %d\r\n\r\n%s" % (len(body), body)


class Client:
    """A server with its pipes."""

    def __init__(self, capabilities=None, is_initialized=True, below=(), options=None, folders=None, environment=None):
        """Starts a server, `below` the command of a tool such as valgrind, with the settings that it begins with and the URIs of the folders of a workspace."""
        command, environment = [*below, PROGRAM, "--stdio"], {**os.environ, **(environment or {})}
        self.process = subprocess.Popen(command, stdin=subprocess.PIPE, stdout=subprocess.PIPE, bufsize=0, env=environment)
        self.arrived = bytearray()
        self.count = 0
        self.notifications = []
        self.version = 0
        self.greeting = None
        if is_initialized:
            capabilities = CAPABILITIES if capabilities is None else capabilities
            named = folders and [{"uri": it, "name": "folder"} for it in folders]
            params = {"processId": None, "rootUri": None, "workspaceFolders": named, "capabilities": capabilities, "initializationOptions": options}
            self.greeting = self.ask("initialize", params)
            self.tell("initialized", {})

    def __enter__(self):
        return self

    def __exit__(self, problem=None, *_):
        self.process.stdin.close()
        self.process.stdout.close()
        try:
            self.process.wait(60)
        except subprocess.TimeoutExpired:
            self.process.kill()
            raise
        # Another status is that of a crash.
        assert problem or self.process.returncode in (0, 1), self.process.returncode

    def take(self):
        """Waits for bytes from the server, and returns whether there were any. A server that says nothing for long is ended."""
        if not select.select([self.process.stdout], [], [], SECONDS)[0]:
            self.process.kill()
            raise TimeoutError(f"rnix-ls has not answered for {SECONDS} seconds")
        part = os.read(self.process.stdout.fileno(), 65536)
        self.arrived += part
        return bool(part)

    def write(self, raw):
        """Sends bytes as they are. What the server sends meanwhile is read, as an editor does, so that neither waits for the other."""
        rest = memoryview(raw)
        while rest:
            outputs = [] if self.process.stdout.closed else [self.process.stdout]
            readable, writable, _ = select.select(outputs, [self.process.stdin], [], SECONDS)
            if not readable and not writable:
                self.process.kill()
                raise TimeoutError(f"rnix-ls has not read for {SECONDS} seconds")
            if writable:
                rest = rest[os.write(self.process.stdin.fileno(), rest[:select.PIPE_BUF]):]
            elif readable and not self.take():
                raise BrokenPipeError

    def send(self, message):
        """Sends a message."""
        self.write(frame(message))

    def tell(self, method, params):
        """Sends a notification."""
        self.send({"jsonrpc": "2.0", "method": method, "params": params})

    def request(self, method, params):
        """Sends a request and returns its id."""
        self.count += 1
        self.send({"jsonrpc": "2.0", "id": self.count, "method": method, "params": params})
        return self.count

    def read(self):
        """Returns the next message, or None at the end."""
        while (end := self.arrived.find(b"\r\n\r\n")) < 0:
            if not self.take():
                return None
        lines = self.arrived[:end].split(b"\r\n")
        length = int(next(it.partition(b":")[2] for it in lines if it.startswith(b"Content-Length:")))
        start, end = end + 4, end + 4 + length
        while len(self.arrived) < end:
            if not self.take():
                return None
        body = self.arrived[start:end].decode()
        del self.arrived[:end]
        return json.loads(body)

    def response(self):
        """Returns the next message that is a response, and keeps the notifications before it."""
        while True:
            message = self.read()
            if message is None or "method" not in message:
                return message
            self.notifications.append(message)

    def ask(self, method, params):
        """Sends a request, and returns its result, or its error as it is."""
        number = self.request(method, params)
        answer = self.response()
        assert answer["id"] == number and answer["jsonrpc"] == "2.0", answer
        return answer["error"] if "error" in answer else answer["result"]

    def open(self, text, uri=URI):
        """Opens a document."""
        self.version += 1
        document = {"uri": uri, "languageId": "nix", "version": self.version, "text": text}
        self.tell("textDocument/didOpen", {"textDocument": document})

    def change(self, *changes, uri=URI):
        """Changes a document: each change is a text, or a start, an end and a text."""
        self.version += 1
        document = {"uri": uri, "version": self.version}
        self.tell("textDocument/didChange", {"textDocument": document, "contentChanges": [change_of(it) for it in changes]})

    def diagnostics(self):
        """Waits for diagnostics of the last version, and returns them."""
        while True:
            message = self.notifications.pop(0) if self.notifications else self.read()
            if message.get("method") == "textDocument/publishDiagnostics":
                if message["params"].get("version") == self.version:
                    return message["params"]["diagnostics"]

    def message(self, method):
        """Waits for a notification or a request of a method, and returns it."""
        while True:
            message = self.notifications.pop(0) if self.notifications else self.read()
            if message.get("method") == method:
                return message

    def at(self, method, position=None, uri=URI, **others):
        """Asks about a document."""
        params = {"textDocument": {"uri": uri}, **others}
        if position is not None:
            params["position"] = place(position)
        return self.ask(f"textDocument/{method}", params)

    def processor_time(self):
        """Returns how long processors have worked for the server, in seconds."""
        times = 0
        for name in glob.glob(f"/proc/{self.process.pid}/task/*/schedstat"):
            with open(name, encoding="ascii") as file:
                times += int(file.read().split()[0])
        return times / 1e9

    def memory(self):
        """Returns the resident memory in bytes."""
        with open(f"/proc/{self.process.pid}/statm", encoding="ascii") as file:
            return int(file.read().split()[1]) * os.sysconf("SC_PAGE_SIZE")


def growth(sizes):
    """Returns how many bytes a size grows from each measurement to the next, and how many times as large it is at the end as after the first tenth.

    Each tenth of the measurements counts with its least one, and the growth is the median of those from one tenth to the next: a heap also grows in
    single steps, but a leak grows all the time."""
    tenth = len(sizes) // 10
    least = [min(sizes[start : start + tenth]) for start in range(0, 10 * tenth, tenth)]
    return statistics.median(after - before for before, after in zip(least, least[1:])) / tenth, least[-1] / least[1]


def is_bounded(sizes_of_round):
    """Returns whether the memory of a server stays as it is in one of three rounds of changes, each of which returns the size after each change.

    A step of the heap is not repeated, but a leak makes every round grow: 50 bytes after each change, or a tenth in all."""
    for _ in range(3):
        leak, ratio = growth(sizes_of_round())
        print(f"memory: {leak:.1f} bytes more after each change, and {ratio:.2f} times as much at the end of a round as after a tenth of it")
        if leak < 50 and ratio < 1.1:
            return True
    return False


def anonymous(diagnostics):
    """Returns diagnostics without the name of the document, so that those of two documents compare."""
    for note in [note for found in diagnostics for note in found.get("relatedInformation", [])]:
        del note["location"]["uri"]
    return diagnostics


def place(position):
    """Returns a position as the protocol writes it."""
    return {"line": position[0], "character": position[1]}


def change_of(change):
    """Returns a change as the protocol writes it."""
    if isinstance(change, str):
        return {"text": change}
    start, end, text = change
    return {"range": {"start": place(start), "end": place(end)}, "text": text}


def patched(tokens, answer):
    """Returns the numbers of semantic tokens after an answer to a request for their edits."""
    if "data" in answer:
        return answer["data"]
    tokens = list(tokens)
    for edit in sorted(answer["edits"], key=lambda it: -it["start"]):
        tokens[edit["start"] : edit["start"] + edit["deleteCount"]] = edit.get("data", [])
    return tokens


def span(thing):
    """Returns the range of an answer as four numbers."""
    thing = thing.get("range", thing)
    start, end = thing["start"], thing["end"]
    return start["line"], start["character"], end["line"], end["character"]


def text_at(text, thing, unit="utf-16"):
    """Returns the part of a text at the range of an answer, or None if the text has no such range. Columns count UTF-16 units or bytes."""
    lines, (first, start, last, end) = text.split("\n"), span(thing)
    if (first, start) > (last, end) or last >= len(lines):
        return None
    code, width = ("utf-8", 1) if unit == "utf-8" else ("utf-16-le", 2)
    coded = [it.encode(code) for it in lines[first : last + 1]]
    if width * start > len(coded[0]) or width * end > len(coded[-1]):
        return None
    coded[-1] = coded[-1][: width * end]
    coded[0] = coded[0][width * start :]
    return "\n".join(it.decode(code) for it in coded)


def position_of(text, offset):
    """Returns the line and the UTF-16 column of an offset in a text with newlines."""
    before = text[:offset]
    line = before.rpartition("\n")[2]
    return before.count("\n"), len(line.encode("utf-16-le")) // 2


def applied(text, edits, unit="utf-16"):
    """Returns the text after edits whose columns count UTF-16 units or bytes."""
    lines = text.split("\n")

    def offset(position):
        line = lines[position["line"]]
        column = position["character"]
        if unit == "utf-8":
            column = len(line.encode()[:column].decode())
        else:
            column = len(line.encode("utf-16-le")[: 2 * column].decode("utf-16-le"))
        return sum(len(it) + 1 for it in lines[: position["line"]]) + column

    spans = [(offset(it["range"]["start"]), offset(it["range"]["end"]), it["newText"]) for it in edits]
    for start, end, new in sorted(spans, reverse=True):
        text = text[:start] + new + text[end:]
    return text
