"""A folder with files, and a server for it, for tests."""

import pathlib
import shutil
import tempfile
import time
import unittest
import urllib.parse

from client import CAPABILITIES, Client, position_of, text_at

# A client that says which files change.
WATCHING = {**CAPABILITIES, "workspace": {**CAPABILITIES["workspace"], "didChangeWatchedFiles": {"dynamicRegistration": True}}}

# How long the index may take to know what is on the disk, in seconds.
PATIENCE = 20


class Files(unittest.TestCase):
    """A folder with files, and a server for it."""

    folders = ["."]

    def setUp(self):
        self.room = pathlib.Path(tempfile.mkdtemp()).resolve()
        self.root = self.room / "work ä"
        self.root.mkdir()
        self.addCleanup(shutil.rmtree, self.room)
        self.client = None
        self.texts = {}

    def start(self, capabilities=None, **others):
        """Starts the server once the files are there."""
        self.client = Client(capabilities, folders=[(self.root / it).as_uri() for it in self.folders], **others)
        self.addCleanup(self.client.__exit__)

    def write(self, name, text):
        """Writes a file."""
        path = self.root / name
        path.parent.mkdir(parents=True, exist_ok=True)
        path.write_text(text)

    def uri(self, name):
        return (self.root / name).as_uri()

    def open(self, name, marked):
        """Opens a text, and returns the position of the `|` in it, which is no part of it."""
        at = marked.find("|")
        text = marked.replace("|", "", 1)
        self.texts[self.uri(name)] = text
        self.client.open(text, self.uri(name))
        return position_of(text, max(at, 0))

    def shown(self, location):
        """Returns the path of an answer and the text there."""
        path = pathlib.Path(urllib.parse.unquote(location["uri"].removeprefix("file://")))
        text = self.texts[location["uri"]] if location["uri"] in self.texts else path.read_text()
        return str(path.relative_to(self.root)), text_at(text, location)

    def definition(self, name, marked):
        """Opens a text, and returns what is at the definitions of what is at the `|`."""
        places = self.client.at("definition", self.open(name, marked), self.uri(name))
        return places and [self.shown(it) for it in places]

    def symbols(self, query):
        """Returns the names and the files of the symbols for a query, in their order."""
        found = self.client.ask("workspace/symbol", {"query": query})
        for it in found:
            self.assertEqual(self.shown(it["location"])[1], it["name"])
        return [(it["name"], it["containerName"]) for it in found]

    def wait_until(self, call, wanted):
        """Waits until a call returns something."""
        end = time.monotonic() + PATIENCE
        while (found := call()) != wanted and time.monotonic() < end:
            time.sleep(0.01)
        self.assertEqual(found, wanted)

    def wait_for(self, query, wanted):
        """Waits until a query has some symbols."""
        self.wait_until(lambda: self.symbols(query), wanted)

    def tell_changes(self, *changes):
        """Says which files have changed."""
        changes = [{"uri": self.uri(name), "type": kind} for name, kind in changes]
        self.client.tell("workspace/didChangeWatchedFiles", {"changes": changes})
