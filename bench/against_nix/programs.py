"""The commands of the program, as the repository builds it, and what a run of one is compared by."""
import pathlib
import re

from .evaluate import run, side_by_side


class Programs:
    """The built program of a checkout, with its commands."""

    def __init__(self, top):
        self.path = pathlib.Path(top).resolve() / "crates/rnix_command/out/rnix_command"

    def run(self, command, arguments, text):
        """A run of a command over a text on standard input: the status, what it printed, and what it said."""
        done = run([str(self.path), command, *arguments], input=text.encode())
        return Ran(done.returncode, done.stdout.decode("utf-8", "replace"), done.stderr.decode("utf-8", "replace"))

    def run_all(self, command, cases):
        """Runs over many texts, each given with its arguments."""
        return side_by_side(lambda case: self.run(command, *case), cases)


class Ran:
    def __init__(self, status, out, said):
        self.status, self.out, self.said = status, out, said

    def __repr__(self):
        return f"status {self.status}" + (f", {self.said.strip()!r}" if self.said.strip() else "")


# What rnix reads otherwise than Nix, by docs/nix.md: a carriage return inside a comment, and a legacy `let` as an operand.
READ_OTHERWISE = re.compile(r"#[^\r\n]*\r(?!\n)|\blet\s*\{")


def failed(ran, command):
    """The difference if a program ended in no way that it documents, as by a signal."""
    return None if ran.status in (0, 1, 2) else Difference(f"status {ran.status}", f"$ {command}", f"{ran}")


class Case:
    """A text, and what a sort needs beside it."""

    def __init__(self, text, **more):
        self.text = text
        self.__dict__.update(more)

    def with_text(self, text):
        return Case(text, **{name: value for name, value in self.__dict__.items() if name != "text"})


class Difference:
    """What a program and Nix make of a text, where they differ: in a few words that are the same for alike ones, and in lines."""

    def __init__(self, words, *lines):
        self.words, self.lines = words, lines


def value_shown(value):
    text = repr(value)
    return text if len(text) <= 600 else text[:600] + ".."
