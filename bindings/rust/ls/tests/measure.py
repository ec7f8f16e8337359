"""Prints how fast rnix-ls starts and answers, and how much memory it takes: RNIX_LS=PROGRAM python3 measure.py [TURNS]

Times are from the sending of a message to the answer, in milliseconds: the least of TURNS (15) and the median. That of a key press is how long
processors worked for the server: for a change of one letter, the diagnostics, and the edits of the semantic tokens.
"""

import os
import statistics
import subprocess
import sys
import tempfile
import time

from client import Client

HERE = os.path.dirname(os.path.abspath(__file__))
TURNS = int(sys.argv[1]) if len(sys.argv) > 1 else 15


def text_of(shape, size):
    """Returns a text of bench/inputs.py."""
    with tempfile.TemporaryDirectory() as room:
        subprocess.run([sys.executable, f"{HERE}/../../../../bench/inputs.py", room, str(size)], check=True, stdout=subprocess.DEVNULL)
        with open(f"{room}/{shape}-{size}", encoding="utf-8") as file:
            return file.read()


def timed(call, turns=TURNS):
    """Returns the least and the median time of a call."""
    times = []
    for turn in range(turns):
        start = time.perf_counter()
        call(turn)
        times.append(1000 * (time.perf_counter() - start))
    return f"{min(times):.1f} ({statistics.median(times):.1f})"


def start(_):
    """Starts a server, and waits for its first answer."""
    Client().__exit__()


def change(client, turn):
    """Changes one character, and waits for the diagnostics."""
    client.change(((0, 0), (0, min(turn, 1)), " \t"[turn % 2]))
    client.diagnostics()


def press(client):
    """Returns the least and the median processor time of key presses in the first comment."""
    name = client.at("semanticTokens/full")["resultId"]
    times = []
    for turn in range(TURNS):
        start = client.processor_time()
        client.change(((2, 6), (2, 6), "abc"[turn % 3]))
        name = client.at("semanticTokens/full/delta", previousResultId=name)["resultId"]
        client.diagnostics()
        times.append(1000 * (client.processor_time() - start))
    return f"{min(times):.1f} ({statistics.median(times):.1f})"


def size_of(shape, size):
    """Prints the figures for a size."""
    text = text_of(shape, size)
    with Client() as client:
        client.open(text)
        client.diagnostics()
        middle = (text.count("\n") // 2, 8)
        figures = [timed(lambda turn: change(client, turn), TURNS if size < 5_000_000 else 5)]
        for method in ("hover", "completion", "documentSymbol", "semanticTokens/full", "foldingRange"):
            figures.append(timed(lambda _: client.at(method, middle)))
        figures.append(press(client))
        figures.append(f"{client.memory() / 1e6:.1f} MB")
        print(f"| {shape}, {size // 1000} KB | {' | '.join(figures)} |", flush=True)


def growth(count):
    """Prints the memory after some changes and after many."""
    with Client() as client:
        client.open(text_of("packages", 20_000))
        sizes = []
        for turn in range(count):
            change(client, turn)
            if turn % 10 == 0:
                client.at("semanticTokens/full")
                client.at("completion", (3, 4))
            if turn in (count // 20 - 1, count - 1):
                sizes.append(client.memory() // 1000)
        print(f"memory after {count // 20} and {count} changes: {sizes[0]} and {sizes[1]} KB")


def burst():
    """Prints how long 1,000 changes take that are sent at once."""
    with Client() as client:
        client.open(text_of("packages", 100_000))
        client.diagnostics()
        begin = time.perf_counter()
        for turn in range(1000):
            client.change(((0, 0), (0, min(turn, 1)), " \t"[turn % 2]))
        client.diagnostics()
        print(f"1,000 changes of 100 KB at once: {1000 * (time.perf_counter() - begin):.0f} ms until the diagnostics of the last")


print(f"start: {timed(start, 2 * TURNS)} ms; without a text {Client().memory() / 1e6:.1f} MB", flush=True)
print("| text | change | hover | completion | symbols | semantic tokens | folding | key press, processor | memory |")
for shape_, size_ in [("packages", 10_000), ("packages", 100_000), ("modules", 100_000), ("packages", 1_000_000), ("packages", 10_000_000)]:
    size_of(shape_, size_)
burst()
growth(20_000)
