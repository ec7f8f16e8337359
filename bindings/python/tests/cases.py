"""The stored cases of the repository. `cases.py FOLDER` writes each text to a file of its own, and the output of nix-tree for all to `wanted`."""

import pathlib
import sys

DATA = pathlib.Path(__file__).resolve().parents[3] / "crates" / "rnix_test_cases" / "data"


def stored(name):
    """Yields each text of a stored list with its expected output. A case is a line with the lengths of both, then both, then a newline."""
    data = (DATA / name).read_bytes()
    at = 0
    while at < len(data):
        start = data.index(b"\n", at) + 1
        text_len, wanted_len = map(int, data[at:start].split())
        middle = start + text_len
        at = middle + wanted_len + 1
        yield data[start:middle], data[middle : at - 1].decode()


def write(folder):
    """Writes the texts and their expected output. The names of the files sort in the order of the cases."""
    texts = folder / "texts"
    texts.mkdir()
    with open(folder / "wanted", "w", encoding="utf-8", newline="") as wanted:
        for number, (text, printed) in enumerate(stored("trees")):
            (texts / f"{number:05}").write_bytes(text)
            wanted.write(printed)


if __name__ == "__main__":
    write(pathlib.Path(sys.argv[1]))
