"""Prints the least milliseconds of some turns to parse a file, to walk its tree, and to read its strings, and the most memory that the process had
after it parsed the file once, in bytes for each byte of the file. Usage: timing.py FILE [TURNS]"""

import pathlib
import resource
import sys
import time

import rnix


def most_memory():
    """Returns the most memory that the process had, in bytes."""
    return resource.getrusage(resource.RUSAGE_SELF).ru_maxrss * 1024


def main():
    """Prints the figures."""
    text = pathlib.Path(sys.argv[1]).read_bytes()
    before, memory, least = most_memory(), 0, [float("inf")] * 3
    for turn in range(int(sys.argv[2]) if len(sys.argv) > 2 else 5):
        moments = [time.perf_counter()]
        tree = rnix.parse(text)
        moments.append(time.perf_counter())
        if turn == 0:
            memory = most_memory() - before
        moments[1:] = [moments[1], time.perf_counter()]
        sum(element.end - element.start for element in tree.root.walk())
        moments.append(time.perf_counter())
        sum(len(rnix.parts(string)) for string in tree.root.find(rnix.ast.Str))
        moments.append(time.perf_counter())
        spans = (moments[1] - moments[0], moments[3] - moments[2], moments[4] - moments[3])
        least = [min(old, new) for old, new in zip(least, spans)]
    parsing, walking, reading = (1000 * span for span in least)
    print(f"parse {parsing:.1f} walk {walking:.1f} strings {reading:.1f} memory {memory / max(len(text), 1):.1f}")


main()
