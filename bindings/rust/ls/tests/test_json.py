"""How rnix-ls reads and writes JSON, compared with Python's module: the id of a request comes back in the response."""

import json
import random
import re
import unittest

from client import Client, frame

PIECES = ["{", "}", "[", "]", ",", ":", '"', "\\", "0", "-", "1", ".", "e", "+", "E9", "true", "null", "fals", " ", "\n", "\t", "/"]
PIECES += ["\\u00e4", "\\n", "ä", "😀", "\x01"]
WORDS = ["", "a", "ä", "😀", "\\", '"', "\n", "\x7f", "\x01", "\u2028", "a/b", "ab" * 20]

# The codes of the errors of a request of an unknown method, and of what is no JSON.
UNKNOWN, UNREADABLE = -32601, -32700


def value(numbers, depth=0):
    """Returns a random value."""
    kind = numbers.randrange(9 if depth < 4 else 6)
    if kind < 2:
        return numbers.choice([None, True, False])
    if kind == 2:
        return numbers.choice([0, -1, 7, 10**15, 2**53, -(2**31), 123456789])
    if kind == 3:
        return numbers.choice([0.5, -1.25, 1e300, 1e-7, 3.141592653589793, -0.0])
    if kind < 6:
        return "".join(numbers.choice(WORDS) for _ in range(numbers.randrange(4)))
    items = [value(numbers, depth + 1) for _ in range(numbers.randrange(4))]
    return items if kind < 8 else {f"{number}{numbers.choice(WORDS)}": item for number, item in enumerate(items)}


def damaged(numbers, text):
    """Returns a text after a few random changes."""
    for _ in range(numbers.randrange(3)):
        start = numbers.randrange(len(text) + 1)
        text = text[:start] + numbers.choice(["", *PIECES]) + text[start + numbers.randrange(3) :]
    return text


def read(text):
    """Returns whether a text is JSON, and its value. Python also takes some words as numbers, which JSON has not."""

    def refuse(word):
        raise ValueError(word)

    try:
        return True, json.loads(text, parse_constant=refuse)
    except ValueError:
        return False, None


def plain(thing):
    """Returns a value as the server keeps it: numbers have 64 bits, and half a pair of surrogates is no character."""
    if isinstance(thing, str):
        return re.sub("[\ud800-\udfff]", "\ufffd", thing)
    if isinstance(thing, (int, float)) and not isinstance(thing, bool):
        return float(thing)
    if isinstance(thing, list):
        return [plain(it) for it in thing]
    if isinstance(thing, dict):
        return {plain(name): plain(it) for name, it in thing.items()}
    return thing


class Json(unittest.TestCase):
    """One server for all values."""

    def test_values_are_read_and_written_as_by_python(self):
        numbers, accepted, count = random.Random(3), 0, 4000
        with Client() as client:
            for _ in range(count):
                text = damaged(numbers, json.dumps(value(numbers), ensure_ascii=numbers.random() < 0.5, indent=numbers.choice([None, 1])))
                is_json, wanted = read('{"id":%s,"method":"x"}' % text)
                if is_json and "inf" in repr(wanted):
                    # A number that is too large for 64 bits.
                    continue
                client.write(frame(('{"id":%s,"method":"x"}' % text).encode()))
                if not is_json:
                    self.assertEqual(client.response()["error"]["code"], UNREADABLE, text)
                    continue
                answer = client.response()
                if wanted.get("method") == "x" and "id" in wanted:
                    self.assertEqual((answer["error"]["code"], plain(answer["id"])), (UNKNOWN, plain(wanted["id"])), text)
                accepted += 1
        print(f"{count} values, {accepted} of them JSON")
        self.assertGreater(min(accepted, count - accepted), 500)


if __name__ == "__main__":
    unittest.main()
