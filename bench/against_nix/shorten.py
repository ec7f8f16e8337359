"""Shortens texts as long as a program and Nix still differ in the same way."""
import re
import time

WORD = re.compile(r"''|\$\{|[A-Za-z_][\w'-]*|\d+|\s+|.", re.DOTALL)
PAIRS = {"(": ")", "[": "]", "{": "}", "${": "}"}
# How many shorter texts are tried at once, for how many seconds, and how long a text is at most that is shortened by letters.
WIDTH, SECONDS, LETTERS = 24, 20, 100


def closing(words):
    """For each opening bracket, the closing one."""
    open_at, found = [], {}
    for number, word in enumerate(words):
        if word in PAIRS:
            open_at.append(number)
        elif word in PAIRS.values() and open_at and PAIRS[words[open_at[-1]]] == word:
            found[open_at.pop()] = number
    return found


def end_of(words, pairs, start):
    """The last word of what begins at a word and ends with `;`, or for a `let` with its `in`; nothing if there is none inside the same brackets."""
    lets, number = 0, start
    while number < len(words) and words[number] not in PAIRS.values():
        lets += (words[number] == "let") - (words[number] == "in")
        if words[number] == ("in" if words[start] == "let" else ";") and lets <= 0:
            return number
        number = pairs.get(number, number) + 1
    return None


def clauses(words, pairs):
    """The first and the last words of entries, and of what is before the body of a `let`, a `with` or an `assert`."""
    before = "{"
    for start, word in enumerate(words):
        if not word.isspace():
            end = end_of(words, pairs, start) if before in (";", "{", "let", "in", "(", "=", ":") else None
            if end is not None:
                yield start, end
            before = word


def shorter(words, length):
    """Shorter lists of words, each with the place of its change: without runs of this length, without long clauses, without brackets, or without what is
    between distant ones."""
    pairs = closing(words)
    ends = dict(clauses(words, pairs))
    for start in range(len(words)):
        if ends.get(start, 0) - start >= length:
            yield start, words[:start] + words[ends[start] + 1 :]
        if start % max(1, length // 2) == 0:
            yield start, words[:start] + words[start + length :]
        right = pairs.get(start, 0)
        if right - start >= length:
            yield start, words[:start] + ["0"] + words[right + 1 :]
            yield start, words[: start + 1] + words[right:]
            yield start, words[:start] + words[start + 1 : right] + words[right + 1 :]


def shortened(case, found, judge):
    """The shortest case that is found with the same kind of difference, and that difference."""
    late = time.monotonic() + SECONDS
    for split, most in ((WORD.findall, len(case.text)), (list, LETTERS)):
        words = split(case.text)
        length, place = len(words) // 2, 0
        while length and len(words) <= most and time.monotonic() < late:
            candidates = list(shorter(words, length))
            first = next((number for number, (start, _) in enumerate(candidates) if start >= place), 0)
            better = first_better(case, candidates[first:] + candidates[:first], found.words, judge)
            if better:
                place, case, found = better
                words = split(case.text)
            length = min(length, len(words) // 2) if better else length // 2
    return case, found


def first_better(case, candidates, kind, judge):
    """The first of the candidates that differs in the same way: the place of its change, the case and the difference. A few are judged at once."""
    texts = {}
    for start, words in candidates:
        text = "".join(words)
        if len(text) < len(case.text):
            texts.setdefault(text, start)
    waiting = list(texts)
    for number in range(0, len(waiting), WIDTH):
        cases = [case.with_text(text) for text in waiting[number : number + WIDTH]]
        for shorter_case, difference in zip(cases, judge(cases)):
            if difference and difference.words == kind:
                return texts[shorter_case.text], shorter_case, difference
    return None
