"""Writes a list of random and damaged texts, the same for the same arguments. Usage: random_texts.py COUNT [SEED] > LIST

A third of the texts are made of random pieces, a third are stored texts with random damage, and a third are nested at random by rules.
"""

import random
import sys

from cases import stored

PIECES = """let in rec with inherit assert if then else or __curPos a b' c-d _ x.y x.${y} e ? f 1 2.5 .5 1e9 ./p ~/q /r/s ./${t}/u <v> <w/x>
https://y.z "s" "s${t}u" ''i'' ''\n  j\n k${l}\n'' ${ } { [ ] ( ) = == != < <= > >= ; , . ... .. : :: @ ? ! && || -> + ++ - * / // |> <| $ \\ ' " '' ''' ''$
''\\n ''\\ \\n \\" $${ # comment\n /* comment */ /* #
 \n \t \r\n ä € 😀 \0 ~ ^ % & | {a=b;} {a,b?c,...}: a: a@{}: {}@a: (a) [a] a.b.c a?b.c -a !a a+b a++b a//b a->b {inherit a;inherit(b)c;} let{body=a;}
""".split(" ")
PIECES += ["\n", " ", "  ", "\t"]

# The rules that a nested text follows: `E` stands for an expression, `N` for a name.
RULES = """N|1|2.5|"N"|"a${E}\\nb"|''\n  a\n   ${E} ''$ N\n  ''|./N|./${E}/b|<N>|(E)|[ E E ]|[ E ]|{ N = E; }|{ N.N = E; inherit N; }|rec { N = E; "N" = E; ${E} = E; }
N: E|{ N, N ? E, ... }: E|{ N }@N: E|N@{ }: E|let N = E; inherit (E) N; in E|let { body = E; }|if E then E else E|assert E; E|with E; E|E E|E.N|E.N or E
E ? N|E + E|E - E|E * E|E / E|E // E|E ++ E|E == E|E < E|E && E|E || E|E -> E|E |> E|E <| E|-E|!E|# c\nE|/* c */ E|https://a.b/c""".replace("|\n", "|").replace("| |> ", "| ").split("|")


def of_pieces(chance):
    """Returns a text of random pieces."""
    glue = chance.choice(["", " "])
    return glue.join(chance.choice(PIECES) for _ in range(chance.randrange(30)))


def of_rules(chance):
    """Returns an expression, and at times damages it."""
    text = "E"
    for _ in range(chance.randrange(1, 20)):
        places = [at for at, letter in enumerate(text) if letter == "E"]
        if not places:
            break
        at = chance.choice(places)
        text = text[:at] + chance.choice(RULES) + text[at + 1 :]
    text = "".join(chance.choice("abcdef") if letter in "EN" else letter for letter in text)
    return damaged(text, chance) if chance.random() < 0.3 else text


def damaged(text, chance):
    """Returns a text of which some characters are missing, doubled, moved or replaced."""
    for _ in range(chance.randrange(1, 5)):
        at, end = sorted(chance.randrange(len(text) + 1) for _ in range(2))
        end = min(end, at + chance.randrange(1, 12))
        change = chance.randrange(5)
        if change == 0:
            text = text[:at] + text[end:]
        elif change == 1:
            text = text[:end] + text[at:end] + text[end:]
        elif change == 2:
            text = text[:at] + chance.choice(PIECES) + text[at:]
        elif change == 3:
            text = text[:at] + chance.choice(PIECES) + text[end:]
        else:
            text = text[:at] if chance.random() < 0.5 else text[at:]
    return text


def texts(count, seed):
    """Yields the texts."""
    chance = random.Random(seed)
    whole = [text.decode() for text, _ in stored("trees") if len(text) < 400]
    for number in range(count):
        if number % 3 == 0:
            yield of_pieces(chance)
        elif number % 3 == 1:
            yield damaged(chance.choice(whole), chance)
        else:
            yield of_rules(chance)


def main():
    """Writes the list."""
    count, seed = int(sys.argv[1]), int(sys.argv[2]) if len(sys.argv) > 2 else 1
    for text in texts(count, seed):
        data = text.encode()
        sys.stdout.buffer.write(b"%d\n%s\n" % (len(data), data))


if __name__ == "__main__":
    main()
