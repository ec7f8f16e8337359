"""What real Nix says of many texts: their values, or whether it parses them."""
import concurrent.futures
import fractions
import json
import os
import re
import subprocess

PROCESSORS = os.cpu_count() or 1
# How many texts one process of Nix gets, and for how many seconds.
BATCH = 100
SECONDS = 60

# Shows any value as data that JSON can tell apart: sets as lists of pairs, floats exactly, functions and failed assertions as marks. A function that a
# text is gets arguments. What is said of each text goes to standard error at once, so that it is there if a later one fails.
SHOW = r"""
let
  scaled = f: n:
    if f >= 4611686018427387904.0 then scaled (f / 1024) (n + 1) else if f < 4503599627370496.0 then scaled (f * 1024) (n - 1) else [ (builtins.floor f) n ];
  float = f:
    if f != f then "nan" else if f == 0.0 then [ 0 0 ] else if f == f / 2 then "infinite"
    else if f < 0.0 then [ (0 - builtins.elemAt (scaled (0.0 - f) 0) 0) (builtins.elemAt (scaled (0.0 - f) 0) 1) ] else scaled f 0;
  forms = {
    set = v: { s = map (n: [ n (show v.${n}) ]) (builtins.attrNames v); };
    list = v: map show v;
    lambda = _: { f = "function"; };
    path = v: { p = toString v; };
    float = v: { d = float v; };
  };
  show = v: let tried = builtins.tryEval v; in
    if tried.success then (forms.${builtins.typeOf tried.value} or (v: v)) tried.value else { e = "fails"; };
  argument = name: _: "argument ${name}";
  call = n: v: if n > 0 && builtins.isFunction v then call (n - 1) (v (builtins.mapAttrs argument (builtins.functionArgs v))) else v;
  say = text: builtins.trace text null;
  one = name: builtins.seq (say "> ${name}") (
    let tried = builtins.tryEval (call 3 (import (@folder@ + "/${name}")));
    shown = builtins.toJSON (if tried.success then show tried.value else { e = "fails"; }); in builtins.seq shown (say "= ${shown}"));
in builtins.foldl' (_: one) null [ @names@ ]
"""


class Failure:
    """What Nix says of a text that it does not evaluate."""

    def __init__(self, said):
        self.said = said

    def __eq__(self, other):
        return isinstance(other, Failure)

    def __repr__(self):
        return f"refused: {self.said}"

    def kind(self):
        """What it says, without the names in it."""
        return "Nix refuses: " + re.sub(r"'.*?'|at /.*|/\S+", "..", self.said)[:70]


def plain(shown):
    """What Nix shows of a value, as values of Python. Sets are dictionaries, and what JSON has not are pairs."""
    if isinstance(shown, list):
        return [plain(it) for it in shown]
    if not isinstance(shown, dict):
        return shown
    (mark, inner), = shown.items()
    if mark == "s":
        return {name: plain(it) for name, it in inner}
    if mark == "d":
        return ("float", fractions.Fraction(inner[0]) * fractions.Fraction(1024) ** inner[1] if isinstance(inner, list) else inner)
    return (mark, inner)


def same(left, right):
    """Whether two values are equal, where 1, 1.0 and true are not."""
    if type(left) is not type(right):
        return False
    if isinstance(left, dict):
        return left.keys() == right.keys() and all(same(it, right[name]) for name, it in left.items())
    if isinstance(left, (list, tuple)):
        return len(left) == len(right) and all(map(same, left, right))
    return left == right


def first_error(said):
    """The message of Nix without its places."""
    found = re.findall(r"^\s*error: (.*)", said, re.MULTILINE)
    return (found[-1] if found else said.strip().splitlines()[-1] if said.strip() else "it ended without a word").strip()


def run(command, **options):
    """Runs a command to its end; one that takes too long has the status 124."""
    try:
        return subprocess.run(command, capture_output=True, timeout=SECONDS, **options)
    except subprocess.TimeoutExpired as late:
        return subprocess.CompletedProcess(command, 124, late.stdout or b"", (late.stderr or b"") + b"\nerror: it takes too long\n")


def side_by_side(work, parts):
    """The results of work on each part, several at once."""
    with concurrent.futures.ThreadPoolExecutor(PROCESSORS) as pool:
        return list(pool.map(work, parts))


def batches(items):
    size = max(1, min(BATCH, -(-len(items) // PROCESSORS)))
    return [items[start : start + size] for start in range(0, len(items), size)]


def evaluate_batch(folder, names):
    """The value of each file. A text that Nix does not evaluate ends the process: the next one goes on behind it."""
    values = {}
    while names:
        text = SHOW.replace("@folder@", str(folder)).replace("@names@", " ".join(f'"{name}"' for name in names))
        said = run(["nix-instantiate", "--eval", "-"], input=text.encode(), cwd=folder).stderr.decode("utf-8", "replace")
        current = None
        for line in said.split("\n"):
            if line.startswith("trace: > "):
                current = line[len("trace: > ") :]
            elif line.startswith("trace: = ") and current is not None:
                values[current] = plain(json.loads(line[len("trace: = ") :]))
        if current is None:
            raise SystemExit(f"nix-instantiate --eval: {said}")
        if current not in values:
            values[current] = Failure(first_error(said))
        names = names[names.index(current) + 1 :]
    return values


def write_texts(folder, texts):
    """Writes texts to files of a folder, and returns their names."""
    folder.mkdir(parents=True, exist_ok=True)
    names = [f"{number}.nix" for number in range(len(texts))]
    for name, text in zip(names, texts):
        (folder / name).write_bytes(text.encode())
    return names


def evaluate(folder, texts):
    """The value of each text, or the failure."""
    names = write_texts(folder, texts)
    values = {}
    for found in side_by_side(lambda part: evaluate_batch(folder, part), batches(names)):
        values |= found
    return [values[name] for name in names]


def parse_batch(folder, names):
    """What Nix says of each file when it parses it and looks up its names: nothing, or a failure."""
    verdicts = {}
    while names:
        done = run(["nix-instantiate", "--parse", *(str(folder / name) for name in names)])
        if done.returncode == 0:
            return verdicts | dict.fromkeys(names)
        said = done.stderr.decode("utf-8", "replace")
        place = re.search(re.escape(str(folder)) + r"/(\d+\.nix)", said)
        name = place.group(1) if place else names[0]
        if not place and len(names) > 1:
            half = len(names) // 2
            return verdicts | parse_batch(folder, names[:half]) | parse_batch(folder, names[half:])
        verdicts |= dict.fromkeys(names[: names.index(name)])
        verdicts[name] = Failure(first_error(said))
        names = names[names.index(name) + 1 :]
    return verdicts


def parse(folder, texts):
    """What Nix says of each text when it parses it and looks up its names."""
    names = write_texts(folder, texts)
    verdicts = {}
    for found in side_by_side(lambda part: parse_batch(folder, part), batches(names)):
        verdicts |= found
    return [verdicts[name] for name in names]
