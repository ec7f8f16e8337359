"""Makes a workspace with nested imports, and prints how fast rnix-ls knows it: RNIX_LS=PROGRAM python3 workspace.py [COUNT..]

Of each number of files (5,000) there is one workspace. A third of them are packages, which one file calls with arguments, a third are modules that import
each other in nested folders, and a third are functions of a library. The figures are the time from the start of the server until it has nothing more
to do, the processor time, the memory then, how long a key press waits meanwhile for the answer to a request, and how long requests take afterwards.
"""

import pathlib
import statistics
import sys
import tempfile
import time

from client import Client, position_of

PACKAGE = """\
# The package number {0}.
{{ lib, stdenv, fetchurl, dep{1} ? null, dep{2} ? null, flag{0} ? false }}:

let
  version{0} = "1.{0}.0"; # ä
  source = import ../../lib/f{1}.nix {{ inherit lib; value = {0}; }};
in
stdenv.mkDerivation rec {{
  pname = "name-{0}";
  version = version{0};
  src = fetchurl {{
    url = "https://example.org/${{pname}}-${{version}}.tar.gz";
    sha256 = "0000000000000000000000000000000000000000000000000000";
  }};
  buildInputs = [ dep{1} dep{2} ] ++ lib.optional flag{0} source;
  configureFlags = map (name: "--with-${{name}}=${{lib.getDev dep{1}}}") [ "one" "two" "three" ];
  postInstall = ''
    install -Dm644 share/${{pname}} $out/share/${{pname}}
  '';
  meta = with lib; {{
    description = "A package";
    license = licenses.mit;
  }};
}}
"""

MODULE = """\
{{ config, lib, pkgs, ... }}:

with lib;

let
  cfg = config.services.service{0};
  other{0} = import {2} {{ inherit lib; }};
in
{{
  imports = [ {1} ];
  options.services.service{0} = {{
    enable = mkEnableOption "the service number {0}";
    port = mkOption {{
      type = types.port;
      default = {0};
    }};
  }};
  config = mkIf cfg.enable {{
    systemd.services.service{0}.script = "run ${{toString cfg.port}}";
  }};
}}
"""

FUNCTION = """\
{{ lib, value ? {0} }}:

rec {{
  f{0} = x: x + value;
  g{0} = f{0} (import ./f{1}.nix {{ inherit lib; }}).f{1};
  names = [ "a{0}" "b{0}" ];
}}
"""


def make(folder, count):
    """Makes a workspace of so many files in a folder."""
    folder, third = pathlib.Path(folder), count // 3
    (folder / "lib").mkdir(parents=True)
    calls = []
    for number in range(third):
        (folder / f"lib/f{number}.nix").write_text(FUNCTION.format(number, (number + 1) % third))
        group = folder / f"pkgs/g{number % 100}"
        group.mkdir(parents=True, exist_ok=True)
        (group / f"p{number}.nix").write_text(PACKAGE.format(number, (number * 7 + 1) % third, (number * 5 + 2) % third))
        calls.append(f"  name{number} = callPackage ./g{number % 100}/p{number}.nix {{ flag{number} = true; }};\n")
    (folder / "pkgs").mkdir(exist_ok=True)
    (folder / "pkgs/all.nix").write_text("{ callPackage, ... }:\n\nrec {\n" + "".join(calls) + "}\n")
    place = folder / "modules"
    for number in range(count - 2 * third - 1):
        # Ten modules in each folder, and up to twenty folders in each other.
        if number % 10 == 0:
            place = (folder / f"modules/m{number}") if number % 200 == 0 else place / f"m{number}"
            place.mkdir(parents=True)
        inner = f"./m{number + 1}.nix" if number % 10 < 9 else f"./m{number + 1}/m{number + 1}.nix" if (number + 1) % 200 else ""
        ups = "../" * (len(place.relative_to(folder).parts))
        (place / f"m{number}.nix").write_text(MODULE.format(number, inner, f"{ups}lib/f{number % third}.nix"))


def wait_for_rest(client, moment=0.3):
    """Waits until a server works no more, and returns when it last did."""
    last, used = time.perf_counter(), client.processor_time()
    while time.perf_counter() - last < moment:
        time.sleep(0.01)
        if client.processor_time() - used > 0.0005:
            last, used = time.perf_counter(), client.processor_time()
    return last


def milliseconds(call, turns=15):
    """Returns the median and the greatest time of a call."""
    times = []
    for turn in range(turns):
        start = time.perf_counter()
        call(turn)
        times.append(1000 * (time.perf_counter() - start))
        time.sleep(0.005)
    return f"{statistics.median(times):.1f} ({max(times):.1f})"


def press(client, uri, turn):
    """Changes a letter, and waits for the answer to a request."""
    client.change(((0, 2), (0, 3), "abc"[turn % 3]), uri=uri)
    client.at("hover", (0, 0), uri=uri)


def measure(count):
    """Prints the figures of a workspace."""
    with tempfile.TemporaryDirectory() as room:
        make(f"{room}/work", count)
        root = pathlib.Path(room).resolve() / "work"
        start = time.perf_counter()
        with Client(folders=[root.as_uri()]) as client:
            package = root / "pkgs/g1/p1.nix"
            client.open(package.read_text(), package.as_uri())
            presses = milliseconds(lambda turn: press(client, package.as_uri(), turn), 60)
            took = wait_for_rest(client, 2) - start
            figures = [f"{took:.2f} s", f"{client.processor_time():.2f} s", f"{client.memory() / 1e6:.0f} MB", presses]
            for number in range(0, count // 3, 97):
                for name in (f"f{number}", f"name{number}", f"version{number}", f"other{number}"):
                    assert client.ask("workspace/symbol", {"query": name})[0]["name"] == name, name
            figures.append(milliseconds(lambda _: client.ask("workspace/symbol", {"query": "name17"})))
            figures.append(milliseconds(lambda _: client.ask("workspace/symbol", {"query": ""})))
            text = package.read_text()
            (found,) = client.at("definition", position_of(text, text.index("flag1 ?")), package.as_uri())
            assert found["uri"].endswith("pkgs/all.nix"), found
            figures.append(milliseconds(lambda _: client.at("definition", position_of(text, text.index("flag1 ?")), package.as_uri())))
            print(f"| {count} | {' | '.join(figures)} |", flush=True)


if __name__ == "__main__":
    print("| files | until all are known | processor | memory | a key press meanwhile | symbols `name17` | all symbols | who passes an argument |")
    for count_ in [int(it) for it in sys.argv[1:]] or [5000]:
        measure(count_)
