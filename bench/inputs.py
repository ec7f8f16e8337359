#!/usr/bin/env python3
"""Texts that are timed, each made by a rule: `inputs.py FOLDER [SIZE..]` writes them in sizes of so many bytes (1,000,000 if none is given)."""
import pathlib
import sys

PACKAGE = """hello-12 = callPackage ../pkgs/hello/12.nix { inherit (self) lib stdenv; withTests = false; };
  /* the tool that
     greets */
  greet = stdenv.mkDerivation rec {
    pname = "greet";
    version = "1.2.${toString minor}";
    src = fetchurl { url = "https://example.org/${pname}-${version}.tar.gz"; hash = null; };
    buildInputs = [ hello-12 ] ++ lib.optionals (stdenv.isLinux && minor >= 3) [ udev ];
    # the flags
    installPhase = ''
      make install PREFIX=$out ''${FLAGS}
      ${lib.concatStringsSep "\\n" (map (x: "touch $out/${x}") names)}
    '';
    meta.license = if minor == 0 then null else lib.licenses.mit or throw "no license";
  };"""

MODULE = """services.greeter = {
    enable = lib.mkEnableOption "the greeter";
    port = lib.mkOption {
      type = lib.types.port;
      default = 8080;
      description = "The port that it listens on.";
    };
    users = lib.mkOption { type = lib.types.listOf lib.types.str; default = [ "root" config.user.name ]; };
  };
  config.systemd.services.greeter = lib.mkIf (cfg.enable && !cfg.users != [ ]) {
    wantedBy = [ "multi-user.target" ];
    after = [ "network.target" ];
    serviceConfig.ExecStart = "${pkgs.greet}/bin/greet --port ${toString cfg.port}";
  };"""

LOCK = """"nixpkgs-7" = {
    inputs = { };
    locked = {
      lastModified = 1716948383;
      narHash = "sha256-SzDKxseEcHR5KzPXLwsemyTR/kaM9whxeiJohbL04rs=";
      owner = "NixOS"; repo = "nixpkgs"; rev = "ad57eef4ef0659193044870c731987a6df5cf56b"; type = "github";
    };
    original = { owner = "NixOS"; ref = "nixos-unstable"; repo = "nixpkgs"; type = "github"; };
  };"""

# what a text begins with, what it has again and again, and what it ends with
SHAPES = {
    # ordinary source
    "packages": ("{ callPackage, stdenv, lib, fetchurl, minor, names, self, udev }: {\n  ", PACKAGE + "\n  ", "}"),
    "modules": ("{ config, lib, pkgs, cfg, ... }: {\n  ", MODULE + "\n  ", "}"),
    "lock": ("{\n  ", LOCK + "\n  ", "}"),
    # short tokens
    "sums": ("", "(1 + a) * b + ", "1"),
    "calls": ("", "f x y ", ""),
    "lists": ("[", "[a 1] ", "]"),
    "lambdas": ("", "x: y: ", "x"),
    "sets": ("{", "a = { b = 1; }; ", "}"),
    "brackets": ("[", "(((a))) ", "]"),
    "strings": ("", '"${', ""),
    "interpolations": ("[", '"ab ${x} cd ${y.z}" ', "]"),
    "lines": ("[", "''\n  a ${x} of\n  it ''${b}\n'' ", "]"),
    "paths": ("[", "./a/${b}/c.nix ", "]"),
    "one-byte": ("[", "a 1 ", "]"),
    # runs of path characters that are no paths, or nearly search paths
    "plus": ("", "1+", "1"),
    "dots": ("", "a.", "b"),
    "angles": ("", "<a", " "),
    # one token
    "path": ("", "a/", "a"),
    "comments": ("", "/* a # b */# c\n", ""),
    "blanks": ("", " \n\t  ", ""),
    # broken texts
    "no-values": ("", "{ a = ; } ", ""),
    "semicolons": ("", ";", ""),
}

# Broken texts for `rnix check`, each with many errors.
BROKEN = {
    # a comma in a list, and `=` for `==`, in each package
    "errors": ("{\n  ", PACKAGE.replace("hello-12 ]", "hello-12, 1 ]").replace("minor == 0", "minor = 0") + "\n  ", "}"),
    "commas": ("", ",", ""),
    "open": ("", "[", ""),
    "no-equals": ("", "{ a b } ", ""),
    "repeated": ("[\n", "  ({ a, b ? 1, a }: a + b + 1)\n", "]"),
    "one-pattern": ("{ ", "a, ", "b }: 1"),
    "assigns": ("{\n", "  a = f\n    b c\n    d = 1;\n", "}"),
}

# Their trees are about as deep as they have tokens, so that each line of a printed tree is indented by as much.
DEEP = {"sums", "calls", "lambdas", "strings", "plus", "angles", "no-values", "semicolons"}


def text_of(shape, size):
    """A text of the shape, of at most so many bytes."""
    head, turn, tail = SHAPES.get(shape) or BROKEN[shape]
    return head + turn * ((size - len(head) - len(tail)) // len(turn)) + tail


def main():
    folder = pathlib.Path(sys.argv[1])
    for size in map(int, sys.argv[2:] or ["1000000"]):
        for shape in SHAPES:
            (folder / f"{shape}-{size}").write_text(text_of(shape, size))


if __name__ == "__main__":
    main()
