# file comment
{ lib }:
let x = 1; in
rec {
  # not this one

  /* Maps a function. */
  map = f: { a, b ? 2 }: xs: builtins.map f xs
  inherit (lib) id;
  a.b = 1; # behind
  c = [ 1 (x + 2) "three" ];
}
