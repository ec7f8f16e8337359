{ lib, a, ... }:
let
  limit = 3;
  inherit (lib) mkIf;
  check = x: if x > limit "many" else "few";
in {
  x = if a == true then !(a == 1) else false != a;
  lib = lib;
  n.m = a.m or 2;
  k = let y = 2; in 1 + y;
}
