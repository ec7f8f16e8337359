{ lib, pkgs, lib }:
{
  a = 1
  b.c = 2;
  d = [ 1 ) ];
	e = "ü" + ;
  f = { inherit (lib) map 1; };
  g = (lib.id "x";
}
