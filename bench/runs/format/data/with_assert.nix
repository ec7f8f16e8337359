with import <nixpkgs> {};
assert lib.versionAtLeast lib.version "23.05"; assert enable -> package != null;
{
  short = with lib; optional a b;
  inside = assert a; b;
}
