# Packages, of which one is in another file.
{
  callPackage,
  lib,
}:

{
  example = callPackage ./example.nix {
    inherit (lib) openssl;
  };
  names = builtins.attrNames { };
}
