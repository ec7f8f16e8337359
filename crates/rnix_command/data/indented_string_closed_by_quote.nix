{ pkgs }:
{
  installPhase = ''
    mkdir -p $out/bin
    echo "a b" > $out/bin/a
  ";
  fixupPhase = ''
    echo fix
  '';
  name = "demo";
}
