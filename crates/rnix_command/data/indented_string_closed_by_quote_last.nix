{ pkgs }:
{
  fixupPhase = ''
    echo fix
  '';
  installPhase = ''
    mkdir -p $out/bin
  ";
  name = "demo";
}
