{ pkgs ? import <nixpkgs> {} }:
pkgs.mkShell {
    buildInputs = with pkgs; [
        git   # for the version
        gnumake
    ];
  shellHook = ''
    export GREETING=hello
  '';
}
