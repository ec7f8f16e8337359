{ pkgs, lib }:
let
  tools = with pkgs.python3Packages [ numpy scipy ] ++ lib.optional true pkgs.git;
in
tools
