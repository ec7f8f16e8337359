{ pkgs }:
map (p: p.out) (with pkgs [ git jq ])
