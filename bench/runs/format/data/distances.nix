[ ./a.nix <nixpkgs/lib> ~/b /c (1 .a or 2) (./a .b) (x.y.z) (- 1) https://example.org (a/b) (a / b) ]
