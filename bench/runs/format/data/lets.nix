let a = 1; b = let c = 2; in c;

  inherit (lib) mkIf;
in a + b
