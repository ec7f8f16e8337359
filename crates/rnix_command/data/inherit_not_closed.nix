{
  a = 1;
  inherit (b) c
    d
