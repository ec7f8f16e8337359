{
  empty = {};
  short = {a=1;};
  open = {
    a = 1; };
  recursive = rec { a = 1; b = a; };
  a.b."c d".${e} = 1;
  old = let { body = 1; };
}
