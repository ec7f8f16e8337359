# Each attribute is a worked case.
{
  nothing = null;
  truth = [ true false ];
  integers = [ 0 7 007 9223372036854775807 (-9223372036854775807) ];
  negative = -12;
  spaced_sign = - 3;
  floats = [ 1.5 .5 3. 1.25e3 (-2.0E-3) ];
  plain = "a string";
  escapes = "tab\t line\n return\r quote\" backslash\\ dollar\${x} $$ $x \a";
  unicode = "é 中 😀";
  control = "";
  indented = ''
    first
      second

    ''${kept} and '''quotes''' and ''\n.
  '';
  one_line = ''  no indentation'';
  empty_strings = [ "" '''' ];
  uri = https://nixos.org/nix;
  paths = [ ./a/b.nix ../c /etc/nix ~/d ];
  parentheses = ((((1))));
  list = [ [ ] [ [ 1 ] 2 ] { } { a = [ ]; } ];
  "quoted name" = 1;
  "escaped \"name\"\n" = 2;
  "" = 3;
  ${"computed"} = 4;
  odd-name' = 5;
  "if".then_ = 6;
  nested.one.two = 1;
  nested.one.three = 2;
  between = "the parts of nested";
  nested.four = 3;
  literal = { x = 1; };
  literal.y = 2;
  merged = { a = 1; };
  merged = { b.c = 2; };
  merged.b.d = 3;
  wrapped = ({ a = 1; });
  wrapped.b = 2;

  # What is not data is kept as its source, with --lossy.
  function = x: x;
  call = f { a = 1; };
  inside = [ 1 (f x) { a = b; } ];
  operator = 1 + 2;
  selection = a.b or c;
  interpolated = "a ${b} c";
  interpolated_path = ./a/${b};
  recursive = rec { a = 1; };
  conditional = if a then b else c;
  local = let a = 1; in a;
  scoped = with a; b;
  search = <nixpkgs>;
  sign_of_name = -x;
  too_large = 9223372036854775808;
  too_large_float = 1.0e999;
  too_small_float = 1.0e-999;
  inherit (lib) one two;
  inherit three;
  ${computed_name} = 1;
  "a ${b}".c = 2;
}
