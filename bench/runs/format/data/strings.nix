{
  a = "one ${ x } two";
  b = ''
    a script
      of two lines
  '';
  c = writeText "name" ''
    its text
  '';
  d = "a string of
  two lines";
  e = builtins.replaceStrings ["a"] ["b"] "a long string which does not fit on the line together with the rest";
}
