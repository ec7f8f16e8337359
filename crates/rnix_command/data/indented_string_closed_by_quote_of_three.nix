{ pkgs }:
{
  a = ''
    echo "${pkgs.hello}" "
  ";
    "
  '';
  b = ''
    one
  ";
  c = ''
    two
  '';
  d = ''
    three ${pkgs.hello}
  '';
}
