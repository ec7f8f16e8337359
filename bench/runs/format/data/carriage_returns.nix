# line ends
{
    a = 1; # a comment


    b = f
  2;
    /* kept
    */ c = "a
  b";
    d = ''
     a
    '';
}
