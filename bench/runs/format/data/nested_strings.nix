{
  less = ''
                 x ${''
        y

          ''}z
  '';
  code = ''
        a ${
    b} c
  '';
  wide = f ''
                 x ${''
        y
          ''}zzzzzzzzzzzzzzzzzzzzzzzzzzzzzzzzzzzzzzzzzzzzzzzzzzzzzzzzzzzzzzzzzzzzzzzzzzzzzzzzzzzz'' b;
}
