{
      tab = ''
	a
    b
  '';
      first = ''a
         b
      '';
      second = ''${a}
         b
      '';
      inner = ''
         ${f ''x
             y'' }
         z
        '';
      quoted = "${''
         a
      ''}";
      blank = ''
            a
                  
            
          b
      '';
}
