{
      spaces = ''
          a''\n   b
        '';
      escaped_space = ''
          a''\n''\ b
        '';
      line = ''
          a''\
            b
        '';
      last = ''
          a''\
              '';
      twice = ''
          a''\n''\n b
        '';
      moved = ''
          a''\nb''\n''\tc''\n
          ''\ d''\n
            '''\n e'''$ ''$ f ''\\n g
          ''\n''${h}''\n${"i"}''\n
        '';
      inside = ''
          a
          ${''
        b
    
        
        c
          ''}
        '';
}
