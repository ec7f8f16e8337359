{ config, lib, pkgs, ... }: {
    systemd.services.greeter = {
        script = ''
      echo "hello"
        if true; then
          ${pkgs.hello}/bin/hello --greeting "$GREETING"
        fi

      exit 0
    '';
      preStart = ''   
                mkdir -p $out
                '';
      one = '' one line '';
      empty = ''
      '';
      joined = ''
    first
    '' + lib.optionalString config.second ''
            second
              third'';
    };
    text = lib.concatStrings [ ''
      a
    '' ''
        b
    ''
    ];
}
