{
      script = ''
            start
            ${lib.concatMapStrings (name: ''
              run ${name} --with ''${name} \
                --and "${lib.optionalString quiet ''
                  -q
                ''}"
            '') names}
            ${if a then ''
          b
            '' else
              "c"}
              ${deep}
            ${
              # what follows
              f {
                x = 1; }}
          end'';
}
