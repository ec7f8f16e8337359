{
  short = f a b;
  set = f a { b = 1;
    c = 2; };
  middle = lib.mapAttrs' (name: value: {
    name = "x-${name}"; inherit value; }) attributes;
  nested = lib.concatStringsSep "\n" (lib.mapAttrsToList (name: value: "${name}=${value}") config.environment.variables);
  arguments = builtins.foldl' (accumulator: element: accumulator + element) someInitialValue (map toInt strings);
  import = import ./file.nix { inherit lib; };
  selected = (f { a = 1; }).b.c or null;
}
