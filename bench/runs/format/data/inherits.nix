{
  inherit a b;
  inherit (pkgs) git  ripgrep;
  inherit
    one two;
  inherit (config.services.greeter) enable package port openFirewall settings extraConfig user group dataDir;
  inherit;
}
