{ config, lib, pkgs, ... }@args:
let
  cfg = config.services.demo;
  inherit (lib) mkIf mkOption types;
in
{
  options.services.demo = {
    enable = mkOption { type = types.bool; default = false; };
    port = mkOption { type = types.int; default = 80; };
  };

  config = mkIf $(cfg.enable) {
    assertions = [ { assertion = cfg.port > 0; message = "no port"; } ];
    systemd.services.demo = {
      wantedBy = [ "multi-user.target" ];
      script = "${pkgs.demo}/bin/demo --port ${toString cfg.port}";
    };
  };
}
