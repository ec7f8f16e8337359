{ config, lib, pkgs, ... }:
with lib;
let cfg = config.services.greeter; in {
  options.services.greeter = {
    enable = mkEnableOption "the greeter";
    port = mkOption { type = types.port; default = 8080; description = "The port on which it listens."; };
  };

  config = mkIf cfg.enable {
    systemd.services.greeter = { wantedBy = [ "multi-user.target" ];
      serviceConfig.ExecStart = "${pkgs.greeter}/bin/greeter --port ${toString cfg.port}"; };
    networking.firewall.allowedTCPPorts = mkIf cfg.openFirewall [ cfg.port ];
  };
}
