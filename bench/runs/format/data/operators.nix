{
  plain = 1+2*3;
  flags = [ "--with-a" ] ++ lib.optional withB "--with-b" ++ lib.optionals withC [ "--with-c" "--with-c-more" ];
  enabled = config.services.greeter.enable && config.networking.firewall.enable && !config.boot.isContainer;
  mixed = cfg.first.enable && cfg.first.openFirewall || cfg.second.enable && cfg.second.openFirewall || cfg.all;
  merged = defaults // { a = 1;
    b = 2; };
  negated = ! cfg.enable || - 1 < 0;
  has = cfg?settings.port;
  implied = a -> b;
}
