{
  imports = [ ./hardware.nix boot.enable = true; ];
  other = 1;
}
