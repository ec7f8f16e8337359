{
  imports = [ ./hardware.nix
  other = 1;
}
