{
  virtualHosts."example.org".root = "/var/www"
}
