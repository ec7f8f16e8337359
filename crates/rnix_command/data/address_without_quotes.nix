{
  security.acme.defaults.email = me@example.org;
  other = 1;
}
