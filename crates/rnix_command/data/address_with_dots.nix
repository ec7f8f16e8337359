{
  security.acme.defaults.email = first.last@example.org;
  other = 1;
}
