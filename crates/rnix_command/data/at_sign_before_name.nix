{
  f = args@ name: name;
}
