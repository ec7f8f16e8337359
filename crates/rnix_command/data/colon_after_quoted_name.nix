{
  "my-name": 3;
  other = 1;
}
