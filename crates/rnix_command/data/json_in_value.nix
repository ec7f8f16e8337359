{
  services.demo.settings = { "log": { "level": 3 }, "a": [1, 2] };
  services.demo.enable = true;
}
