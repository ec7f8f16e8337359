{
  "name": "demo",
  "log": { "level": 3 },
  "files": ["x", "y"],
  "private": true
}
