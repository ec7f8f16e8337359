{
  short = if a then b else c;
  chain = if stdenv.isLinux then "linux" else if stdenv.isDarwin then "darwin" else throw "unsupported";
  long = if lib.versionAtLeast version "2.0" && stdenv.hostPlatform.isLinux then "the new and long value" else "the old value";
  inside = f (if a then b else c);
  sets = if a then { x = 1;
    y = 2; } else { };
}
