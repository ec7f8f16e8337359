# A package with its tools.
{
  lib,
  stdenv,
  fetchurl,
  openssl,
  ...
}@args:

let
  # The version, and the name of the archive.
  version = "2.12.1";
  archive = "hello-${version}.tar.gz";
  unused = args.extra or [ ];
  withTools = tools: map (tool: tool.out) (lib.filter (tool: tool != null) tools);
in
stdenv.mkDerivation rec {
  pname = "hello";
  inherit version;

  src = fetchurl {
    url = "mirror://gnu/hello/${archive}";
    hash = "sha256-jZkUKv2SV28wsM18tCqNxoCZmLxdYH2Idh9RLibH2yA=";
  };

  buildInputs = withTools [ openssl ];

  meta = with lib; {
    description = "A program that greets — ${pname}";
    license = licenses.gpl3Plus;
    maintainers = [ ];
  };
}
