{ lib
, stdenv
, fetchurl
, openssl ? null
}:
stdenv.mkDerivation rec{
  pname="hello"; version="2.12.1";
  src=fetchurl{
    url = "mirror://gnu/hello/hello-${version}.tar.gz";
    hash = "sha256-jZkUKv2SV28wsM18tCqNxoCZmLxdYH2Idh9RLibH2yA=";};


  buildInputs=lib.optional (openssl!=null) openssl;
  doCheck = true;
  meta={ description="A program that prints a greeting"; license=lib.licenses.gpl3Plus; };
}
