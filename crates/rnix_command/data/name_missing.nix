{ lib, fetchFromGitHub, stdenv, zlib, ... }:

stdenv.mkDerivation rec {
  = "hello";
  version = "1.0";
  src = fetchFromGitHub {
    owner = "x<y";
    repo = "r";
    rev = "v${version}";
    sha256 = "0000";
  };
  buildInputs = [ zlib stdenv.cc ];
  installPhase = ''
    mkdir -p $out/bin
    cp hello $out/bin
  '';
  meta = with lib; {
    license = licenses.mit;
    platforms = platforms.linux;
  };
}
