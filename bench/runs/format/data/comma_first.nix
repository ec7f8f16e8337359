{ stdenv # the compiler
, fetchurl
# only for tests
, python3
, ... }:
stdenv
