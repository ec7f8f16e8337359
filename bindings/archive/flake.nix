{
  description = "rnix checks, formats and changes files of the Nix language";

  inputs.nixpkgs.url = "nixpkgs";

  outputs =
    { self, nixpkgs }:
    let
      system = "x86_64-linux";
      pkgs = nixpkgs.legacyPackages.${system};
      lib = nixpkgs.lib;
    in
    {
      packages.${system}.default = pkgs.stdenv.mkDerivation {
        pname = "rnix";
        version = lib.fileContents ./VERSION;
        src = self;
        nativeBuildInputs = [ pkgs.autoPatchelfHook ];
        dontConfigure = true;
        dontBuild = true;
        dontStrip = true;
        installPhase = ''
          runHook preInstall
          sh ./install.sh "$out"
          rm -r "$out/share/rnix"
          runHook postInstall
        '';
        meta = {
          description = "Checks, formats and changes files of the Nix language";
          license = lib.licenses.mit;
          mainProgram = "rnix";
          platforms = [ system ];
          sourceProvenance = [ lib.sourceTypes.binaryNativeCode ];
        };
      };

      apps.${system}.default = {
        type = "app";
        program = "${self.packages.${system}.default}/bin/rnix";
      };
    };
}
