{
  one = [ 1 2 3 ];
  empty = [ ];
  several = [ 1 2
    3 ];
  calls = [ (f x) (g y) ];
  sets = [ { a = 1; } { b = 2; } ];
  long = [ "x86_64-linux" "aarch64-linux" "x86_64-darwin" "aarch64-darwin" "riscv64-linux" "powerpc64le-linux" ];
  packages = with pkgs; [
    git ripgrep ];
}
