//! Links librnix.a from the folder RNIX_LIBRARY_FOLDER, or from where bindings/build puts it.

use std::env;
use std::path::PathBuf;

fn main() {
    println!("cargo:rerun-if-env-changed=RNIX_LIBRARY_FOLDER");
    let default = || PathBuf::from(env!("CARGO_MANIFEST_DIR")).join("../out");
    let folder = env::var_os("RNIX_LIBRARY_FOLDER").map_or_else(default, PathBuf::from);
    let library = folder.join("librnix.a");
    assert!(
        library.is_file(),
        "{} is missing: run bindings/build, or set RNIX_LIBRARY_FOLDER",
        library.display()
    );
    println!("cargo:rerun-if-changed={}", library.display());
    println!("cargo:rustc-link-search=native={}", folder.display());
    println!("cargo:rustc-link-lib=static=rnix");
}
