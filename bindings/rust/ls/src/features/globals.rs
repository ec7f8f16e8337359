//! The names that Nix itself binds.

/// The names in scope in every Nix text, without those that begin with `__`.
pub const GLOBALS: &[&str] = &[
    "abort",
    "baseNameOf",
    "break",
    "builtins",
    "derivation",
    "derivationStrict",
    "dirOf",
    "false",
    "fetchGit",
    "fetchMercurial",
    "fetchTarball",
    "fetchTree",
    "fromTOML",
    "import",
    "isNull",
    "map",
    "null",
    "placeholder",
    "removeAttrs",
    "scopedImport",
    "throw",
    "toString",
    "true",
];

/// Returns whether Nix itself binds a name.
pub fn is_global(name: &str) -> bool {
    GLOBALS.binary_search(&name).is_ok()
}
