//! URIs of documents. One document has many: clients may write a character as itself or as `%` and its number, in upper or lower case.

use std::ffi::OsString;
use std::fmt::Write;
use std::os::unix::ffi::{OsStrExt, OsStringExt};
use std::path::{Path, PathBuf};

// A byte that each client may write as itself: RFC 3986 calls these unreserved.
fn is_unreserved(byte: u8) -> bool {
    byte.is_ascii_alphanumeric() || b"-._~".contains(&byte)
}

// A byte that stands in a URI as itself: an encoded one means something else.
fn is_reserved(byte: u8) -> bool {
    b":/?#[]@!$&'()*+,;=".contains(&byte)
}

fn digit(byte: u8) -> Option<u8> {
    char::from(byte).to_digit(16).and_then(|digit| u8::try_from(digit).ok())
}

// The byte that is encoded at an offset.
fn encoded(bytes: &[u8], at: usize) -> Option<u8> {
    match bytes.get(at..at + 3)? {
        [b'%', high, low] => Some(digit(*high)? * 16 + digit(*low)?),
        _ => None,
    }
}

// Writes a byte of a file's name. Some clients encode the colon of a drive, and the brackets and other signs that need no encoding there.
fn write(byte: u8, out: &mut String) {
    if is_unreserved(byte) || (is_reserved(byte) && byte != b'/' && byte != b'?' && byte != b'#') {
        out.push(char::from(byte));
    } else {
        let _ = write!(out, "%{byte:02X}");
    }
}

/// Returns the URI that all spellings of a URI of a file share: nothing that needs no encoding is encoded, and all else is, in upper case; the host
/// `localhost` is left out. Other URIs stay as they are.
pub fn canonical(uri: &str) -> String {
    let Some((scheme, rest)) = uri
        .split_once(':')
        .filter(|(scheme, _)| scheme.eq_ignore_ascii_case("file"))
    else {
        return uri.to_owned();
    };
    let rest = rest
        .strip_prefix("//localhost/")
        .map_or_else(|| rest.to_owned(), |path| format!("///{path}"));
    let bytes = rest.as_bytes();
    let mut made = scheme.to_ascii_lowercase() + ":";
    let mut at = 0;
    while at < bytes.len() {
        if let Some(byte) = encoded(bytes, at) {
            write(byte, &mut made);
            at += 3;
        } else {
            let byte = bytes[at];
            if is_reserved(byte) {
                made.push(char::from(byte));
            } else {
                write(byte, &mut made);
            }
            at += 1;
        }
    }
    made
}

/// Returns the path of the file that a URI names, if it is one of this machine.
pub fn file_of(uri: &str) -> Option<PathBuf> {
    let uri = canonical(uri);
    let bytes = uri
        .strip_prefix("file://")
        .filter(|path| path.starts_with('/'))?
        .as_bytes();
    let (mut path, mut at) = (Vec::new(), 0);
    while let Some(byte) = bytes.get(at) {
        let found = encoded(bytes, at);
        path.push(found.unwrap_or(*byte));
        at += if found.is_some() { 3 } else { 1 };
    }
    Some(PathBuf::from(OsString::from_vec(path)))
}

/// Returns the URI of a file, if its path is absolute.
pub fn uri_of_file(path: &Path) -> Option<String> {
    let bytes = path.is_absolute().then(|| path.as_os_str().as_bytes())?;
    let mut made = "file://".to_owned();
    for byte in bytes {
        if *byte == b'/' {
            made.push('/');
        } else {
            write(*byte, &mut made);
        }
    }
    Some(made)
}

/// Returns whether two URIs are of one document.
pub fn same(one: &str, other: &str) -> bool {
    one == other || canonical(one) == canonical(other)
}

#[cfg(test)]
mod tests {
    use super::*;

    #[test]
    fn spellings_of_a_file_are_one() {
        let spellings = [
            "file:///home/a%20b/%C3%A4.nix",
            "file:///h%6fme/a%20b/%c3%a4.nix",
            "FILE://localhost/home/a b/ä.nix",
        ];
        for spelling in spellings {
            assert_eq!(canonical(spelling), spellings[0]);
            assert!(same(spelling, spellings[0]));
        }
        assert_eq!(canonical("file:///c%3A/a%2Bb.nix"), "file:///c:/a+b.nix");
    }

    #[test]
    fn files_have_uris_and_these_name_them() {
        for (path, uri) in [
            ("/a b/ä#?%.nix", "file:///a%20b/%C3%A4%23%3F%25.nix"),
            ("/c:/a+b", "file:///c:/a+b"),
        ] {
            assert_eq!(uri_of_file(Path::new(path)).as_deref(), Some(uri));
            assert_eq!(file_of(uri), Some(PathBuf::from(path)));
            assert_eq!(canonical(uri), uri);
        }
        assert_eq!(file_of("FILE://localhost/a%62"), Some(PathBuf::from("/ab")));
        assert_eq!(file_of("file://host/a"), None);
        assert_eq!(file_of("untitled:a"), None);
        assert_eq!(uri_of_file(Path::new("a")), None);
    }

    #[test]
    fn other_files_stay_others() {
        assert!(!same("file:///a%2Fb.nix", "file:///a/b.nix"));
        assert!(!same("file:///a%23b.nix", "file:///a#b.nix"));
        assert!(!same("file:///a.nix", "file:///A.nix"));
        assert!(!same("file:///a%", "file:///a%25b"));
        assert!(!same("untitled:%61", "untitled:a"));
    }

    #[test]
    fn a_canonical_uri_stays() {
        for uri in [
            "file:///a%20b",
            "file:///%",
            "file:///%zz",
            "file:///a%25",
            "untitled:Untitled-1",
            "",
            "file:",
        ] {
            assert_eq!(canonical(&canonical(uri)), canonical(uri));
        }
    }
}
