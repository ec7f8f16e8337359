//! What the `.gitignore` files of a folder leave out, by git's rules.

use super::globs::Glob;
use std::fs;
use std::os::unix::ffi::OsStrExt;
use std::path::{Path, PathBuf};
use std::rc::Rc;

/// A `.gitignore` with more bytes counts as missing.
const MOST_BYTES: u64 = 1 << 20;

/// The mark with which some editors begin a file.
const BYTE_ORDER_MARK: &[u8] = b"\xef\xbb\xbf";

/// A line of a `.gitignore`.
#[derive(Debug)]
struct Rule {
    glob: Glob,
    // Whether it is about names in every folder, and not about paths.
    is_of_names: bool,
    // Whether it begins with `!`: what it matches is not left out.
    is_exception: bool,
    // Whether it ends with `/`: it matches folders alone.
    is_of_folders: bool,
}

/// The lines that apply in a folder and below it, and those of the folders around it, which decide where these do not.
#[derive(Debug)]
pub struct Ignores {
    folder: PathBuf,
    rules: Vec<Rule>,
    outer: Option<Rc<Ignores>>,
}

// A line without the spaces at its end, but for one that a backslash quotes.
fn trimmed(line: &[u8]) -> &[u8] {
    let line = line.strip_suffix(b"\r").unwrap_or(line);
    let (mut kept, mut is_quoted) = (0, false);
    for (at, byte) in line.iter().enumerate() {
        if is_quoted || *byte != b' ' {
            kept = at + 1;
        }
        is_quoted = !is_quoted && *byte == b'\\';
    }
    &line[..kept]
}

// The rule of a line, or `None` if it is blank, a comment or broken.
fn rule_of(line: &[u8]) -> Option<Rule> {
    let line = trimmed(line);
    if line.is_empty() || line.starts_with(b"#") {
        return None;
    }
    let (is_exception, text) = line.strip_prefix(b"!").map_or((false, line), |rest| (true, rest));
    let (is_of_folders, text) = text.strip_suffix(b"/").map_or((false, text), |rest| (true, rest));
    Some(Rule {
        is_of_names: !text.contains(&b'/'),
        glob: Glob::new(text.strip_prefix(b"/").unwrap_or(text))?,
        is_exception,
        is_of_folders,
    })
}

// The rules of the `.gitignore` in a folder. Like git, this does not follow a link; reading anything but a file might wait forever.
fn rules_in(folder: &Path) -> Vec<Rule> {
    let file = folder.join(".gitignore");
    let is_read = fs::symlink_metadata(&file).is_ok_and(|about| about.is_file() && about.len() <= MOST_BYTES);
    let lines = is_read.then(|| fs::read(&file).ok()).flatten().unwrap_or_default();
    let lines = lines.strip_prefix(BYTE_ORDER_MARK).unwrap_or(&lines);
    lines.split(|byte| *byte == b'\n').filter_map(rule_of).collect()
}

impl Ignores {
    /// Returns what applies in a folder, by its own `.gitignore` and those around it.
    pub fn enter(folder: &Path, outer: Option<Rc<Ignores>>) -> Option<Rc<Ignores>> {
        let rules = rules_in(folder);
        if rules.is_empty() {
            return outer;
        }
        let folder = folder.to_owned();
        Some(Rc::new(Ignores { folder, rules, outer }))
    }

    /// Returns what the folders around one leave out, up to the top of the repository that it is in.
    pub fn around(folder: &Path) -> Option<Rc<Ignores>> {
        let top = folder.ancestors().position(|outer| outer.join(".git").exists())?;
        let mut outer: Vec<&Path> = folder.ancestors().skip(1).take(top).collect();
        outer.reverse();
        outer
            .into_iter()
            .fold(None, |rules, folder| Ignores::enter(folder, rules))
    }

    // Whether a file is left out, by the last rule of this folder that matches it, if one does.
    fn verdict(&self, path: &Path, is_folder: bool) -> Option<bool> {
        let inside = path.strip_prefix(&self.folder).ok()?.as_os_str().as_bytes();
        let name = path.file_name()?.as_bytes();
        let matches = |rule: &&Rule| {
            let is_candidate = is_folder || !rule.is_of_folders;
            is_candidate && rule.glob.matches(if rule.is_of_names { name } else { inside })
        };
        let rule = self.rules.iter().rev().find(matches)?;
        Some(!rule.is_exception)
    }

    /// Returns whether a file or a folder is left out.
    pub fn leave_out(&self, path: &Path, is_folder: bool) -> bool {
        let sets = std::iter::successors(Some(self), |rules| rules.outer.as_deref());
        let mut verdicts = sets.filter_map(|rules| rules.verdict(path, is_folder));
        verdicts.next().unwrap_or(false)
    }
}

#[cfg(test)]
mod tests {
    use super::*;

    fn rules(folder: &str, lines: &str, outer: Option<Rc<Ignores>>) -> Option<Rc<Ignores>> {
        let rules = lines
            .as_bytes()
            .split(|byte| *byte == b'\n')
            .filter_map(rule_of)
            .collect();
        let folder = PathBuf::from(folder);
        Some(Rc::new(Ignores { folder, rules, outer }))
    }

    #[test]
    fn the_last_line_that_matches_decides() {
        let rules = rules("/a", "# c\n\n*.nix\r\n!keep.nix\n/top\nin/x\nfolder/\nspace\\ ", None).unwrap();
        for (path, is_folder, wanted) in [
            ("/a/b/c.nix", false, true),
            ("/a/b/keep.nix", false, false),
            ("/a/top", true, true),
            ("/a/b/top", true, false),
            ("/a/in/x", false, true),
            ("/a/b/in/x", false, false),
            ("/a/b/folder", true, true),
            ("/a/b/folder", false, false),
            ("/a/space ", false, true),
        ] {
            assert_eq!(rules.leave_out(Path::new(path), is_folder), wanted, "{path}");
        }
    }

    #[test]
    fn the_lines_of_the_inner_folder_decide_first() {
        let outer = rules("/a", "*.nix\n", None);
        let inner = rules("/a/b", "!x.nix\n", outer).unwrap();
        assert!(!inner.leave_out(Path::new("/a/b/x.nix"), false));
        assert!(inner.leave_out(Path::new("/a/b/y.nix"), false));
    }
}
