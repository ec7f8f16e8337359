//! The files of a folder and the folders in it, found in small steps.

use super::ignores::Ignores;
use std::fs::{self, DirEntry, ReadDir};
use std::path::{Path, PathBuf};
use std::rc::Rc;

/// A step looks at this many entries of a folder at most.
const MOST_ENTRIES: usize = 200;

/// A walk looks at this many folders at most: an editor may take a whole home folder for a workspace.
const MOST_FOLDERS: usize = 100_000;

/// What is left out in a folder.
type Rules = Option<Rc<Ignores>>;

/// A walk through a folder. It follows no links, and so finds each file once, and neither the results of builds nor itself.
pub struct Walk {
    /// The folder that it starts in.
    pub top: PathBuf,
    /// Its number; later walks have greater ones.
    pub number: usize,
    // The folders that it has not looked at.
    waiting: Vec<(PathBuf, Rules)>,
    // The folder that it looks at.
    open: Option<(ReadDir, Rules)>,
    // How many folders it has looked at.
    count: usize,
}

// Whether an entry may be wanted: a folder, or a file that may be one of Nix.
fn is_wanted(path: &Path, is_folder: bool) -> bool {
    match is_folder {
        true => path.file_name().map_or(true, |name| name != ".git"),
        false => path.extension().is_some_and(|extension| extension == "nix"),
    }
}

// Whether an entry of a folder is wanted and not left out.
fn is_found(path: &Path, is_folder: bool, rules: &Rules) -> bool {
    is_wanted(path, is_folder) && !rules.as_ref().is_some_and(|rules| rules.leave_out(path, is_folder))
}

/// Returns whether a walk would find a file, if it is one, in a folder.
pub fn would_find(top: &Path, file: &Path) -> bool {
    let Ok(inside) = file.strip_prefix(top) else {
        return false;
    };
    let (mut rules, mut path) = (Ignores::around(top), top.to_owned());
    let count = inside.components().count();
    inside.components().enumerate().all(|(number, name)| {
        rules = Ignores::enter(&path, rules.take());
        path.push(name);
        is_found(&path, number + 1 < count, &rules)
    })
}

impl Walk {
    /// Starts a walk through a folder, whose path has no links.
    pub fn new(top: PathBuf, number: usize) -> Walk {
        let waiting = vec![(top.clone(), Ignores::around(&top))];
        Walk {
            top,
            number,
            waiting,
            open: None,
            count: 0,
        }
    }

    // Opens the next folder that can be read. Returns whether there is one.
    fn open_next(&mut self) -> bool {
        let next = self.waiting.pop().filter(|_| self.count < MOST_FOLDERS);
        let Some((folder, outer)) = next else {
            return false;
        };
        self.count += 1;
        if let Ok(entries) = fs::read_dir(&folder) {
            self.open = Some((entries, Ignores::enter(&folder, outer)));
        }
        true
    }

    // Adds an entry to the files or the folders.
    fn add(&mut self, entry: &DirEntry, rules: &Rules, files: &mut Vec<PathBuf>) {
        let (path, kind) = (entry.path(), entry.file_type());
        let Ok(kind) = kind.map(|kind| (kind.is_dir(), kind.is_file())) else {
            return;
        };
        match kind {
            (true, _) if is_found(&path, true, rules) => self.waiting.push((path, rules.clone())),
            (_, true) if is_found(&path, false, rules) => files.push(path),
            _ => {}
        }
    }

    /// Does a step, and returns the files that it found. Returns `None` at the end.
    pub fn step(&mut self) -> Option<Vec<PathBuf>> {
        let mut files = Vec::new();
        let Some((mut entries, rules)) = self.open.take() else {
            return self.open_next().then_some(files);
        };
        let part: Vec<_> = entries.by_ref().take(MOST_ENTRIES).collect();
        let is_end = part.len() < MOST_ENTRIES;
        // What cannot be read is as if it were not there.
        for entry in part.into_iter().flatten() {
            self.add(&entry, &rules, &mut files);
        }
        self.open = (!is_end).then_some((entries, rules));
        Some(files)
    }
}

#[cfg(test)]
mod tests {
    use super::*;
    use std::os::unix::fs::symlink;

    fn found(top: &Path) -> Vec<String> {
        let mut walk = Walk::new(top.to_owned(), 1);
        let mut files: Vec<PathBuf> = std::iter::from_fn(|| walk.step()).flatten().collect();
        files.sort();
        assert!(files.iter().all(|file| would_find(top, file)));
        let inside = |file: &PathBuf| file.strip_prefix(top).unwrap().display().to_string();
        files.iter().map(inside).collect()
    }

    #[test]
    fn a_walk_finds_the_files_that_nothing_leaves_out() {
        let room = std::env::temp_dir().join(format!("rnix-walk-{}", std::process::id()));
        let top = room.join("top");
        fs::create_dir_all(top.join("a/b")).unwrap();
        fs::create_dir_all(top.join(".git")).unwrap();
        fs::create_dir_all(top.join("out")).unwrap();
        let files = [
            "a/x.nix",
            "a/b/y.nix",
            "a/b/z.txt",
            ".git/g.nix",
            "out/o.nix",
            "k.nix",
            "skipped.nix",
        ];
        for file in files {
            fs::write(top.join(file), "1").unwrap();
        }
        fs::write(top.join(".gitignore"), "out/\nskipped.*\n").unwrap();
        symlink(&top, top.join("a/loop")).unwrap();
        symlink(top.join("k.nix"), top.join("a/link.nix")).unwrap();
        symlink("/nix/store", top.join("result")).unwrap();
        assert_eq!(found(&top), ["a/b/y.nix", "a/x.nix", "k.nix"]);
        assert!(!would_find(&top, &top.join("out/new.nix")));
        assert!(!would_find(&top, &room.join("other.nix")));
        assert!(would_find(&top, &top.join("new/new.nix")));
        fs::remove_dir_all(room).unwrap();
    }

    #[test]
    fn a_large_folder_takes_several_steps() {
        let top = std::env::temp_dir().join(format!("rnix-large-{}", std::process::id()));
        fs::create_dir_all(&top).unwrap();
        for number in 0..2 * MOST_ENTRIES + 1 {
            fs::write(top.join(format!("{number}.nix")), "1").unwrap();
        }
        let mut walk = Walk::new(top.clone(), 1);
        let counts: Vec<usize> = std::iter::from_fn(|| walk.step()).map(|files| files.len()).collect();
        assert_eq!(counts, [0, MOST_ENTRIES, MOST_ENTRIES, 1]);
        fs::remove_dir_all(top).unwrap();
    }
}
