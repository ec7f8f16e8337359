//! The options of NixOS, from the file `options.json` that its manual is made of.

use crate::json::Value;
use std::cell::OnceCell;
use std::collections::BTreeMap;
use std::fs::File;
use std::io::Read;
use std::path::{Path, PathBuf};

/// A file of options may have this many bytes.
const MOST_BYTES: u64 = 1 << 26;

/// An option may have this many names in its path.
const MOST_NAMES: usize = 50;

/// What the file says of an option.
#[derive(Clone, Debug, Default, PartialEq, Eq)]
pub struct About {
    /// The type, in words.
    pub kind: String,
    /// The default value, as it is written.
    pub default: Option<String>,
    /// What the option is for, in Markdown.
    pub description: String,
}

/// An option, or what options have in common: the beginning of their paths.
#[derive(Debug, Default)]
pub struct Options {
    /// What is said of it, if it is an option.
    pub about: Option<About>,
    inside: BTreeMap<String, Options>,
}

/// The file that is set, and what it has once it is read.
#[derive(Default)]
pub struct OptionsFile {
    path: Option<PathBuf>,
    read: OnceCell<Result<Options, String>>,
    is_told: bool,
}

// The names of a path such as `services.nginx.virtualHosts.<name>."a.b"`.
fn names(path: &str) -> Vec<String> {
    let (mut names, mut is_quoted) = (vec![String::new()], false);
    for character in path.chars() {
        match (character, names.last_mut()) {
            ('"', _) => is_quoted = !is_quoted,
            ('.', _) if !is_quoted => names.push(String::new()),
            (other, Some(name)) => name.push(other),
            _ => {}
        }
    }
    names
}

// A text that is written as it is, or as an object that says of which kind it is.
fn text(value: Option<&Value>) -> Option<String> {
    match value? {
        Value::String(text) => Some(text.clone()),
        Value::Null => None,
        other => match other.get("text") {
            Some(inner) => inner.as_str().map(str::to_owned),
            None => Some(other.written()),
        },
    }
}

fn about(value: &Value) -> About {
    About {
        kind: text(value.get("type")).unwrap_or_default(),
        default: text(value.get("default")),
        description: text(value.get("description")).unwrap_or_default(),
    }
}

// Whether a name of a path stands for any name.
fn is_any(name: &str) -> bool {
    name == "*" || (name.starts_with('<') && name.ends_with('>'))
}

impl Options {
    // Reads what a file has.
    fn new(json: &str) -> Result<Options, String> {
        let value = Value::read(json).map_err(|error| format!("{} at byte {}", error.message, error.at))?;
        let Value::Object(members) = value else {
            return Err("it has no object".to_owned());
        };
        let mut all = Options::default();
        for (path, value) in &members {
            let names = names(path);
            if names.len() <= MOST_NAMES {
                all.place(names).about = Some(about(value));
            }
        }
        Ok(all)
    }

    // Reads a file.
    fn read(path: &Path) -> Result<Options, String> {
        let mut json = String::new();
        let file = File::open(path).map_err(|error| error.to_string())?;
        let mut file = file.take(MOST_BYTES + 1);
        file.read_to_string(&mut json).map_err(|error| error.to_string())?;
        if json.len() as u64 > MOST_BYTES {
            return Err(format!("it has more than {MOST_BYTES} bytes"));
        }
        Options::new(&json)
    }

    // The place of a path, which is made if there is none.
    fn place(&mut self, names: Vec<String>) -> &mut Options {
        names
            .into_iter()
            .fold(self, |all, name| all.inside.entry(name).or_default())
    }

    /// Returns what a path leads to. Where the options have any name, such as `<name>`, each name leads there.
    pub fn at(&self, path: &[String]) -> Option<&Options> {
        path.iter().try_fold(self, |all, name| {
            let own = all.inside.get(name);
            own.or_else(|| all.inside.iter().find(|(name, _)| is_any(name)).map(|(_, any)| any))
        })
    }

    /// Returns the names with which paths go on here, without those that stand for any.
    pub fn names(&self) -> impl Iterator<Item = (&str, &Options)> {
        let names = self.inside.iter().filter(|(name, _)| !is_any(name));
        names.map(|(name, inside)| (name.as_str(), inside))
    }
}

impl OptionsFile {
    /// Chooses a file. An empty path stands for none. The file is read again only if it is another one.
    pub fn choose(&mut self, path: &str) {
        let path = (!path.is_empty()).then(|| PathBuf::from(path));
        if path != self.path {
            *self = OptionsFile {
                path,
                ..OptionsFile::default()
            };
        }
    }

    /// Returns the options of the file, if one is chosen. The first call reads it.
    pub fn get(&self) -> Result<Option<&Options>, &str> {
        let Some(path) = &self.path else {
            return Ok(None);
        };
        let read = self.read.get_or_init(|| Options::read(path));
        read.as_ref().map(Some).map_err(String::as_str)
    }

    /// Reads the file, and returns why that failed, once.
    pub fn failure(&mut self) -> Option<String> {
        let reason = self.get().err().filter(|_| !self.is_told)?.to_owned();
        self.is_told = true;
        let path = self.path.as_deref().unwrap_or(Path::new(""));
        Some(format!(
            "the file of options {} cannot be read: {reason}",
            path.display()
        ))
    }
}

#[cfg(test)]
mod tests {
    use super::*;

    const JSON: &str = r#"{
        "a.enable": {"type": "boolean", "default": {"_type": "literalExpression", "text": "false"}, "description": "Whether."},
        "a.hosts.<name>.port": {"type": "integer", "description": {"_type": "mdDoc", "text": "A port."}},
        "a.\"b.c\"": {"default": 1}
    }"#;

    fn at(all: &Options, path: &[&str]) -> Option<About> {
        let path: Vec<String> = path.iter().map(|name| (*name).to_owned()).collect();
        all.at(&path)?.about.clone()
    }

    #[test]
    fn options_are_found_by_their_paths() {
        let all = Options::new(JSON).unwrap();
        let found = at(&all, &["a", "enable"]).unwrap();
        assert_eq!(
            (found.kind.as_str(), found.default.as_deref()),
            ("boolean", Some("false"))
        );
        assert_eq!(found.description, "Whether.");
        assert_eq!(at(&all, &["a", "hosts", "x.y", "port"]).unwrap().description, "A port.");
        assert_eq!(at(&all, &["a", "b.c"]).unwrap().default.as_deref(), Some("1"));
        assert_eq!(at(&all, &["a", "none"]), None);
        assert_eq!(at(&all, &["a", "hosts", "x", "none"]), None);
    }

    #[test]
    fn names_go_on_from_a_path() {
        let all = Options::new(JSON).unwrap();
        let names: Vec<&str> = all
            .at(&["a".to_owned()])
            .unwrap()
            .names()
            .map(|(name, _)| name)
            .collect();
        assert_eq!(names, ["b.c", "enable", "hosts"]);
        let hosts = all.at(&["a".to_owned(), "hosts".to_owned()]).unwrap();
        assert_eq!(hosts.names().count(), 0);
    }

    #[test]
    fn what_is_no_file_of_options_is_refused_once() {
        assert!(Options::new("[]").is_err() && Options::new("{").is_err());
        let mut file = OptionsFile::default();
        assert_eq!(file.failure(), None);
        file.choose("/none/options.json");
        assert!(file.failure().unwrap().contains("/none/options.json"));
        assert_eq!(file.failure(), None);
    }

    #[test]
    fn a_path_of_very_many_names_is_left_out() {
        let json = format!("{{\"{}\": {{}}, \"a\": {{}}}}", "b.".repeat(100_000));
        assert_eq!(Options::new(&json).unwrap().names().count(), 1);
    }
}
