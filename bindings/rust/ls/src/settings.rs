//! What the user can set.

use crate::json::Value;
use crate::options::{Options, OptionsFile};
use crate::paths::SearchPath;
use std::collections::HashSet;

/// The section of the client's configuration, and the member of the settings that a client sends, if they have several.
pub const SECTION: &str = "rnix-ls";

/// What the user has set, or the values that hold otherwise.
#[derive(Default)]
pub struct Settings {
    /// A command with arguments that formats what it reads, in place of the style of Nixpkgs.
    pub formatter: Vec<String>,
    /// The codes of the lints whose findings are left out.
    pub ignored: HashSet<String>,
    /// Where paths in `<>` are looked for.
    pub nix_path: SearchPath,
    options: OptionsFile,
}

// The strings of an array.
fn strings(value: &Value) -> Option<Vec<String>> {
    let items = value.as_array()?.iter();
    items.map(|item| item.as_str().map(str::to_owned)).collect()
}

// Reads a setting, if it is there and not `null`. Says what it should be if it is something else.
fn read<T>(
    all: &Value,
    path: &[&str],
    kind: &str,
    reader: impl Fn(&Value) -> Option<T>,
    complaints: &mut Vec<String>,
) -> Option<T> {
    let value = all.at(path).filter(|value| **value != Value::Null)?;
    let found = reader(value);
    if found.is_none() {
        complaints.push(format!("the setting `{}` is not {kind}", path.join(".")));
    }
    found
}

impl Settings {
    /// Returns the settings that hold before the client sends any. The Nix path is that of the environment.
    pub fn new() -> Settings {
        let path = std::env::var("NIX_PATH").unwrap_or_default();
        Settings {
            nix_path: SearchPath::new(&path),
            ..Settings::default()
        }
    }

    /// Changes the settings that a client sends, and leaves the others. Returns what is wrong with those that it does not take.
    pub fn change(&mut self, sent: &Value) -> Vec<String> {
        let sent = sent.get(SECTION).unwrap_or(sent);
        let mut complaints = Vec::new();
        if !matches!(sent, Value::Null | Value::Object(_)) {
            complaints.push("the settings are not an object".to_owned());
        }
        let list = "a list of strings";
        if let Some(command) = read(sent, &["formatting", "command"], list, strings, &mut complaints) {
            self.formatter = command;
        }
        if let Some(codes) = read(sent, &["diagnostics", "ignored"], list, strings, &mut complaints) {
            self.ignored = codes.into_iter().collect();
        }
        if let Some(entries) = read(sent, &["nixPath"], list, strings, &mut complaints) {
            self.nix_path = SearchPath::of(entries.iter().map(String::as_str));
        }
        let text = |value: &Value| value.as_str().map(str::to_owned);
        if let Some(file) = read(sent, &["options", "file"], "a string", text, &mut complaints) {
            self.options.choose(&file);
        }
        complaints
    }

    /// Returns whether findings of a code are shown.
    pub fn shows(&self, code: &str) -> bool {
        !self.ignored.contains(code)
    }

    /// Returns the options of the file that is set, if it could be read. The first call reads it.
    pub fn options(&self) -> Option<&Options> {
        self.options.get().ok().flatten()
    }

    /// Reads the options, and returns why that failed, once.
    pub fn options_failure(&mut self) -> Option<String> {
        self.options.failure()
    }
}

#[cfg(test)]
mod tests {
    use super::*;

    fn changed(settings: &mut Settings, text: &str) -> Vec<String> {
        settings.change(&Value::read(text).unwrap())
    }

    #[test]
    fn settings_are_read_and_others_stay() {
        let mut settings = Settings::default();
        let first = r#"{"formatting":{"command":["nixfmt","-q"]},"nixPath":["a=/b","/c",""],"else":{"formatting":1}}"#;
        assert_eq!(changed(&mut settings, first), [""; 0]);
        assert_eq!(settings.formatter, ["nixfmt", "-q"]);
        assert_eq!(settings.nix_path, SearchPath::new("a=/b:/c"));
        let second = r#"{"rnix-ls":{"diagnostics":{"ignored":["unused-name"]},"formatting":{"command":null}}}"#;
        assert_eq!(changed(&mut settings, second), [""; 0]);
        assert_eq!(
            (
                settings.formatter.len(),
                settings.shows("unused-name"),
                settings.shows("other")
            ),
            (2, false, true)
        );
        assert_eq!(changed(&mut settings, r#"{"formatting":{"command":[]}}"#), [""; 0]);
        assert!(settings.formatter.is_empty());
    }

    #[test]
    fn what_is_no_setting_is_said_and_changes_nothing() {
        let mut settings = Settings::default();
        for (text, setting) in [
            (r#"{"formatting":{"command":"nixfmt"}}"#, "formatting.command"),
            (r#"{"formatting":{"command":["nixfmt",1]}}"#, "formatting.command"),
            (r#"{"diagnostics":{"ignored":{}}}"#, "diagnostics.ignored"),
            (r#"{"nixPath":"a=b"}"#, "nixPath"),
            (r#"{"options":{"file":1}}"#, "options.file"),
            ("7", "settings"),
        ] {
            let complaints = changed(&mut settings, text);
            assert!(
                complaints.len() == 1 && complaints[0].contains(setting),
                "{text}: {complaints:?}"
            );
        }
        for text in [
            "null",
            "{}",
            r#"{"formatting":null}"#,
            r#"{"formatting":[]}"#,
            r#"{"options":{"file":null}}"#,
        ] {
            assert_eq!(changed(&mut settings, text), [""; 0], "{text}");
        }
        assert!(settings.formatter.is_empty() && settings.ignored.is_empty() && settings.options().is_none());
    }
}
