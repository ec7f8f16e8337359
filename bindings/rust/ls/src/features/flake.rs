//! The inputs of a flake: where flake.nix names them, and flake.lock says what they are.

use super::values::{Meaning, Values};
use crate::analysis::name_text;
use crate::json::Value;
use crate::protocol::location;
use crate::sources::{read, Source, Sources, MOST_BYTES};
use crate::text::Text;
use crate::uri::uri_of_file;
use rnix::ast::{AttrpathValue, Root};
use rnix::syntax::ast::AstNode as _;
use rnix::{SyntaxKind, SyntaxNode, TextRange};
use std::path::{Path, PathBuf};

/// A flake is looked for in this many folders, from that of a file on upwards.
const MOST_FOLDERS: usize = 20;

/// An input may follow another one, which follows another one, up to this number.
const MOST_FOLLOWED: usize = 20;

// The flake.nix of a file: its own, or the nearest in the folders around it.
fn flake_of(source: &Source) -> Option<PathBuf> {
    let path = source.path()?;
    let folders = path.ancestors().skip(1).take(MOST_FOLDERS);
    folders
        .map(|folder| folder.join("flake.nix"))
        .find(|file| file.is_file())
}

fn is_flake(source: &Source) -> bool {
    source.path().is_some_and(|path| path.ends_with("flake.nix"))
}

// The names that lead from the set of a file to the name of an entry, which may be in a set inside it, if these are not more than two.
fn path_to(name: &SyntaxNode) -> Option<Vec<String>> {
    let mut names = Vec::new();
    let (mut last, mut entry) = (Some(name.clone()), name.parent()?.parent()?);
    while names.len() < 2 {
        let path = AttrpathValue::cast(entry.clone())?.attrpath()?;
        let attrs: Vec<SyntaxNode> = path.attrs().map(|attr| attr.syntax().clone()).collect();
        let end = last.take().and_then(|last| attrs.iter().position(|attr| *attr == last));
        let own = &attrs[..end.map_or(attrs.len(), |index| index + 1)];
        names.splice(0..0, own.iter().map(name_text));
        let set = entry.parent().filter(|set| set.kind() == SyntaxKind::NODE_ATTR_SET)?;
        entry = set.parent()?;
        if Root::can_cast(entry.kind()) {
            return Some(names);
        }
    }
    None
}

/// Returns the name of the input that the name of an entry declares in a flake.nix.
pub fn declared_input(source: &Source, name: &SyntaxNode) -> Option<String> {
    let path = is_flake(source).then(|| path_to(name)).flatten()?;
    match path.as_slice() {
        [inputs, input] if inputs == "inputs" => Some(input.clone()),
        _ => None,
    }
}

/// Returns whether a name is an argument of the outputs of a flake.nix.
pub fn is_output_argument(source: &Source, name: &SyntaxNode) -> bool {
    let around = |node: &SyntaxNode, kind| node.parent().filter(|parent| parent.kind() == kind);
    let pattern = around(name, SyntaxKind::NODE_PAT_ENTRY).and_then(|it| around(&it, SyntaxKind::NODE_PATTERN));
    let function = pattern.and_then(|it| around(&it, SyntaxKind::NODE_LAMBDA));
    let entry = function.and_then(|it| AttrpathValue::cast(it.parent()?));
    let name = entry.and_then(|entry| entry.attrpath()?.attrs().next());
    let path = name
        .filter(|_| is_flake(source))
        .and_then(|name| path_to(name.syntax()));
    path.is_some_and(|path| path == ["outputs"])
}

// The node of a lock file that a node has as an input: by its name, or by the path from the root that it follows.
fn node_of(lock: &Value, node: &str, input: &str, follows: usize) -> Option<String> {
    let input = lock.at(&["nodes", node, "inputs", input])?;
    if let Some(name) = input.as_str() {
        return Some(name.to_owned());
    }
    let root = lock.get("root")?.as_str()?.to_owned();
    let mut path = input.as_array().filter(|_| follows < MOST_FOLLOWED)?.iter();
    path.try_fold(root, |node, name| node_of(lock, &node, name.as_str()?, follows + 1))
}

// The entry of an input in a lock file.
fn locked(file: &Path, input: &str, sources: &Sources) -> Option<Value> {
    let text = read(file, MOST_BYTES)?;
    let lock = Value::read(&text).ok()?;
    let node = node_of(&lock, lock.get("root")?.as_str()?, input, 0)?;
    let place = key_place(&text, &["nodes", &node])?;
    Some(location(
        &uri_of_file(file)?,
        &Text::new(text, sources.encoding()),
        place,
    ))
}

// The range of a string in JSON that starts at an offset, with its quotes.
fn string_at(text: &str, start: usize) -> TextRange {
    let mut is_quoted = false;
    let end = text[start + 1..].bytes().position(|byte| {
        let is_end = byte == b'"' && !is_quoted;
        is_quoted = byte == b'\\' && !is_quoted;
        is_end
    });
    let end = end.map_or(text.len(), |len| start + len + 2);
    TextRange::new(crate::protocol::size(start), crate::protocol::size(end))
}

// The range of the name of a member in JSON, by the names that lead to it.
fn key_place(text: &str, path: &[&str]) -> Option<TextRange> {
    // How deep an offset is, and how many names of the path lead there.
    let (mut at, mut depth, mut matched) = (0, 0_usize, 0_usize);
    while let Some(byte) = text.as_bytes().get(at) {
        at += 1;
        match byte {
            b'{' | b'[' => depth += 1,
            b'}' | b']' => depth = depth.saturating_sub(1),
            b'"' => {
                let place = string_at(text, at - 1);
                at = place.end().into();
                let is_key = text[at..].trim_start().starts_with(':');
                if is_key && depth > 0 && depth <= matched + 1 {
                    let is_next = path
                        .get(depth - 1)
                        .is_some_and(|name| text[place] == format!("\"{name}\""));
                    matched = depth - 1 + usize::from(is_next);
                    if matched == path.len() {
                        return Some(place);
                    }
                }
            }
            _ => {}
        }
    }
    None
}

/// Returns where an input of a flake is declared, and its entry in the lock file. Returns nothing if the flake of a file declares no such input.
pub fn input<'a>(values: &Values<'a, '_>, sources: &Sources<'a>, source: &Source<'a>, name: &str) -> Vec<Value> {
    let Some(file) = flake_of(source) else {
        return Vec::new();
    };
    let root = sources.at(&file).and_then(|flake| flake.root());
    let inputs = root
        .map(|root| values.select(&Meaning::Expr(root), "inputs"))
        .unwrap_or_default();
    let declared = inputs
        .iter()
        .flat_map(|inputs| values.select(&inputs.meaning, name))
        .next();
    let lock = declared
        .as_ref()
        .and_then(|_| locked(&file.with_file_name("flake.lock"), name, sources));
    let declared = declared.map(|declared| declared.name.location());
    declared.into_iter().chain(lock).collect()
}

#[cfg(test)]
mod tests {
    use super::*;

    const LOCK: &str = r#"{
  "nodes": {
    "a": { "inputs": { "b": "b_2", "c": ["d"] }, "x\"y": "nodes" },
    "b_2": {},
    "d_1": { "nodes": { "e": {} } },
    "root": { "inputs": { "a": "a", "d": "d_1", "c": ["a", "c"], "l": ["l"] } }
  },
  "root": "root"
}"#;

    #[test]
    fn inputs_lead_to_nodes_by_name_or_by_what_they_follow() {
        let lock = Value::read(LOCK).unwrap();
        let node = |name: &str| node_of(&lock, "root", name, 0);
        assert_eq!(node("a").as_deref(), Some("a"));
        assert_eq!(node("d").as_deref(), Some("d_1"));
        assert_eq!(node("c").as_deref(), Some("d_1"));
        assert_eq!(node("l"), None);
        assert_eq!(node("e"), None);
    }

    #[test]
    fn the_name_of_a_member_is_found_at_its_depth() {
        let place = |path: &[&str]| key_place(LOCK, path).map(|place| usize::from(place.start()));
        assert_eq!(place(&["nodes", "d_1"]), LOCK.find("\"d_1\": {"));
        assert_eq!(place(&["nodes", "b_2"]), LOCK.find("\"b_2\": {"));
        assert_eq!(place(&["root"]), LOCK.rfind("\"root\":"));
        assert_eq!(place(&["nodes", "e"]), None);
        assert_eq!(place(&["nodes", "d_1", "nodes", "e"]), LOCK.find("\"e\""));
        assert_eq!(key_place("{\"a", &["a"]), None);
        assert_eq!(key_place("}}{]\"a\":", &["a"]), None);
    }
}
