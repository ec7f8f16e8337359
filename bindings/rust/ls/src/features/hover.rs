//! The value of a name, where it is bound, and what is said of it; of what Nix binds, what its manual says, and of options what their file says.

use super::builtins::{builtin, is_builtins, Builtin};
use super::comments::documentation;
use super::globals::is_global;
use super::option_paths;
use super::values::{Meaning, Values};
use crate::analysis::{name_text, Analysis, Name};
use crate::json::{object, Value};
use crate::protocol::Outcome;
use crate::request::Request;
use rnix::ast::{Attrpath, AttrpathValue};
use rnix::scopes::{Binding, Reference};
use rnix::syntax::ast::AstNode as _;
use rnix::{SyntaxKind, SyntaxNode, TextRange, TextSize};

/// A value is cut to so many lines, and each of them to so many characters.
const MOST_LINES: usize = 8;
const MOST_CHARACTERS: usize = 120;

/// A text about an option is cut to this many characters.
const MOST_OF_OPTION: usize = 4000;

/// An `inherit` of an `inherit`, and so on, is followed so many times.
const MOST_INHERITED: usize = 20;

/// What is shown: code, where it comes from, what is said of it, and the range of the name.
struct Shown {
    code: String,
    place: String,
    text: Option<String>,
    range: TextRange,
}

/// A name in a path of attributes: what the path selects from, or the entry that it is in, and the names up to this one.
struct Attribute {
    node: SyntaxNode,
    owner: SyntaxNode,
    names: Vec<String>,
}

// The entry that writes a binding: of a set, a `let` or a pattern; otherwise the name itself.
fn entry_of(binding: &Binding) -> SyntaxNode {
    use SyntaxKind::*;
    let is_entry = |node: &SyntaxNode| matches!(node.kind(), NODE_ATTRPATH_VALUE | NODE_INHERIT | NODE_PAT_ENTRY);
    let mut around = binding
        .name
        .ancestors()
        .skip(1)
        .take_while(|node| *node != binding.scope);
    around.find(is_entry).unwrap_or_else(|| binding.name.clone())
}

// The first lines of a node, without the white space that the others have in common.
fn first_lines(node: &SyntaxNode) -> String {
    let text = node.element_ref().text().trim_end();
    let lines = || text.lines().take(MOST_LINES);
    let last = text.rsplit('\n').next();
    let filled = lines().skip(1).chain(last).filter(|line| !line.trim().is_empty());
    let indentations = filled.map(|line| line.len() - line.trim_start_matches(' ').len());
    let common = indentations.min().unwrap_or(0);
    let cut = |(index, line): (usize, &str)| {
        let line = if index == 0 {
            line
        } else {
            line.get(common..).unwrap_or_default()
        };
        match line.char_indices().nth(MOST_CHARACTERS) {
            Some((end, _)) => format!("{} ..", &line[..end]),
            None => line.trim_end().to_owned(),
        }
    };
    let mut shown: Vec<String> = lines().enumerate().map(cut).collect();
    if text.lines().nth(MOST_LINES).is_some() {
        shown.push("..".to_owned());
    }
    shown.join("\n")
}

// What binds a name, and in which line.
fn bound_by(request: &Request, binding: &Binding) -> String {
    let line = request.line_number(binding.name.text_range().start());
    let by = match binding.scope.kind() {
        SyntaxKind::NODE_LAMBDA => "A parameter",
        SyntaxKind::NODE_ATTR_SET => "An attribute of a `rec` set",
        _ => "Bound by `let`",
    };
    format!("{by}, line {line}")
}

// What there is to say of a name that nothing in the text binds.
fn unbound(reference: &Reference) -> &'static str {
    let name = reference.name.to_string();
    match (is_global(&name), reference.is_open) {
        (true, _) => "Bound by Nix",
        (false, true) => "Not bound in this file, unless by a `with` around it",
        (false, false) => "Not bound in this file",
    }
}

// The binding from which an `inherit` takes the name of a binding, if it has no source.
fn inherited(analysis: &Analysis, binding: &Binding) -> Option<usize> {
    let parent = binding.name.parent()?;
    (parent.kind() == SyntaxKind::NODE_INHERIT).then_some(())?;
    let name = analysis.name_at(binding.name.text_range().start())?;
    analysis.reference(name.reference?)?.binding
}

// The binding of a number, or the one that it inherits.
fn origin(analysis: &Analysis, number: usize) -> Option<&Binding> {
    let next = |number: &usize| inherited(analysis, analysis.binding(*number)?);
    let last = std::iter::successors(Some(number), next).take(MOST_INHERITED).last();
    analysis.binding(last?)
}

fn signature(builtin: &Builtin) -> String {
    builtin.signature.clone().unwrap_or_else(|| builtin.name.clone())
}

fn of_builtin(builtin: &Builtin, range: TextRange) -> Shown {
    Shown {
        code: signature(builtin),
        place: builtin.place.clone(),
        text: builtin.text.clone(),
        range,
    }
}

// What is shown of a name.
fn of_name(request: &Request, name: &Name) -> Option<Shown> {
    let (analysis, range) = (request.analysis, name.node.text_range());
    let number = analysis.bound_to(name);
    let Some(binding) = number.and_then(|number| origin(analysis, number)) else {
        let reference = analysis.reference(name.reference?)?;
        let text = name_text(&name.node);
        if let Some(builtin) = builtin(&text).filter(|_| is_global(&text)) {
            return Some(of_builtin(builtin, range));
        }
        let place = unbound(reference).to_owned();
        return Some(Shown {
            code: text,
            place,
            text: None,
            range,
        });
    };
    let entry = entry_of(binding);
    Some(Shown {
        code: first_lines(&entry),
        place: bound_by(request, binding),
        text: documentation(&entry),
        range,
    })
}

// The name at an offset in a path of attributes.
fn attribute_at(analysis: &Analysis, offset: TextSize) -> Option<Attribute> {
    analysis.tokens_at(offset).find_map(|token| {
        let mut around = token.parent_ancestors().take(3);
        let node = around.find(|node| {
            node.parent()
                .is_some_and(|path| path.kind() == SyntaxKind::NODE_ATTRPATH)
        })?;
        let path = Attrpath::cast(node.parent()?)?;
        let attrs = path.attrs().map(|attr| attr.syntax().clone());
        let names = attrs.take_while(|attr| attr.text_range().start() <= node.text_range().start());
        let names = names.map(|attr| name_text(&attr)).collect();
        let owner = path.syntax().parent()?;
        Some(Attribute { node, owner, names })
    })
}

// What a path of attributes selects from.
fn base_of(attribute: &Attribute) -> Option<SyntaxNode> {
    let is_select = matches!(
        attribute.owner.kind(),
        SyntaxKind::NODE_SELECT | SyntaxKind::NODE_HAS_ATTR
    );
    let base = attribute.owner.first_child().filter(|_| is_select);
    base.filter(|base| base.kind() != SyntaxKind::NODE_ATTRPATH)
}

// What is shown of an option that an entry sets or a selection reads.
fn of_option(request: &Request, attribute: &Attribute) -> Option<Shown> {
    let options = request.settings.options()?;
    let path = match (base_of(attribute), AttrpathValue::cast(attribute.owner.clone())) {
        (Some(base), _) => option_paths::config_path(request.analysis, &base, &attribute.names)?,
        (None, Some(entry)) => option_paths::path_of(&entry.syntax().parent()?, &attribute.names),
        (None, None) => return None,
    };
    let about = options.at(&path)?.about.as_ref()?;
    Some(Shown {
        code: path.join("."),
        place: format!("An option of NixOS: {}", about.kind),
        text: Some(option_paths::shown(about, MOST_OF_OPTION)),
        range: attribute.node.text_range(),
    })
}

// What is shown of an attribute of `builtins`, or of a set that this file has or another one.
fn of_member(request: &Request, attribute: &Attribute) -> Option<Shown> {
    let base = base_of(attribute)?;
    let range = attribute.node.text_range();
    let (last, before) = attribute.names.split_last()?;
    if before.is_empty() && is_builtins(request.analysis, &base) {
        return Some(of_builtin(builtin(last)?, range));
    }
    let set = Meaning::Expr(request.part(base));
    let found = Values::new(request.sources).follow(set, &attribute.names);
    let (member, entry) = found.first().map(|member| (member, member.entry()))?;
    Some(Shown {
        code: first_lines(&entry),
        place: format!("An attribute, {}", request.line_of(&member.name)),
        text: documentation(&entry),
        range,
    })
}

/// Returns the response to `textDocument/hover`.
///
/// # Errors
/// The parameters name no position.
pub fn hover(request: &Request) -> Outcome {
    let attribute = attribute_at(request.analysis, request.offset()?);
    let of_attribute = |attribute: &Attribute| of_option(request, attribute).or_else(|| of_member(request, attribute));
    let found = match attribute.as_ref().and_then(of_attribute) {
        Some(shown) => Some(shown),
        None => request.name()?.and_then(|name| of_name(request, &name)),
    };
    let Some(shown) = found else {
        return Ok(Value::Null);
    };
    let (kind, code) = if request.client.takes_markdown {
        ("markdown", format!("```nix\n{}\n```", shown.code))
    } else {
        ("plaintext", shown.code)
    };
    let mut text = format!("{code}\n\n{}", shown.place);
    if let Some(comment) = shown.text.filter(|comment| !comment.is_empty()) {
        text.push_str("\n\n");
        text.push_str(&comment);
    }
    let contents = object([("kind", kind.into()), ("value", text.into())]);
    Ok(object([("contents", contents), ("range", request.range(shown.range))]))
}
