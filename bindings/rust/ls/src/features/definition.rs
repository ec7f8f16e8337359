//! Where the thing under the cursor is defined, in this file or another one.

use super::flake;
use super::links;
use super::navigation::bound_places;
use super::values::{names_of, Meaning, Values};
use crate::analysis::{name_text, Name};
use crate::calls::{function_of, load_of, passed_to, Loader};
use crate::json::{array, object, Value};
use crate::paths::is_path;
use crate::protocol::{Failure, Outcome};
use crate::request::Request;
use crate::sources::{Part, Source};
use rnix::ast::{Apply, Attrpath, Expr, HasAttr, Inherit, Lambda, Param, Select};
use rnix::syntax::ast::AstNode as _;
use rnix::{SyntaxKind, SyntaxNode, TextRange};

/// An answer has this many places at most.
const MOST: usize = 200;

/// A request for a definition.
struct Search<'a, 'r> {
    request: &'r Request<'a>,
    source: Source<'a>,
    values: Values<'a, 'r>,
}

// The names of a path up to one of them, if it is one.
fn names_up_to(path: &Attrpath, name: &SyntaxNode) -> Vec<String> {
    let count = path.attrs().take_while(|attr| attr.syntax() != name).count();
    names_of(path).into_iter().take(count + 1).collect()
}

// The expression that a path of attributes selects from.
fn selected_from(path: &Attrpath) -> Option<Expr> {
    let parent = path.syntax().parent()?;
    match parent.kind() {
        SyntaxKind::NODE_SELECT => Select::cast(parent)?.expr(),
        SyntaxKind::NODE_HAS_ATTR => HasAttr::cast(parent)?.expr(),
        _ => None,
    }
}

impl<'a, 'r> Search<'a, 'r> {
    fn new(request: &'r Request<'a>) -> Search<'a, 'r> {
        Search {
            request,
            source: Source::Open(request.document),
            values: Values::new(request.sources),
        }
    }

    fn part(&self, node: &SyntaxNode) -> Part<'a> {
        self.source.part(node.clone())
    }

    // Where a name is defined, if that is no binding of a scope of the text.
    fn elsewhere(&self, name: &Name) -> Vec<Value> {
        let Some(parent) = name.node.parent() else {
            return Vec::new();
        };
        match parent.kind() {
            SyntaxKind::NODE_PAT_ENTRY if name.written.is_some() => self.passed(&name.node),
            SyntaxKind::NODE_ATTRPATH => self.attribute(&name.node, parent),
            SyntaxKind::NODE_INHERIT if Inherit::cast(parent).is_some_and(|inherit| inherit.from().is_some()) => {
                self.inherited(&name.node)
            }
            _ => self.unbound(name),
        }
    }

    // Where the source of an `inherit` has one of its names; if that is not plain, where another file takes the argument.
    fn inherited(&self, name: &SyntaxNode) -> Vec<Value> {
        let attributes = self.values.inherited_from(&self.part(name));
        if attributes.is_empty() {
            return self.entry(name);
        }
        attributes.iter().map(|attribute| attribute.name.location()).collect()
    }

    // Where callers of the file pass the argument of a name, or the entry of an input of a flake.
    fn passed(&self, name: &SyntaxNode) -> Vec<Value> {
        let text = name_text(name);
        if flake::is_output_argument(&self.source, name) {
            return flake::input(&self.values, self.request.sources, &self.source, &text);
        }
        let function = function_of(Expr::Root(self.request.analysis.parse.tree()));
        let pattern = function.and_then(|function| Some(function.param()?.syntax().clone()));
        let is_own = pattern.is_some() && name.parent().and_then(|entry| entry.parent()) == pattern;
        let file = self.request.document.file.as_deref().filter(|_| is_own);
        let places = file.map(|file| self.request.workspace.passed(self.request.sources, file, &text));
        places.unwrap_or_default()
    }

    // Where the attribute of a name is defined.
    fn attribute(&self, name: &SyntaxNode, path: SyntaxNode) -> Vec<Value> {
        let Some(path) = Attrpath::cast(path) else {
            return Vec::new();
        };
        let names = names_up_to(&path, name);
        let Some(set) = selected_from(&path) else {
            return self.entry(name);
        };
        if let ([input], true) = (names.as_slice(), self.is_inputs(&set)) {
            let places = flake::input(&self.values, self.request.sources, &self.source, input);
            if !places.is_empty() {
                return places;
            }
        }
        let set = Meaning::Expr(self.part(set.syntax()));
        let attributes = self.values.follow(set, &names).into_iter();
        attributes.map(|attribute| attribute.name.location()).collect()
    }

    // Whether an expression is the name `inputs`, and a parameter or bound outside of the text.
    fn is_inputs(&self, expr: &Expr) -> bool {
        let analysis = self.request.analysis;
        let name = Some(expr.syntax()).filter(|node| node.element_ref().text() == "inputs");
        let name = name.and_then(|node| analysis.name_at(node.text_range().start()));
        name.is_some_and(|name| {
            let binding = analysis.bound_to(&name).and_then(|number| analysis.binding(number));
            binding.map_or(true, |binding| binding.scope.kind() == SyntaxKind::NODE_LAMBDA)
        })
    }

    // Where the function of another file takes the argument of an entry, or what a lock file says of an input.
    fn entry(&self, name: &SyntaxNode) -> Vec<Value> {
        if let Some(input) = flake::declared_input(&self.source, name) {
            return flake::input(&self.values, self.request.sources, &self.source, &input);
        }
        let file = passed_to(name).and_then(|path| self.values.file(&self.part(&path)));
        let functions = file.map(|file| self.values.functions(&Meaning::Expr(file)));
        let text = name_text(name);
        let place = |function: Part<'a>| {
            let Some(Param::Pattern(pattern)) = Lambda::cast(function.node)?.param() else {
                return None;
            };
            let mut names = pattern.pat_entries().filter_map(|entry| entry.ident());
            let name = names.find(|name| name.syntax().element_ref().text() == text)?;
            Some(function.source.location(name.syntax().text_range()))
        };
        functions.into_iter().flatten().filter_map(place).collect()
    }

    // Where a name is defined that no scope of the text binds.
    fn unbound(&self, name: &Name) -> Vec<Value> {
        let reference = name
            .reference
            .and_then(|number| self.request.analysis.reference(number));
        let Some(reference) = reference.filter(|reference| reference.binding.is_none()) else {
            return Vec::new();
        };
        if reference.is_open {
            let attributes = self.values.of_with(&self.part(&name.node)).into_iter();
            return attributes.map(|attribute| attribute.name.location()).collect();
        }
        let call = name.node.parent().and_then(Apply::cast);
        let call = call.filter(|call| call.lambda().is_some_and(|function| *function.syntax() == name.node));
        let file = call.and_then(|call| self.values.loaded(&self.source, &call));
        file.iter().map(Part::location).collect()
    }

    // The place in a file to which a path leads: its expression if the file is imported, the parameters of its function if it is a package, and otherwise
    // the start.
    fn target(&self, path: &SyntaxNode) -> Option<Value> {
        let uri = links::target_of(self.request, path)?;
        let start = Value::Range(Default::default(), Default::default());
        let place = load_of(path).and_then(|(loader, _)| {
            let file = self.values.file(&self.part(path))?;
            let parameter = || function_of(Expr::cast(file.node.clone())?)?.param();
            let place = match loader {
                Loader::CallPackage => parameter().map(|parameter| parameter.syntax().text_range()),
                Loader::Import => None,
            };
            Some(file.source.location(place.unwrap_or(file.node.text_range())))
        });
        Some(place.unwrap_or_else(|| object([("uri", uri.into()), ("range", start)])))
    }
}

// Places without those that came before, not more than an answer has.
fn distinct(places: Vec<Value>) -> Vec<Value> {
    let mut found: Vec<Value> = Vec::new();
    for place in places {
        if found.len() < MOST && !found.contains(&place) {
            found.push(place);
        }
    }
    found
}

// The path at the position.
fn path_at(request: &Request) -> Result<Option<SyntaxNode>, Failure> {
    let tokens = request.analysis.tokens_at(request.offset()?);
    let found = tokens.filter_map(|token| token.parent()).find(is_path);
    Ok(found)
}

/// Returns the response to `textDocument/definition`: each part of the binding that the name refers to, or its own; the entry of an attribute, here or in
/// a file that is imported; the places that pass an argument; and for a path the file that it names.
///
/// # Errors
/// The parameters name no position.
pub fn definition(request: &Request) -> Outcome {
    let search = Search::new(request);
    let Some(name) = request.name()? else {
        let place = path_at(request)?.and_then(|path| search.target(&path));
        return Ok(place.map_or(Value::Null, |place| array([place])));
    };
    let elsewhere = search.elsewhere(&name);
    if !elsewhere.is_empty() {
        return Ok(array(distinct(elsewhere)));
    }
    let places: Vec<TextRange> = bound_places(request.analysis, &name);
    Ok(array(places.into_iter().map(|place| request.location(place))))
}
