//! Calls that name a file, as `import ./a.nix` and `callPackage ./a.nix { }`.

use crate::analysis::without_parens;
use rnix::ast::{Apply, Attr, AttrSet, AttrpathValue, BinOp, BinOpKind, Expr, HasEntry, Inherit, Lambda};
use rnix::syntax::ast::AstNode as _;
use rnix::{SyntaxKind, SyntaxNode};

/// A function that takes the path of a file.
#[derive(Clone, Copy, Debug, PartialEq, Eq)]
pub enum Loader {
    /// `import`: the call is the expression of the file.
    Import,
    /// `callPackage` or `callPackages`: the call with its second argument is the body of the file's function.
    CallPackage,
}

/// Returns the function that an expression is: inside brackets, and the bodies of `let`, `with` and `assert`.
pub fn function_of(mut expr: Expr) -> Option<Lambda> {
    loop {
        expr = match expr {
            Expr::Root(root) => root.expr()?,
            Expr::Lambda(function) => return Some(function),
            Expr::Paren(paren) => paren.expr()?,
            Expr::LetIn(let_in) => let_in.body()?,
            Expr::With(with) => with.body()?,
            Expr::Assert(assert) => assert.body()?,
            _ => return None,
        };
    }
}

// The last name of a path of attributes.
fn last_name(attrs: impl Iterator<Item = Attr>) -> Option<String> {
    attrs.last().map(|attr| attr.syntax().to_string())
}

/// Returns which function of files an expression is, by its name.
pub fn loader(function: Expr) -> Option<Loader> {
    match without_parens(function) {
        Expr::Ident(name) => match name.syntax().element_ref().text() {
            "import" => Some(Loader::Import),
            "callPackage" | "callPackages" => Some(Loader::CallPackage),
            _ => None,
        },
        Expr::Select(select) if select.default_expr().is_none() => {
            let is_builtin = select.expr()?.syntax().element_ref().text() == "builtins";
            match last_name(select.attrpath()?.attrs())?.as_str() {
                "import" if is_builtin => Some(Loader::Import),
                "callPackage" | "callPackages" => Some(Loader::CallPackage),
                _ => None,
            }
        }
        _ => None,
    }
}

/// Returns the outermost parentheses around a node, or the node.
pub fn with_parens(node: &SyntaxNode) -> SyntaxNode {
    let is_paren = |node: &SyntaxNode| node.kind() == SyntaxKind::NODE_PAREN;
    let parens = node.ancestors().skip(1).take_while(is_paren);
    parens.last().unwrap_or_else(|| node.clone())
}

/// Returns the call of which a node is the function, or the argument; parentheses around it do not count.
pub fn call_around(node: &SyntaxNode, is_function: bool) -> Option<Apply> {
    let outer = with_parens(node);
    let call = Apply::cast(outer.parent()?)?;
    let part = if is_function { call.lambda() } else { call.argument() };
    (part?.syntax() == &outer).then_some(call)
}

/// Returns the call that loads the file which a path names, and its function.
pub fn load_of(path: &SyntaxNode) -> Option<(Loader, Apply)> {
    let call = call_around(path, false)?;
    Some((loader(call.lambda()?)?, call))
}

/// Returns the path of the file that a call loads, and its function.
pub fn loaded_by(call: &Apply) -> Option<(Loader, SyntaxNode)> {
    let loader = loader(call.lambda()?)?;
    Some((loader, without_parens(call.argument()?).syntax().clone()))
}

// The sets in an argument that are written out: itself, or operands of `//`.
fn sets_in(argument: Expr) -> Vec<AttrSet> {
    let (mut sets, mut open) = (Vec::new(), vec![argument]);
    while let Some(expr) = open.pop() {
        match without_parens(expr) {
            Expr::AttrSet(set) => sets.push(set),
            Expr::BinOp(update) if update.operator() == Some(BinOpKind::Update) => {
                open.extend(update.rhs());
                open.extend(update.lhs());
            }
            _ => {}
        }
    }
    sets
}

/// Returns the names that the entries of a set begin with.
pub fn names_in(set: &impl HasEntry) -> impl Iterator<Item = SyntaxNode> {
    let first = |entry: AttrpathValue| entry.attrpath()?.attrs().next();
    let written = set.attrpath_values().filter_map(first);
    let inherited = set.inherits().flat_map(|inherit| inherit.attrs());
    written.chain(inherited).map(|attr| attr.syntax().clone())
}

/// Returns the names of the arguments that are passed to what a call loads, as far as they are written out.
pub fn arguments_of(load: &Apply) -> Vec<SyntaxNode> {
    let call = call_around(load.syntax(), true);
    let sets = call.and_then(|call| call.argument()).map(sets_in).unwrap_or_default();
    sets.iter().flat_map(names_in).collect()
}

// The set that a name is the first one of an entry of.
fn set_of(name: &SyntaxNode) -> Option<SyntaxNode> {
    let parent = name.parent()?;
    let entry = match parent.kind() {
        SyntaxKind::NODE_INHERIT => Inherit::cast(parent)?.syntax().clone(),
        SyntaxKind::NODE_ATTRPATH if parent.first_child().as_ref() == Some(name) => parent.parent()?,
        _ => return None,
    };
    entry.parent().filter(|set| set.kind() == SyntaxKind::NODE_ATTR_SET)
}

/// Returns the path of the file to whose function the name of an entry is passed.
pub fn passed_to(name: &SyntaxNode) -> Option<SyntaxNode> {
    let is_update = |node: &SyntaxNode| {
        let operation = BinOp::cast(node.clone());
        operation.is_some_and(|operation| operation.operator() == Some(BinOpKind::Update))
    };
    let is_between = |node: &SyntaxNode| node.kind() == SyntaxKind::NODE_PAREN || is_update(node);
    let set = set_of(name)?;
    let operation = set.ancestors().skip(1).take_while(is_between).last();
    let argument = operation.unwrap_or(set);
    let call = call_around(&argument, false)?;
    match without_parens(call.lambda()?) {
        Expr::Apply(load) => loaded_by(&load).map(|(_, path)| path),
        _ => None,
    }
}

#[cfg(test)]
mod tests {
    use super::*;
    use rnix::Root;

    fn nodes(text: &str) -> impl Iterator<Item = SyntaxNode> {
        Root::parse(text).syntax().descendants()
    }

    // The function and the arguments of each path in a text.
    fn loads(text: &str) -> Vec<(Loader, Vec<String>)> {
        let loads = nodes(text)
            .filter(crate::paths::is_path)
            .filter_map(|path| load_of(&path));
        let names = |load: &Apply| arguments_of(load).iter().map(SyntaxNode::to_string).collect();
        loads.map(|(loader, load)| (loader, names(&load))).collect()
    }

    #[test]
    fn calls_that_load_files_are_found_with_their_arguments() {
        let names = |names: &[&str]| names.iter().map(|name| (*name).to_owned()).collect::<Vec<_>>();
        for (text, loader, wanted) in [
            ("import ./a.nix", Loader::Import, names(&[])),
            (
                "import ./a.nix { a = 1; b.c = 2; inherit d; }",
                Loader::Import,
                names(&["a", "b", "d"]),
            ),
            ("(builtins.import (./a.nix)) x", Loader::Import, names(&[])),
            (
                "(pkgs.callPackage ./a.nix) ({ a = 1; } // x)",
                Loader::CallPackage,
                names(&["a"]),
            ),
            (
                "callPackage <a> ({ a = 1; } // rec { b = 2; })",
                Loader::CallPackage,
                names(&["a", "b"]),
            ),
        ] {
            assert_eq!(loads(text), [(loader, wanted)], "{text}");
        }
        for text in [
            "f ./a.nix",
            "[ import ./a.nix ]",
            "x.import ./a.nix",
            "import x ./a.nix",
            "(x.callPackage or y) ./a.nix",
        ] {
            assert_eq!(loads(text), [], "{text}");
        }
    }

    // The paths to which the names of the entries in a text are passed.
    fn passed(text: &str) -> Vec<String> {
        let names = nodes(text).filter(|node| node.kind() == SyntaxKind::NODE_IDENT);
        let paths = names.filter_map(|name| passed_to(&name));
        paths.map(|path| path.to_string()).collect()
    }

    #[test]
    fn the_names_of_arguments_lead_to_the_files() {
        assert_eq!(passed("import ./a.nix { a.b = c; inherit d; }"), ["./a.nix", "./a.nix"]);
        assert_eq!(passed("x.callPackage ./a.nix (y // { a = { b = 1; }; })"), ["./a.nix"]);
        assert_eq!(passed("f { a = import ./a.nix; }"), [""; 0]);
        assert_eq!(passed("import ./a.nix [ { a = 1; } ]"), [""; 0]);
    }
}
