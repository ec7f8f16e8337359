//! The macros `T!` and `match_ast!`.

/// The kind of a keyword or punctuation token, such as `T![let]` or `T!['{']`, or a kind by its name.
#[macro_export]
#[rustfmt::skip]
macro_rules! T {
    (assert) => { $crate::SyntaxKind::TOKEN_ASSERT };
    (else) => { $crate::SyntaxKind::TOKEN_ELSE };
    (if) => { $crate::SyntaxKind::TOKEN_IF };
    (in) => { $crate::SyntaxKind::TOKEN_IN };
    (inherit) => { $crate::SyntaxKind::TOKEN_INHERIT };
    (let) => { $crate::SyntaxKind::TOKEN_LET };
    (or) => { $crate::SyntaxKind::TOKEN_OR };
    (rec) => { $crate::SyntaxKind::TOKEN_REC };
    (then) => { $crate::SyntaxKind::TOKEN_THEN };
    (with) => { $crate::SyntaxKind::TOKEN_WITH };
    (__curPos) => { $crate::SyntaxKind::TOKEN_CUR_POS };
    ('{') => { $crate::SyntaxKind::TOKEN_L_BRACE };
    ('}') => { $crate::SyntaxKind::TOKEN_R_BRACE };
    ('[') => { $crate::SyntaxKind::TOKEN_L_BRACK };
    (']') => { $crate::SyntaxKind::TOKEN_R_BRACK };
    ('(') => { $crate::SyntaxKind::TOKEN_L_PAREN };
    (')') => { $crate::SyntaxKind::TOKEN_R_PAREN };
    (=) => { $crate::SyntaxKind::TOKEN_ASSIGN };
    (@) => { $crate::SyntaxKind::TOKEN_AT };
    (:) => { $crate::SyntaxKind::TOKEN_COLON };
    (,) => { $crate::SyntaxKind::TOKEN_COMMA };
    (.) => { $crate::SyntaxKind::TOKEN_DOT };
    (...) => { $crate::SyntaxKind::TOKEN_ELLIPSIS };
    (?) => { $crate::SyntaxKind::TOKEN_QUESTION };
    (;) => { $crate::SyntaxKind::TOKEN_SEMICOLON };
    (++) => { $crate::SyntaxKind::TOKEN_CONCAT };
    (!) => { $crate::SyntaxKind::TOKEN_INVERT };
    ("//") => { $crate::SyntaxKind::TOKEN_UPDATE };
    (+) => { $crate::SyntaxKind::TOKEN_ADD };
    (-) => { $crate::SyntaxKind::TOKEN_SUB };
    (*) => { $crate::SyntaxKind::TOKEN_MUL };
    (/) => { $crate::SyntaxKind::TOKEN_DIV };
    (&&) => { $crate::SyntaxKind::TOKEN_AND_AND };
    (==) => { $crate::SyntaxKind::TOKEN_EQUAL };
    (->) => { $crate::SyntaxKind::TOKEN_IMPLICATION };
    (<) => { $crate::SyntaxKind::TOKEN_LESS };
    (<=) => { $crate::SyntaxKind::TOKEN_LESS_OR_EQ };
    (>) => { $crate::SyntaxKind::TOKEN_MORE };
    (>=) => { $crate::SyntaxKind::TOKEN_MORE_OR_EQ };
    (!=) => { $crate::SyntaxKind::TOKEN_NOT_EQUAL };
    (||) => { $crate::SyntaxKind::TOKEN_OR_OR };
    ("|>") => { $crate::SyntaxKind::TOKEN_PIPE_RIGHT };
    ("<|") => { $crate::SyntaxKind::TOKEN_PIPE_LEFT };
    ($kind:ident) => { $crate::SyntaxKind::$kind };
}

/// Matches a node or token against types of `ast`:
///
/// ```
/// use rnix::{ast, match_ast};
/// # use rnix::syntax::ast::AstNode;
/// # let node = rnix::Root::parse("a: b").tree().expr().unwrap().syntax().clone();
/// let is_function = match_ast! {
///     match node {
///         ast::Lambda(_function) => true,
///         _ => false,
///     }
/// };
/// # assert!(is_function);
/// ```
#[macro_export]
macro_rules! match_ast {
    (match $node:ident { $($arms:tt)* }) => { $crate::match_ast!(match ($node) { $($arms)* }) };
    (match ($node:expr) {
        $( ast::$name:ident($bound:pat) => $result:expr, )*
        _ => $otherwise:expr $(,)?
    }) => {{
        $( if let Some($bound) = ast::$name::cast($node.clone()) { $result } else )*
        { $otherwise }
    }};
}
