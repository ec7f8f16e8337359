//! What may come where the cursor is.

use crate::analysis::{name_text, Analysis};
use rnix::ast::{Attrpath, Expr, Inherit};
use rnix::syntax::ast::AstNode as _;
use rnix::{SyntaxKind, SyntaxNode, SyntaxToken, TextRange, TextSize};

/// What may come where the cursor is.
pub enum Place {
    /// The name of a scope, or an expression.
    Name(Scoped),
    /// A name that an `inherit` takes from an expression.
    Inherited(SyntaxNode),
    /// An attribute of an expression, after the names of a path.
    Attribute(SyntaxNode, Vec<String>),
    /// The name of an entry in a node, after the names of a path.
    Key(SyntaxNode, Vec<String>),
}

/// Where names of scopes may come.
pub struct Scoped {
    /// The end of the item before the name.
    pub after: TextSize,
    /// The `inherit` that the name is in.
    pub inherit: Option<SyntaxNode>,
    /// The keywords that may come too.
    pub words: Words,
}

/// Which keywords may come at a place.
#[derive(Clone, Copy, Debug, PartialEq, Eq)]
pub enum Words {
    /// Those with which an expression begins.
    First,
    /// Those that come after an expression.
    Next,
    /// None.
    Neither,
}

impl Scoped {
    // The place before the first token of a text.
    fn first() -> Scoped {
        Scoped {
            after: TextSize::new(0),
            inherit: None,
            words: Words::First,
        }
    }
}

// Whether a token is a name, or a keyword that may become one.
fn is_word(token: &SyntaxToken) -> bool {
    let first = token.text().chars().next();
    !is_opaque(token.kind()) && first.is_some_and(|c| c.is_ascii_alphabetic() || c == '_')
}

// Whether no name may come in a token of a kind, or at its end.
fn is_opaque(kind: SyntaxKind) -> bool {
    use SyntaxKind::*;
    matches!(
        kind,
        TOKEN_COMMENT
            | TOKEN_STRING_START
            | TOKEN_STRING_CONTENT
            | TOKEN_URI
            | TOKEN_INTEGER
            | TOKEN_FLOAT
            | TOKEN_ERROR
    ) || matches!(
        kind,
        TOKEN_PATH_ABS | TOKEN_PATH_REL | TOKEN_PATH_HOME | TOKEN_PATH_SEARCH
    )
}

// The last item before a token.
fn item_before(token: &SyntaxToken) -> Option<SyntaxToken> {
    let mut before = token.prev_token();
    while let Some(token) = before.as_ref().filter(|token| token.kind().is_trivia()) {
        before = token.prev_token();
    }
    before
}

// Whether no expression comes after an item.
fn leads_to_key(item: &SyntaxToken) -> bool {
    use SyntaxKind::*;
    let parent = item.parent().map(|parent| parent.kind());
    match item.kind() {
        TOKEN_DOT => true,
        TOKEN_QUESTION => parent != Some(NODE_PAT_ENTRY),
        TOKEN_L_BRACE => parent != Some(NODE_DYNAMIC),
        TOKEN_LET => true,
        TOKEN_SEMICOLON => !matches!(parent, Some(NODE_WITH | NODE_ASSERT)),
        TOKEN_COMMA | TOKEN_AT => true,
        _ => false,
    }
}

// Whether an expression comes after an item, such as an operator or a keyword, and not an argument that may also be missing.
fn leads_to_expr(item: &SyntaxToken) -> bool {
    use SyntaxKind::*;
    let is_end = matches!(
        item.kind(),
        TOKEN_R_BRACE | TOKEN_R_BRACK | TOKEN_R_PAREN | TOKEN_STRING_END | TOKEN_INTERPOL_END
    );
    let is_part = matches!(item.kind(), TOKEN_IDENT | TOKEN_REC | TOKEN_OR | TOKEN_CUR_POS);
    !is_end && !is_part && !is_opaque(item.kind())
}

// Whether a token is an element of a list, or between them.
fn is_in_list(token: &SyntaxToken) -> bool {
    let parent = token.parent();
    let node = parent
        .filter(|parent| parent.kind() != SyntaxKind::NODE_IDENT)
        .or_else(|| token.parent()?.parent());
    let is_end = token.kind() == SyntaxKind::TOKEN_R_BRACK;
    node.is_some_and(|node| node.kind() == SyntaxKind::NODE_LIST) && !is_end
}

// The keywords that may come after an item, where a token is.
fn words_after(item: Option<&SyntaxToken>, token: &SyntaxToken, inherit: Option<&Inherit>) -> Words {
    if inherit.is_some() || is_in_list(token) {
        Words::Neither
    } else if item.map_or(true, leads_to_expr) {
        Words::First
    } else {
        Words::Next
    }
}

// Whether a name is where it is bound, or an attribute.
fn is_key(word: &SyntaxToken) -> bool {
    use SyntaxKind::*;
    let around = word.parent().and_then(|node| node.parent()).map(|node| node.kind());
    let is_name = word.kind() == TOKEN_IDENT;
    is_name
        && matches!(
            around,
            Some(NODE_ATTRPATH | NODE_PAT_ENTRY | NODE_IDENT_PARAM | NODE_PAT_BIND | NODE_PATTERN)
        )
}

// The `inherit` that a token is in: as one of its names, between them, or at the end of what it takes them from.
fn inherit_around(token: &SyntaxToken) -> Option<Inherit> {
    let parent = token.parent()?;
    let node = match (parent.kind(), token.kind()) {
        (SyntaxKind::NODE_IDENT, _) | (SyntaxKind::NODE_INHERIT_FROM, SyntaxKind::TOKEN_R_PAREN) => parent.parent()?,
        _ => parent,
    };
    let is_end = token.kind() == SyntaxKind::TOKEN_SEMICOLON;
    Inherit::cast(node).filter(|_| !is_end)
}

// What comes after a dot: an attribute of what is before it, or the name of an entry.
fn after_dot(dot: &SyntaxToken) -> Option<Place> {
    let before = item_before(dot)?.parent()?;
    let Some(path) = before.parent().and_then(Attrpath::cast) else {
        return Expr::can_cast(before.kind()).then(|| Place::Attribute(before, Vec::new()));
    };
    let attrs = path.attrs().map(|attr| attr.syntax().clone());
    let names = attrs.take_while(|attr| attr.text_range().end() <= dot.text_range().start());
    let names: Vec<String> = names.map(|attr| name_text(&attr)).collect();
    let owner = path.syntax().parent()?;
    match owner.kind() {
        SyntaxKind::NODE_SELECT | SyntaxKind::NODE_HAS_ATTR => {
            let base = owner.first_child().filter(|base| base != path.syntax())?;
            Some(Place::Attribute(base, names))
        }
        SyntaxKind::NODE_ATTRPATH_VALUE => Some(Place::Key(owner.parent()?, names)),
        _ => None,
    }
}

// The set or the `let` in which an entry comes after an item.
fn entries_after(item: &SyntaxToken) -> Option<SyntaxNode> {
    use SyntaxKind::*;
    let parent = item.parent()?;
    match (item.kind(), parent.kind()) {
        (TOKEN_L_BRACE, NODE_ATTR_SET | NODE_LEGACY_LET) | (TOKEN_LET, NODE_LET_IN) => Some(parent),
        (TOKEN_SEMICOLON, NODE_ATTRPATH_VALUE | NODE_INHERIT) => parent.parent(),
        // A brace with one name after it is read as a pattern.
        (TOKEN_L_BRACE, NODE_PATTERN) if is_unfinished(&parent) => Some(parent),
        _ => None,
    }
}

// Whether a pattern has one name, and no `:` comes after it.
fn is_unfinished(pattern: &SyntaxNode) -> bool {
    let lambda = pattern.parent();
    let mut around = lambda.iter().flat_map(SyntaxNode::children_with_tokens);
    let has_colon = around.any(|child| child.kind() == SyntaxKind::TOKEN_COLON);
    let mut own = pattern.children_with_tokens();
    let has_more = own.any(|child| matches!(child.kind(), SyntaxKind::TOKEN_COMMA | SyntaxKind::TOKEN_ELLIPSIS));
    !has_colon && !has_more
}

// What comes after an item that no expression follows.
fn key_after(item: &SyntaxToken) -> Option<Place> {
    use SyntaxKind::*;
    match item.kind() {
        TOKEN_DOT => after_dot(item),
        TOKEN_QUESTION => {
            let base = item
                .parent()
                .filter(|parent| parent.kind() == NODE_HAS_ATTR)?
                .first_child()?;
            Some(Place::Attribute(base, Vec::new()))
        }
        _ => entries_after(item).map(|node| Place::Key(node, Vec::new())),
    }
}

/// Returns what may come at an offset, and the range of what has been typed of it.
pub fn place_at(analysis: &Analysis, offset: TextSize) -> Option<(Place, TextRange)> {
    let left = analysis
        .tokens_at(offset)
        .next()
        .filter(|token| token.text_range().start() < offset);
    let Some(left) = left else {
        return Some((Place::Name(Scoped::first()), TextRange::empty(offset)));
    };
    if is_opaque(left.kind()) || (left.kind() == SyntaxKind::TOKEN_STRING_END && offset < left.text_range().end()) {
        return None;
    }
    let is_typed = is_word(&left);
    let start = if is_typed { left.text_range().start() } else { offset };
    let is_before = is_typed || left.kind().is_trivia();
    let before = if is_before {
        item_before(&left)
    } else {
        Some(left.clone())
    };
    let word = TextRange::new(start, offset);
    if let Some(item) = before.as_ref().filter(|item| leads_to_key(item)) {
        return Some((key_after(item)?, word));
    }
    if is_typed && is_key(&left) {
        return None;
    }
    let inherit = inherit_around(&left).or_else(|| before.as_ref().and_then(inherit_around));
    if let Some(from) = inherit.as_ref().and_then(Inherit::from) {
        return Some((Place::Inherited(from.expr()?.syntax().clone()), word));
    }
    let scoped = Scoped {
        after: before
            .as_ref()
            .map_or(TextSize::new(0), |token| token.text_range().end()),
        words: words_after(before.as_ref(), &left, inherit.as_ref()),
        inherit: inherit.map(|inherit| inherit.syntax().clone()),
    };
    Some((Place::Name(scoped), word))
}
