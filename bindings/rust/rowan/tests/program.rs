//! A program that uses rowan beside rnix, as it is written for the published crates.

use rnix::ast::{self, AstToken, Expr, HasEntry};
use rnix::{match_ast, NixLanguage, Root, SyntaxKind, SyntaxNode};
use rowan::ast::{support, AstChildren, AstNode, AstPtr};
use rowan::{Direction, NodeOrToken, TextLen, TextRange, TextSize, WalkEvent};

type SyntaxNodePtr = rowan::ast::SyntaxNodePtr<NixLanguage>;
type Preorder = rowan::api::Preorder<NixLanguage>;

/// A call of `import`.
#[derive(Clone, Debug, PartialEq, Eq, Hash)]
struct Import(SyntaxNode);

impl AstNode for Import {
    type Language = NixLanguage;

    fn can_cast(kind: SyntaxKind) -> bool {
        kind == SyntaxKind::NODE_APPLY
    }

    fn cast(node: rowan::SyntaxNode<NixLanguage>) -> Option<Import> {
        let call = ast::Apply::cast(node)?;
        let function = call.lambda()?;
        (function.syntax().text() == "import").then(|| Import(call.syntax().clone()))
    }

    fn syntax(&self) -> &rowan::SyntaxNode<NixLanguage> {
        &self.0
    }
}

impl Import {
    fn path(&self) -> Option<ast::Path> {
        support::child(&self.0)
    }

    fn operands(&self) -> AstChildren<Expr> {
        support::children(&self.0)
    }
}

#[test]
fn programs_define_typed_nodes() {
    let root = Root::parse("{ a = import ./b.nix; c = f ./d; }").syntax();
    let imports: Vec<Import> = root.descendants().filter_map(Import::cast).collect();
    assert_eq!(imports.len(), 1);
    assert_eq!(imports[0].path().unwrap().to_string(), "./b.nix");
    assert_eq!(imports[0].operands().count(), 2);
    let pointer: SyntaxNodePtr = AstPtr::new(&imports[0]).into();
    assert_eq!(pointer, SyntaxNodePtr::new(&imports[0].0));
    assert_eq!(pointer.cast::<Import>().unwrap().to_node(&root), imports[0]);
}

// The comment before a node.
fn comment_before(node: &SyntaxNode) -> Option<String> {
    node.siblings_with_tokens(Direction::Prev)
        .skip(1)
        .find_map(|element| match element {
            NodeOrToken::Token(token) => match_ast! {
                match token {
                    ast::Comment(comment) => Some(comment.text().trim().to_owned()),
                    _ => None,
                }
            },
            NodeOrToken::Node(_) => None,
        })
}

// The greatest depth of nodes in a walk, strings counted but not entered.
fn depth(mut walk: Preorder) -> usize {
    let (mut depth, mut greatest) = (0, 0);
    while let Some(event) = walk.next() {
        match event {
            WalkEvent::Enter(node) => {
                depth += 1;
                greatest = greatest.max(depth);
                if node.kind() == SyntaxKind::NODE_STRING {
                    walk.skip_subtree();
                }
            }
            WalkEvent::Leave(_) => depth -= 1,
        }
    }
    greatest
}

#[test]
fn walks_and_siblings_have_the_names_of_rowan() {
    let root = Root::parse("# first\n{ a = \"${b.c.d}\"; inherit e; }").tree();
    let Some(Expr::AttrSet(set)) = root.expr() else {
        panic!()
    };
    assert_eq!(comment_before(set.syntax()).as_deref(), Some("first"));
    assert_eq!(depth(root.syntax().preorder()), 5);
    let entries = set
        .syntax()
        .children()
        .by_kind(|kind| kind == SyntaxKind::NODE_ATTRPATH_VALUE);
    assert_eq!(entries.count(), set.attrpath_values().count());
    let alone = set.syntax().clone_subtree();
    assert_eq!(alone.text(), set.syntax().text());
    assert_eq!(alone.text_range(), TextRange::up_to(set.syntax().text_range().len()));
    let kinds =
        |node: &SyntaxNode| -> Vec<_> { node.descendants_with_tokens().map(|element| element.kind()).collect() };
    assert_eq!(kinds(&alone), kinds(set.syntax()));
    assert!(alone
        .descendants()
        .all(|node| node.ancestors().last() == Some(alone.clone())));
}

#[test]
fn sizes_and_ranges_have_their_operators() {
    let text = String::from("aä\nb");
    let mut size = TextSize::of(&text);
    assert_eq!(size, text.chars().map(TextSize::of).sum());
    assert_eq!(size, text.as_str().text_len());
    size -= TextSize::of('b');
    assert_eq!(&text[TextRange::up_to(size)], "aä\n");
    let mut range = TextRange::at(1.into(), 2.into());
    range += &TextSize::from(1);
    range -= TextSize::from(1);
    assert_eq!(&text[range], "ä");
    assert_eq!(std::ops::Range::<usize>::from(range), 1..3);
}
