//! What programs do with trees, and may rely on.

use rnix::ast::{self, Attr, BinOpKind, Entry, Expr, HasEntry, InterpolPart, LiteralKind, Param};
use rnix::syntax::ast::{support, AstNode};
use rnix::SyntaxKind::{self, *};
use rnix::{
    match_ast, AstPtr, ElementRef, NodeOrToken, ParseError, Root, SyntaxElement, SyntaxNode, SyntaxNodePtr,
    SyntaxToken, TextRange, TextSize, WalkEvent, T,
};
use std::collections::HashSet;
use std::thread;

fn shared_by_threads<T: Send + Sync + 'static>() {}

#[test]
fn nodes_go_between_threads() {
    shared_by_threads::<SyntaxNode>();
    shared_by_threads::<SyntaxToken>();
    shared_by_threads::<ast::Expr>();
    shared_by_threads::<ElementRef<'static>>();
    shared_by_threads::<ParseError>();
    shared_by_threads::<rnix::Parse<Root>>();
    let body = Root::parse("a: b").tree().expr().unwrap();
    assert_eq!(thread::spawn(move || body.to_string()).join().unwrap(), "a: b");
}

fn range(start: u32, end: u32) -> TextRange {
    TextRange::new(start.into(), end.into())
}

#[test]
fn errors_are_those_of_rnix() {
    let errors = |text| Root::parse(text).errors().to_vec();
    let operand = [
        TOKEN_L_PAREN,
        TOKEN_REC,
        TOKEN_L_BRACE,
        TOKEN_L_BRACK,
        TOKEN_STRING_START,
        TOKEN_IDENT,
    ];
    assert_eq!(
        errors("a (b"),
        [ParseError::UnexpectedEOFWanted([TOKEN_R_PAREN].into())]
    );
    assert_eq!(
        errors("( ) a)"),
        [ParseError::UnexpectedWanted(TOKEN_R_PAREN, range(2, 3), operand.into())]
    );
    assert_eq!(
        errors("{ a, a }: a"),
        [ParseError::DuplicatedArgs(range(5, 6), "a".into())]
    );
    assert_eq!(errors("a)"), [ParseError::UnexpectedExtra(range(1, 2))]);
    assert_eq!(errors(""), [ParseError::UnexpectedEOF]);
    assert_eq!(
        Root::parse("()").ok().unwrap_err().to_string(),
        errors("()")[0].to_string()
    );
    assert_eq!(
        errors("{ a.")[0].to_string(),
        "unexpected end of file, wanted any of [TOKEN_IDENT, TOKEN_OR, TOKEN_CUR_POS]"
    );
}

#[test]
fn methods_do_what_those_of_rowan_do() {
    let root = Root::parse("let a = 1; in a + 2").syntax();
    let token = root.token_at_offset(14.into()).right_biased().unwrap();
    assert_eq!(
        (token.text(), token.kind(), token.text_range()),
        ("a", TOKEN_IDENT, range(14, 15))
    );
    let around: Vec<_> = token.parent_ancestors().map(|node| node.kind()).collect();
    assert_eq!(around, [NODE_IDENT, NODE_BIN_OP, NODE_LET_IN, NODE_ROOT]);
    let sum = token.parent().unwrap().parent().unwrap();
    assert_eq!(sum.ancestors().next().unwrap(), sum);
    assert_eq!(root.covering_element(range(14, 17)).kind(), NODE_BIN_OP);
    assert_eq!(sum.first_child().unwrap().next_sibling().unwrap().kind(), NODE_LITERAL);
    assert_eq!(
        sum.first_child_or_token_by_kind(&|kind| kind == T![+])
            .unwrap()
            .text_range(),
        range(16, 17)
    );
    assert_eq!(sum.text().slice(TextSize::new(2)..).to_string(), "+ 2");
    assert_eq!(
        format!("{sum:?} {token:?}"),
        "NODE_BIN_OP@14..19 TOKEN_IDENT@14..15 \"a\""
    );
    let mut walk = root.preorder();
    let entered = std::iter::from_fn(|| walk.next())
        .filter(|event| matches!(event, WalkEvent::Enter(_)))
        .count();
    assert_eq!(entered, root.descendants().count());
    assert_eq!(
        format!("{:#?}", Root::parse("a").syntax()),
        "NODE_ROOT@0..1\n  NODE_IDENT@0..1\n    TOKEN_IDENT@0..1 \"a\"\n"
    );
}

// The steps of a walk, by recursion over children.
fn walked(element: SyntaxElement, steps: &mut Vec<WalkEvent<SyntaxElement>>) {
    steps.push(WalkEvent::Enter(element.clone()));
    if let NodeOrToken::Node(node) = &element {
        node.children_with_tokens().for_each(|child| walked(child, steps));
    }
    steps.push(WalkEvent::Leave(element));
}

#[test]
fn all_walks_visit_the_elements_of_a_subtree() {
    for text in ["", "a", "[", "let a = [ ]; in { b = ''c${a}''; # d\n }", "(a: -b) (c"] {
        for root in Root::parse(text).syntax().descendants() {
            let mut steps = Vec::new();
            walked(root.clone().into(), &mut steps);
            assert_eq!(root.preorder_with_tokens().collect::<Vec<_>>(), steps);
            let in_nodes = |step: WalkEvent<SyntaxElement>| match step {
                WalkEvent::Enter(element) => element.into_node().map(WalkEvent::Enter),
                WalkEvent::Leave(element) => element.into_node().map(WalkEvent::Leave),
            };
            let of_nodes: Vec<_> = steps.iter().cloned().filter_map(in_nodes).collect();
            assert_eq!(root.preorder().collect::<Vec<_>>(), of_nodes);
            let entered = |step| match step {
                WalkEvent::Enter(element) => Some(element),
                WalkEvent::Leave(_) => None,
            };
            let elements: Vec<_> = steps.into_iter().filter_map(entered).collect();
            assert_eq!(root.descendants_with_tokens().collect::<Vec<_>>(), elements);
            let mut lent = Vec::new();
            root.for_each_element(|element| lent.push(element.clone()));
            assert_eq!(lent, elements);
            borrowed_walks_agree(&root, &elements);
        }
    }
}

// The borrowed walks visit the elements that the owned ones do, and by_kind the same as a filter.
fn borrowed_walks_agree(root: &SyntaxNode, elements: &[SyntaxElement]) {
    let borrowed = root.elements();
    assert_eq!(borrowed.len(), elements.len());
    assert_eq!(
        borrowed.clone().map(|one| one.to_element()).collect::<Vec<_>>(),
        elements
    );
    let backwards: Vec<_> = borrowed.clone().rev().map(|one| one.to_element()).collect();
    assert!(backwards.iter().eq(elements.iter().rev()));
    assert_eq!(borrowed.clone().nth(1), elements.get(1).map(SyntaxElement::element_ref));
    let steps = root.preorder_ref().map(|step| step.map(ElementRef::to_element));
    assert!(steps.eq(root.preorder_with_tokens()));
    let is_name = |kind| matches!(kind, NODE_IDENT | TOKEN_IDENT);
    let named: Vec<_> = root.descendants_with_tokens().by_kind(is_name).collect();
    assert!(named.iter().eq(elements.iter().filter(|one| is_name(one.kind()))));
    let names: Vec<ast::Ident> = borrowed.filter_map(ElementRef::cast).collect();
    assert!(names
        .iter()
        .map(AstNode::syntax)
        .eq(&root.descendants().by_kind(is_name).collect::<Vec<_>>()));
}

#[test]
fn borrowed_elements_are_as_owned_ones() {
    let root = Root::parse("let a = [ ]; in { b = ''c${a}''; /* a long comment of it */ } (").syntax();
    for element in root.descendants_with_tokens() {
        let borrowed = element.element_ref();
        assert_eq!(borrowed.to_element(), element);
        assert_eq!(
            (borrowed.kind(), borrowed.text_range()),
            (element.kind(), element.text_range())
        );
        assert_eq!(borrowed.index(), element.index());
        assert_eq!(borrowed.parent().and_then(ElementRef::to_node), element.parent());
        assert_eq!(borrowed.text(), element.to_string());
        assert_eq!(
            (borrowed.to_node(), borrowed.to_token()),
            match &element {
                NodeOrToken::Node(node) => (Some(node.clone()), None),
                NodeOrToken::Token(token) => (None, Some(token.clone())),
            }
        );
        let shown = match &element {
            NodeOrToken::Node(node) => format!("{node} {node:?}"),
            NodeOrToken::Token(token) => format!("{token} {token:?}"),
        };
        assert_eq!(format!("{borrowed} {borrowed:?}"), shown);
        let children = element
            .as_node()
            .map(|node| node.children_with_tokens().collect::<Vec<_>>());
        let borrowed_children: Vec<_> = borrowed.children().map(ElementRef::to_element).collect();
        assert_eq!(borrowed_children, children.unwrap_or_default());
        assert_eq!(
            borrowed.ancestors().skip(1).count(),
            borrowed.parent().map_or(0, |one| one.ancestors().count())
        );
    }
    let kinds = root.elements().map(ElementRef::kind).collect::<HashSet<_>>();
    assert!(kinds.contains(&NODE_STRING) && kinds.contains(&TOKEN_COMMENT));
    assert_eq!(root.elements().collect::<HashSet<_>>().len(), root.elements().len());
    assert_ne!(
        Root::parse("a").syntax().element_ref(),
        Root::parse("a").syntax().element_ref()
    );
}

#[test]
fn a_skipped_subtree_is_left_at_once() {
    let root = Root::parse("[ a (b) ]").syntax();
    let list = root.first_child().unwrap();
    let mut walk = root.preorder_with_tokens();
    assert_eq!(walk.by_ref().nth(1), Some(WalkEvent::Enter(list.clone().into())));
    walk.skip_subtree();
    let rest: Vec<_> = walk.collect();
    assert_eq!(
        rest,
        [WalkEvent::Leave(list.into()), WalkEvent::Leave(root.clone().into())]
    );
    let mut walk = root.preorder_ref();
    assert_eq!(
        walk.by_ref().nth(1).unwrap().map(ElementRef::kind),
        WalkEvent::Enter(NODE_LIST)
    );
    walk.skip_subtree();
    let left: Vec<_> = walk.map(|step| step.map(ElementRef::kind)).collect();
    assert_eq!(left, [WalkEvent::Leave(NODE_LIST), WalkEvent::Leave(NODE_ROOT)]);
}

#[test]
fn long_tokens_are_shown_in_part() {
    let long = Root::parse("abcdefghijklmnopqrstuvwxyz")
        .syntax()
        .first_token()
        .unwrap();
    assert_eq!(format!("{long:?}"), "TOKEN_IDENT@0..26 \"abcdefghijklmnopqrstu ...\"");
}

#[test]
fn typed_nodes_find_their_parts() {
    let Some(Expr::Lambda(function)) = Root::parse("{ a, b ? 1, ... } @ c: rec { x.${y} = a; inherit (d) z; }")
        .tree()
        .expr()
    else {
        panic!()
    };
    let Some(Param::Pattern(pattern)) = function.param() else {
        panic!()
    };
    let names: Vec<_> = pattern
        .pat_entries()
        .map(|entry| entry.ident().unwrap().to_string())
        .collect();
    assert_eq!(names, ["a", "b"]);
    assert_eq!(
        pattern.pat_entries().nth(1).unwrap().default().unwrap().to_string(),
        "1"
    );
    assert!(pattern.ellipsis_token().is_some() && pattern.pat_bind().is_some());
    let Some(Expr::AttrSet(set)) = function.body() else {
        panic!()
    };
    assert!(set.rec_token().is_some());
    let entry = set.attrpath_values().next().unwrap();
    let attrs: Vec<Attr> = entry.attrpath().unwrap().attrs().collect();
    assert!(matches!(&attrs[..], [Attr::Ident(_), Attr::Dynamic(_)]));
    let Some(Entry::Inherit(inherit)) = set.entries().nth(1) else {
        panic!()
    };
    assert_eq!(inherit.from().unwrap().expr().unwrap().to_string(), "d");
    assert_eq!(set.inherits().next(), Some(inherit));
    let Some(Expr::BinOp(sum)) = Root::parse("1.5 ++ 2").tree().expr() else {
        panic!()
    };
    assert_eq!(sum.operator(), Some(BinOpKind::Concat));
    let Some(Expr::Literal(number)) = sum.lhs() else {
        panic!()
    };
    let LiteralKind::Float(number) = number.kind() else {
        panic!()
    };
    assert_eq!(number.value(), Ok(1.5));
    assert_eq!(ast::BinOp::try_from(sum.rhs().unwrap()), Err(()));
    assert_eq!(support::token(sum.syntax(), T![++]).unwrap().text(), "++");
}

#[test]
fn strings_and_paths_have_parts() {
    let Some(Expr::Str(string)) = Root::parse("let x = ''\n  a\n    ${b}c\\n\n''; in x")
        .syntax()
        .descendants()
        .find_map(Expr::cast_str)
    else {
        panic!()
    };
    let parts = string.normalized_parts();
    assert_eq!(parts[0], InterpolPart::Literal("a\n  ".into()));
    assert_eq!(parts[2], InterpolPart::Literal("c\\n\n".into()));
    let InterpolPart::Interpolation(interpol) = &parts[1] else {
        panic!()
    };
    assert_eq!(interpol.expr().unwrap().to_string(), "b");
    assert_eq!(string.parts().count(), 3);
    let Some(Expr::PathRel(path)) = Root::parse("./a/${b}.nix").tree().expr() else {
        panic!()
    };
    assert_eq!(path.parts().len(), 3);
    let path = ast::Path::cast(path.syntax().clone()).unwrap();
    assert!(path.is_interpolatable() && !path.is_search());
}

#[test]
fn strings_with_errors_have_the_parts_of_their_nodes() {
    let root = Root::parse("\"a${b}c${\"d${}f\"}g\"").syntax();
    let inner = root.descendants().filter_map(ast::Str::cast).nth(1).unwrap();
    let parts = inner.normalized_parts();
    assert_eq!(
        (&parts[0], &parts[2]),
        (&InterpolPart::Literal("d".into()), &InterpolPart::Literal("g".into()))
    );
}

// Casts strings to expressions.
trait CastStr: Sized {
    fn cast_str(node: SyntaxNode) -> Option<Self>;
}

impl CastStr for Expr {
    fn cast_str(node: SyntaxNode) -> Option<Expr> {
        ast::Str::cast(node).map(Expr::Str)
    }
}

#[test]
fn pointers_find_their_nodes_again() {
    let text = "[ (a) ((a)) { b = a; } ]";
    let (root, other) = (Root::parse(text).syntax(), Root::parse(text).syntax());
    for node in root.descendants() {
        let pointer = SyntaxNodePtr::new(&node);
        assert_eq!(pointer.to_node(&root), node);
        assert_eq!(pointer.to_node(&other).text_range(), node.text_range());
        assert_ne!(pointer.to_node(&other), node);
        if let Some(name) = ast::Ident::cast(node) {
            assert_eq!(AstPtr::new(&name).to_node(&root), name);
        }
    }
    assert!(SyntaxNodePtr::new(&root.last_child().unwrap())
        .try_to_node(&Root::parse("a").syntax())
        .is_none());
}

#[test]
// Neither equality nor hashes of nodes look at what changes in a tree.
#[allow(clippy::mutable_key_type)]
fn nodes_are_equal_in_one_tree() {
    let parse = Root::parse("a a");
    assert_eq!(parse.syntax(), parse.clone().syntax());
    let names: HashSet<_> = parse.syntax().descendants().filter_map(ast::Ident::cast).collect();
    assert_eq!(names.len(), 2);
}

#[test]
fn kinds_are_matched() {
    let of_root = |text| {
        let node = Root::parse(text).tree().expr().unwrap().syntax().clone();
        match_ast! {
            match node {
                ast::Apply(call) => call.argument().map(|argument| argument.to_string()),
                ast::Ident(name) => Some(name.to_string()),
                _ => None,
            }
        }
    };
    assert_eq!(
        (of_root("f x"), of_root("y"), of_root("1")),
        (Some("x".into()), Some("y".into()), None)
    );
    assert_eq!(
        (T!['{'], T!["//"], T![TOKEN_URI]),
        (TOKEN_L_BRACE, TOKEN_UPDATE, TOKEN_URI)
    );
    assert_eq!("NODE_ROOT".parse::<SyntaxKind>(), Ok(NODE_ROOT));
    assert!("node_root".parse::<SyntaxKind>().is_err());
}

#[test]
fn a_megabyte_of_parentheses_is_read() {
    let text = "(".repeat(1 << 20);
    let parse = Root::parse(&text);
    assert!(parse.errors().contains(&ParseError::RecursionLimitExceeded));
    assert_eq!(parse.syntax().text(), text.as_str());
}

#[test]
fn four_threads_read_at_once() {
    let text = "{ a = [ 1 (b: c.d or e) \"x${y}\" ]; }".repeat(50);
    let wanted = format!("{:#?}", Root::parse(&text).syntax());
    thread::scope(|scope| {
        for _ in 0..4 {
            scope.spawn(|| {
                for _ in 0..50 {
                    assert_eq!(format!("{:#?}", Root::parse(&text).syntax()), wanted);
                }
            });
        }
    });
}
