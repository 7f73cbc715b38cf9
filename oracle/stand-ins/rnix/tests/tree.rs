//! The tree hands out the sheet's nodes, by their places.

use rnix::{
    ast::{self, AstToken, HasEntry, InterpolPart},
    match_ast, NodeOrToken, Root, SyntaxNode, WalkEvent,
};
use rowan::ast::{AstNode, SyntaxNodePtr};

fn root(notation: &str) -> Root {
    Root::of_nodes(&sheet::short::parse(notation).unwrap())
}

/// Where a node starts, which in the notation is its number.
fn number(node: &SyntaxNode) -> u32 {
    node.text_range().start().into()
}

fn at(node: Option<impl AstNode<Language = rnix::NixLanguage>>) -> Option<u32> {
    node.map(|node| number(node.syntax()))
}

#[test]
fn a_walk_enters_in_the_order_of_numbers_and_leaves_what_it_entered() {
    let (mut open, mut entered) = (Vec::new(), Vec::new());
    for event in root(r#"21(12(18"x",25(23(18"a"),9"1"),26(-,18"b")))"#).syntax().preorder_with_tokens() {
        match event {
            WalkEvent::Enter(NodeOrToken::Node(node)) => {
                entered.push(number(&node));
                open.push(node);
            }
            WalkEvent::Leave(NodeOrToken::Node(node)) => assert_eq!(open.pop(), Some(node)),
            other => panic!("a sheet has no token: {other:?}"),
        }
    }
    assert_eq!(entered, (0..9).collect::<Vec<_>>());
    assert!(open.is_empty());
}

#[test]
fn accessors_go_by_place() {
    // An absent kid doesn't move the ones after it up.
    let Some(ast::Expr::IfElse(if_else)) = root(r#"21(2(-,18"a",-))"#).expr() else { panic!() };
    assert_eq!((at(if_else.condition()), at(if_else.body()), at(if_else.else_body())), (None, Some(2), None));
    let Some(ast::Expr::Select(select)) = root(r#"21(3(-,-,18"a"))"#).expr() else { panic!() };
    assert_eq!((at(select.expr()), at(select.attrpath()), at(select.default_expr())), (None, None, Some(2)));
    let Some(ast::Expr::LetIn(let_in)) = root(r#"21(12(18"x",26(-,18"b"),25(-,18"v")))"#).expr() else { panic!() };
    let entries: Vec<_> = let_in.entries().collect();
    assert_eq!((at(let_in.body()), entries.len()), (Some(2), 2));
    let [ast::Entry::Inherit(inherit), ast::Entry::AttrpathValue(entry)] = &entries[..] else { panic!() };
    assert_eq!((at(inherit.from()), inherit.attrs().count(), at(entry.attrpath()), at(entry.value())), (None, 1, None, Some(6)));
}

#[test]
fn flags_decide_tokens_and_operators() {
    let ident = |notation| match root(notation).expr() {
        Some(ast::Expr::Ident(ident)) => ident.ident_token().map(|token| token.text().to_string()),
        _ => panic!(),
    };
    assert_eq!((ident(r#"21(18"\xe9")"#), ident(r#"21(18"")"#), ident("21(18)")), (Some("é".to_string()), Some(String::new()), None));
    let operator = |flag: u8| match root(&format!("21(14!{flag}(-,-))")).expr() {
        Some(ast::Expr::BinOp(bin_op)) => bin_op.operator(),
        _ => panic!(),
    };
    assert_eq!((operator(0), operator(1), operator(15)), (None, Some(ast::BinOpKind::Concat), Some(ast::BinOpKind::NotEqual)));
}

#[test]
fn parts_are_the_sheet_s() {
    let Some(ast::Expr::Path(path)) = root(r#"21(7"./a${x}"(32"./a",33(18"x")))"#).expr() else { panic!() };
    let parts: Vec<_> = path.parts().collect();
    let [InterpolPart::Literal(literal), InterpolPart::Interpolation(interpolation)] = &parts[..] else { panic!() };
    assert_eq!((literal.syntax().text(), at(interpolation.expr())), ("./a", Some(4)));
    assert_eq!(path.syntax().to_string(), "./a${x}");
}

#[test]
fn a_node_is_matched_by_its_view() {
    let node = root("21(10)").expr().unwrap().syntax().clone();
    let found = match_ast! {
        match node {
            ast::PatEntry(entry) => format!("entry {entry:?}"),
            ast::Expr(e) => format!("expression {:?}", e.syntax()),
            _ => String::new(),
        }
    };
    assert_eq!(found, "expression 10@1..2");
}

#[test]
fn pointers_are_triples_and_nodes_are_themselves() {
    let tree = r#"21(13(18@3..4"a",18@3..4"b",9@3..4"1"))"#;
    let Some(ast::Expr::List(list)) = root(tree).expr() else { panic!() };
    let nodes: Vec<SyntaxNode> = list.items().map(|item| item.syntax().clone()).collect();
    let pointers: Vec<_> = nodes.iter().map(SyntaxNodePtr::new).collect();
    assert!(pointers[0] == pointers[1] && pointers[1] != pointers[2]);
    assert!(nodes[0] != nodes[1] && nodes[0] == nodes[0].clone());
}

#[test]
fn what_is_no_sheet_gives_an_empty_tree() {
    assert!(Root::of_nodes(&[]).expr().is_none());
    assert!(Root::parse("x: x").tree().expr().is_none());
}
