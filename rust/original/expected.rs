//! What is expected of the library where it differs from the original on purpose: a table closes a cell that is still open.

use rowan::ast::AstNode;
use rowan::{GreenNode, GreenToken, NodeOrToken};

use crate::mitex_spec::{CommandSpec, ContextFeature};
use crate::syntax::SyntaxKind::ItemNewLine;
use crate::syntax::{EnvItem, SyntaxNode};

/// The tree with one more `\\` at the end of each table, as a token without text. There the original closes a cell, or writes an
/// empty one.
pub fn with_new_lines(node: &SyntaxNode, spec: &CommandSpec) -> GreenNode {
    let mut children = Vec::new();
    for child in node.children_with_tokens() {
        children.push(match child {
            NodeOrToken::Node(inner) => NodeOrToken::Node(with_new_lines(&inner, spec)),
            NodeOrToken::Token(token) => NodeOrToken::Token(token.green().to_owned()),
        });
    }
    if is_table(node, spec) {
        let new_line = GreenToken::new(ItemNewLine.into(), "");
        children.push(NodeOrToken::Token(new_line));
    }
    GreenNode::new(node.kind().into(), children)
}

fn is_table(node: &SyntaxNode, spec: &CommandSpec) -> bool {
    let name = EnvItem::cast(node.clone()).and_then(|env| env.name_tok());
    let shape = name.and_then(|name| spec.get_env(name.text().trim()));
    shape.is_some_and(|shape| matches!(shape.ctx_feature, ContextFeature::IsTable))
}

/// The text with `],` and a line feed put in before each `);` where the text of the longer tables has them, and how many times.
/// `None` where the two differ in anything but such an end of a cell, or an empty cell and its end, each before a `);`.
pub fn closed(text: &str, longer: &str) -> Option<(String, usize)> {
    let (mut closed, mut cells) = (String::new(), 0);
    let (mut text, mut longer) = (text, longer);
    loop {
        let same = common(text, longer);
        closed.push_str(&text[..same]);
        (text, longer) = (&text[same..], &longer[same..]);
        if text.is_empty() && longer.is_empty() {
            return Some((closed, cells));
        }
        if let Some(rest) = longer.strip_prefix("],\n") {
            closed.push_str("],\n");
            cells += 1;
            longer = rest;
        } else {
            longer = longer.strip_prefix("[],\n")?;
        }
        if !text.starts_with(");") || !longer.starts_with(");") {
            return None;
        }
    }
}

/// How many bytes two texts begin with in common, in whole characters.
fn common(a: &str, b: &str) -> usize {
    let pairs = a.chars().zip(b.chars());
    let same = pairs.take_while(|(a, b)| a == b);
    same.map(|(a, _)| a.len_utf8()).sum()
}
