//! Accepted documents that are made to take long: much text for few bytes, and what is looked at again for each node around it.

use crate::constructs::{
    command, curly, environment, formula, line_break, three_letters, Document,
};
use crate::made::{node, rule_file, token, Made};
use crate::tree::Kind::*;

/// So many rules with names of four letters are near to what a rule file holds.
const RULES: usize = 5_400;

/// The name of a rule: all begin with the same letter.
fn name(i: usize) -> String {
    format!("z{}", three_letters(i % RULES))
}

/// Rules with one first letter, and those that the documents need.
pub fn rules() -> Vec<u8> {
    let needed = [("itemize", 9), ("tabular", 8)];
    let mut rules = Vec::from(needed.map(|(name, class)| (name.to_owned(), None, class)));
    rules.extend((0..RULES).map(|i| (name(i), None, 0)));
    rule_file(&rules)
}

pub fn documents() -> Vec<Document> {
    let mut documents = much_text();
    documents.extend(much_nested());
    let named = |(name, block)| Document::new(name, vec![block]);
    documents.into_iter().map(named).collect()
}

fn many(count: usize, element: Made) -> Made {
    node(ItemText, vec![element; count])
}

/// One in the other, so many times.
fn nested(count: usize, inner: Made, outer: impl Fn(Vec<Made>) -> Made) -> Made {
    (0..count).fold(inner, |inner, _| outer(vec![inner]))
}

fn much_text() -> Vec<(&'static str, Made)> {
    let word = |text: &str, count| token(TokenWord, text.repeat(count));
    let columns = curly(vec![word("l|", 32_500)]);
    let table = environment("tabular", Some(columns), vec![]);
    let list = |inner| environment("itemize", None, inner);
    let lists = nested(60, many(6_900, line_break()), list);
    let options = node(ItemBracket, vec![word("width=\\textwidth,", 3_800)]);
    let path = curly(vec![token(TokenWord, "path")]);
    let picture = command("includegraphics", vec![options, path]);
    let letters = formula(vec![word("é", 32_500)]);
    vec![
        ("32,500 columns", table),
        ("6,900 line breaks in 60 lists", lists),
        ("3,800 options of a picture", picture),
        ("32,500 letters in a formula", letters),
    ]
}

fn much_nested() -> Vec<(&'static str, Made)> {
    let outer = |inner| node(ItemFormula, inner);
    let formulas = nested(58, token(TokenDollar, "$"), outer);
    let braces = nested(55, many(7_700, node(ItemCurly, vec![])), formula);
    let in_commands = |name| {
        let inner = many(3_700, token(TokenWord, "word.txt"));
        nested(30, inner, |inner| command(name, inner))
    };
    let symbol = |i: usize| token(TokenCommandSym, format!("\\{}", name(i * 1_001)));
    let symbols = node(ItemText, (0..4_600).map(symbol).collect());
    vec![
        ("125 times 58 formulas in formulas", many(125, formulas)),
        ("7,700 empty nodes in 55 formulas", braces),
        ("30 colours in colours", in_commands("textcolor")),
        ("30 labels in labels", in_commands("label")),
        ("4,600 symbols, names with one first letter", symbols),
    ]
}
