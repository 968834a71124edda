//! The original converter beside the static library: `compare` feeds both made documents and compares what they answer, `speed` times
//! both on the benchmark's documents. Built by `tools/original.sh`, which puts the original's files beside this one.
#![allow(dead_code, unused_imports, unexpected_cfgs)]

mod converter;
mod expected;
pub mod mitex_spec;
pub mod syntax;

pub mod mitex_parser {
    pub use crate::mitex_spec as spec;
    pub use crate::syntax;
}

/// The original names a set of rules of its own; none of them is used here.
pub mod mitex_spec_gen {
    use std::sync::LazyLock;

    pub static DEFAULT_SPEC: LazyLock<crate::mitex_spec::CommandSpec> =
        LazyLock::new(|| crate::mitex_spec::CommandSpec::new(Default::default()));
}

use std::collections::BTreeMap;
use std::hint::black_box;
use std::panic::{catch_unwind, AssertUnwindSafe};

use converter::LaTeXMode;
use mitex_spec::{
    ArgPattern, ArgShape, CmdShape, CommandSpec, CommandSpecItem, ContextFeature, EnvShape,
};
use reference::constructs;
use reference::made::{tree_file, Maker};
use syntax::SyntaxKind::{self, *};
use syntax::SyntaxNode;
use zaldrume::raw;

/// The kinds by their numbers in a tree file, less one.
#[rustfmt::skip]
const KINDS: [SyntaxKind; 45] = [
    TokenError, ItemLR, ClauseArgument, ScopeRoot, ItemText, ItemBracket, ItemParen, ItemFormula, ItemCurly,
    ClauseLR, ItemAttachComponent, ClauseCommandName, ItemBegin, ItemEnd, TokenWord, TokenLBrace, TokenRBrace,
    TokenDollar, TokenBeginMath, TokenEndMath, TokenComment, ItemBlockComment, TokenWhiteSpace, TokenLineBreak,
    TokenApostrophe, TokenComma, TokenSlash, TokenCaret, TokenUnderscore, TokenHash, TokenAsterisk, TokenAtSign,
    TokenDitto, TokenSemicolon, TokenLParen, TokenRParen, TokenLBracket, TokenRBracket, TokenTilde,
    TokenAmpersand, ItemNewLine, TokenCommandSym, ItemCmd, ItemEnv, ItemTypstCode,
];

fn number(bytes: &[u8]) -> usize {
    bytes
        .iter()
        .rev()
        .fold(0, |n, byte| n << 8 | usize::from(*byte))
}

/// The text area and the rows of a file that fits.
fn areas(file: &[u8]) -> (&str, std::slice::ChunksExact<'_, u8>) {
    let end = file.len() - 8;
    let start = number(&file[end..end + 4]);
    let text = std::str::from_utf8(&file[..start]).expect("valid text");
    (text, file[start..end].chunks_exact(8))
}

fn spec_of(rules: &[u8]) -> CommandSpec {
    let (mut text, rows) = areas(rules);
    let mut take = |size: usize| {
        let (taken, rest) = text.split_at(size);
        text = rest;
        taken.to_owned()
    };
    let command = |alias, pattern| {
        CommandSpecItem::Cmd(CmdShape {
            args: ArgShape::Right { pattern },
            alias,
        })
    };
    let environment = |alias, ctx_feature| {
        CommandSpecItem::Env(EnvShape {
            args: ArgPattern::None,
            ctx_feature,
            alias,
        })
    };
    let mut items = rustc_hash::FxHashMap::default();
    for row in rows {
        let name = take(number(&row[..2]));
        let alias = match number(&row[2..4]) {
            65535 => None,
            size => Some(take(size)),
        };
        let item = match row[4] {
            0 => command(alias, ArgPattern::None),
            1 => command(alias, ArgPattern::Greedy),
            2 => command(alias, ArgPattern::FixedLenTerm { len: 1 }),
            3 => environment(alias, ContextFeature::None),
            4 => environment(alias, ContextFeature::IsMath),
            5 => environment(alias, ContextFeature::IsMatrix),
            6 => environment(alias, ContextFeature::IsCases),
            7 => environment(alias, ContextFeature::IsFigure),
            8 => environment(alias, ContextFeature::IsTable),
            9 => environment(alias, ContextFeature::IsItemize),
            _ => environment(alias, ContextFeature::IsEnumerate),
        };
        items.insert(name, item);
    }
    CommandSpec::new(items)
}

fn node_of(tree: &[u8]) -> SyntaxNode {
    let (mut text, rows) = areas(tree);
    let mut builder = rowan::GreenNodeBuilder::new();
    let mut ends = Vec::new();
    for (i, row) in rows.enumerate() {
        while ends.last() == Some(&i) {
            builder.finish_node();
            ends.pop();
        }
        let kind = KINDS[usize::from(row[0]) - 1].into();
        let size = number(&row[4..]);
        if row[1] == 1 {
            let (taken, rest) = text.split_at(size);
            builder.token(kind, taken);
            text = rest;
        } else {
            builder.start_node(kind);
            ends.push(i + 1 + size);
        }
    }
    ends.iter().for_each(|_| builder.finish_node());
    SyntaxNode::new_root(builder.finish())
}

fn mode_of(mode: u8) -> LaTeXMode {
    match mode {
        0 => LaTeXMode::Text,
        _ => LaTeXMode::Math,
    }
}

/// What the original answers. A text stands here with its open cells closed, and how many these are.
enum Original {
    Text(String, usize),
    Unclear,
    Error,
    Panic,
}

impl Original {
    fn told(&self) -> &'static str {
        match self {
            Original::Text(_, 0) => "a text",
            Original::Text(..) => "a text with cells to close",
            Original::Unclear => "a text that tells no cells",
            Original::Error => "an error",
            Original::Panic => "a panic",
        }
    }

    /// Whether the library answers the same: a refusal's number, or 0 and a text.
    fn agrees(&self, refusal: u8, text: &[u8]) -> bool {
        match self {
            Original::Text(closed, _) => refusal == 0 && closed.as_bytes() == text,
            Original::Unclear => false,
            Original::Error => matches!(refusal, 7..=11 | 13),
            Original::Panic => refusal == 12,
        }
    }
}

fn original(mode: u8, rules: &[u8], tree: &[u8]) -> Original {
    let (node, spec) = (node_of(tree), spec_of(rules));
    let longer = SyntaxNode::new_root(expected::with_new_lines(&node, &spec));
    let run = |node| {
        let converting = || converter::run(node, mode_of(mode), spec.clone());
        catch_unwind(AssertUnwindSafe(converting))
    };
    let text = match run(node) {
        Ok(Ok(text)) => text,
        Ok(Err(_)) => return Original::Error,
        Err(_) => return Original::Panic,
    };
    let Ok(Ok(longer)) = run(longer) else {
        return Original::Unclear;
    };
    match expected::closed(&text, &longer) {
        Some((closed, cells)) => Original::Text(closed, cells),
        None => Original::Unclear,
    }
}

/// Past refusals 1 to 5 and apart from 14 and 15 the original gives the same text but for open cells; an error where the library
/// refuses, and a panic where that is by 12.
fn compare(cases: u64, seed: u64) {
    std::panic::set_hook(Box::new(|_| ()));
    let mut counts = BTreeMap::<String, u64>::new();
    let (mut text, mut ledger) = (vec![0; 1 << 20], vec![0; 1 << 16]);
    for seed in seed..seed + cases {
        let mut maker = Maker::new(seed);
        let rules = maker.rules();
        let (count, depth) = (1 + maker.random.below(12), 1 + maker.random.below(7));
        let tree = tree_file(&maker.blocks(count, depth));
        for mode in [0, 1] {
            let answer = raw::convert(mode, &rules, &tree, &mut text, &mut ledger);
            let refusal = answer.number;
            if matches!(refusal, 1..=5 | 14..) {
                *counts
                    .entry(format!("refusal {refusal}: not compared"))
                    .or_default() += 1;
                continue;
            }
            let original = original(mode, &rules, &tree);
            let told = original.told();
            let same = original.agrees(refusal, &text[..answer.place]);
            if !same {
                println!(
                    "different: seed {seed}, mode {mode}, library {answer:?}, original {told}"
                );
            }
            let what = if same { "same" } else { "DIFFERENT" };
            *counts
                .entry(format!("refusal {refusal}, original {told}: {what}"))
                .or_default() += 1;
        }
    }
    for (what, count) in counts {
        println!("{count:>9}  {what}");
    }
}

/// Trees that are there already, converted by the original, beside the library's whole Convert of the files, with 1,000 rules.
fn speed(seed: u64) {
    let documents = constructs::documents(seed);
    let rules = constructs::rules(1_000);
    let spec = spec_of(&rules);
    let nodes: Vec<_> = documents.iter().map(|made| node_of(&made.tree)).collect();
    let original = |i: usize| {
        let written = converter::run(nodes[i].clone(), LaTeXMode::Text, spec.clone());
        written.expect("accepted")
    };
    let (mut text, mut ledger) = (vec![0; 1 << 20], vec![0; 1 << 16]);
    let mut library = |i: usize, text: &mut [u8]| {
        let tree = black_box(&documents[i].tree);
        raw::convert(0, black_box(&rules), tree, text, &mut ledger).place
    };
    let count = documents.len();
    for i in 0..count {
        let length = library(i, &mut text);
        assert_eq!(original(i).as_bytes(), &text[..length]);
    }
    let means = constructs::least_means(2 * count, |i| match i < count {
        true => drop(black_box(original(i))),
        false => assert!(library(i - count, &mut text) > 0),
    });
    println!(
        "| document | blocks | rows | original ns a row | library ns a row | library / original |"
    );
    println!("|---|---|---|---|---|---|");
    for (i, document) in documents.iter().enumerate() {
        let (rows, theirs, ours) = (document.rows(), means[i], means[count + i]);
        println!(
            "| {} | {} | {rows} | {:.1} | {:.1} | {:.2} |",
            document.name,
            document.blocks.len(),
            theirs / rows as f64,
            ours / rows as f64,
            ours / theirs
        );
    }
}

fn main() {
    let words: Vec<String> = std::env::args().skip(1).collect();
    match words.iter().map(String::as_str).collect::<Vec<_>>()[..] {
        ["compare", cases, seed] => compare(
            cases.parse().expect("a count"),
            seed.parse().expect("a seed"),
        ),
        ["speed", seed] => speed(seed.parse().expect("a seed")),
        _ => {
            eprintln!("usage: original compare CASES SEED | original speed SEED");
            std::process::exit(2)
        }
    }
}
