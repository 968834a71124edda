//! Documents of one construct each, a mixture of all, a LaTeX-like one and one of many-byte characters, made from a seed, all of them
//! accepted: what speed is measured on, and how.

use std::time::Instant;

use crate::made::{node, rule_file, token, tree_file, Made, MadeRule, Random};
use crate::tree::Kind::*;
use crate::{BLOCKS_MOST, FILE_MOST};

/// A turn has so many calls.
pub const CALLS: usize = 3;

/// For each of a count of things the least mean of a few calls. In a round all things have their turn, so that the processor learns
/// none of them by heart.
pub fn least_means(count: usize, mut call: impl FnMut(usize)) -> Vec<f64> {
    const ROUNDS: usize = 100;
    let mut least = vec![f64::INFINITY; count];
    for _ in 0..ROUNDS {
        for (i, least) in least.iter_mut().enumerate() {
            let start = Instant::now();
            (0..CALLS).for_each(|_| call(i));
            *least = least.min(start.elapsed().as_nanos() as f64 / CALLS as f64);
        }
    }
    least
}

/// A construct: its name, its share of the mixture's bytes in a hundred, and what makes a part of a document.
struct Construct {
    name: &'static str,
    share: usize,
    part: fn(&mut Random) -> Vec<Made>,
}

const fn construct(
    name: &'static str,
    share: usize,
    part: fn(&mut Random) -> Vec<Made>,
) -> Construct {
    Construct { name, share, part }
}

const CONSTRUCTS: [Construct; 13] = [
    construct("words", 30, |random| some_words(random, 4)),
    construct("formulas", 10, formula_part),
    construct("attachments", 8, attachment_part),
    construct("\\left, \\right", 4, left_right_part),
    construct("commands", 10, command_part),
    construct("braces", 4, brace_part),
    construct("lists", 7, |random| vec![list(random, 1), line_break()]),
    construct("tables", 7, table_part),
    construct("quotes", 5, quote_part),
    construct("figures", 4, figure_part),
    construct("colours", 4, colour_part),
    construct("labels", 4, label_part),
    construct("images", 3, |random| vec![image(random), line_break()]),
];

/// A made document.
pub struct Document {
    pub name: &'static str,
    pub blocks: Vec<Made>,
    pub tree: Vec<u8>,
}

impl Document {
    pub fn new(name: &'static str, blocks: Vec<Made>) -> Self {
        let tree = tree_file(&blocks);
        assert!(tree.len() <= FILE_MOST, "{name}: {} bytes", tree.len());
        Document { name, blocks, tree }
    }

    pub fn rows(&self) -> usize {
        let (_, count) = self.tree.split_last_chunk().expect("a trailer");
        u32::from_le_bytes(*count) as usize
    }

    /// The document with something else in the place of a block.
    pub fn with(&self, block: usize, other: Made) -> Self {
        let mut blocks = self.blocks.clone();
        blocks[block] = other;
        Document::new(self.name, blocks)
    }
}

/// A document of each construct and a mixture, in few blocks and then in as many as there may be; last a LaTeX-like one
/// and one of words of many-byte characters, in few blocks.
pub fn documents(seed: u64) -> Vec<Document> {
    let mut random = Random::new(seed);
    let mut documents = Vec::new();
    for count in [8, BLOCKS_MOST] {
        for Construct { name, part, .. } in CONSTRUCTS {
            let blocks = filled(count, SPARE, || part(&mut random));
            documents.push(Document::new(name, blocks));
        }
        documents.push(mixture(count, SPARE, &mut random));
    }
    documents.push(Document::new("LaTeX-like", latex_like(seed)));
    let blocks = filled(8, SPARE, || vec![many_byte_word(&mut random), space()]);
    documents.push(Document::new("many-byte words", blocks));
    documents
}

/// Bytes of a tree file that are left for an edit.
const SPARE: usize = 64;

/// Blocks whose tree file is as long as it may be, less the bytes that it has to spare. One that has no room for the next part is a line
/// break.
fn filled(count: usize, spare: usize, mut next: impl FnMut() -> Vec<Made>) -> Vec<Made> {
    // 16 bytes are the root's row and the trailer, and a block has a row of its own
    let room = (FILE_MOST - 16 - spare) / count - 8;
    let mut left = 0;
    let mut part = next();
    let block = |_| {
        left += room;
        let mut inside = Vec::new();
        while size(&part) <= left {
            left -= size(&part);
            inside.append(&mut part);
            part = next();
        }
        if inside.is_empty() {
            left -= 1;
            return line_break();
        }
        node(ItemText, inside)
    };
    (0..count).map(block).collect()
}

/// Each part is of any construct that is behind its share of the bytes so far.
pub fn mixture(count: usize, spare: usize, random: &mut Random) -> Document {
    let mut bytes = [0; CONSTRUCTS.len()];
    let blocks = filled(count, spare, || {
        let all: usize = bytes.iter().sum();
        let is_behind = |&i: &usize| bytes[i] * 100 <= CONSTRUCTS[i].share * all;
        let behind: Vec<_> = (0..bytes.len()).filter(is_behind).collect();
        let i = *random.pick(&behind);
        let part = (CONSTRUCTS[i].part)(random);
        bytes[i] += size(&part);
        part
    });
    Document::new("mixture", blocks)
}

/// As many paragraphs, each a block, as a tree file of 65,200 bytes holds.
fn latex_like(seed: u64) -> Vec<Made> {
    let mut random = Random::new(seed);
    let mut blocks = Vec::new();
    let mut left = 65_200 - 16;
    loop {
        let block = node(ItemText, paragraph(&mut random));
        if block.size() > left {
            return blocks;
        }
        left -= block.size();
        blocks.push(block);
    }
}

fn size(part: &[Made]) -> usize {
    part.iter().map(Made::size).sum()
}

/// A number as letters.
pub(crate) fn three_letters(i: usize) -> String {
    let digits = [i / 676, i / 26 % 26, i % 26];
    String::from_iter(digits.map(|digit| char::from(b'a' + digit as u8)))
}

/// The ten rules that the documents use, and others up to a count.
pub fn rules(count: usize) -> Vec<u8> {
    let used = [
        ("alpha", None, 0),
        ("rm", Some("upright"), 1),
        ("frac", Some("frac"), 2),
        ("textbf", Some("#textbf"), 2),
        ("quote", None, 3),
        ("equation", Some("aligned"), 4),
        ("matrix", Some("mat"), 5),
        ("figure", None, 7),
        ("tabular", Some("table"), 8),
        ("itemize", Some(""), 9),
    ];
    let own = |(name, alias, class): (&str, Option<&str>, u8)| -> MadeRule {
        (name.to_owned(), alias.map(str::to_owned), class)
    };
    let mut rules = Vec::from(used.map(own));
    let others = 0..count - used.len();
    rules.extend(others.map(|i| (three_letters(i) + "z", None, 0)));
    rules.sort();
    rule_file(&rules)
}

fn letters(random: &mut Random, least: usize, most: usize) -> String {
    let size = least + random.below(most + 1 - least);
    let letter = |_| char::from(b'a' + random.below(26) as u8);
    (0..size).map(letter).collect()
}

pub fn word(random: &mut Random) -> Made {
    token(TokenWord, letters(random, 2, 9))
}

/// A word of characters of two, three or four bytes: Greek, Chinese or Gothic.
fn many_byte_word(random: &mut Random) -> Made {
    let first = *random.pick(&['α', '一', '𐌰']);
    let size = 2 + random.below(8);
    let letter = |_| char::from_u32(first as u32 + random.below(24) as u32).expect("a character");
    token(TokenWord, (0..size).map(letter).collect::<String>())
}

pub fn space() -> Made {
    token(TokenWhiteSpace, " ")
}

pub fn line_break() -> Made {
    token(TokenLineBreak, "\n")
}

pub fn words(random: &mut Random, count: usize) -> Vec<Made> {
    (0..count).flat_map(|_| [word(random), space()]).collect()
}

fn some_words(random: &mut Random, most: usize) -> Vec<Made> {
    let count = 1 + random.below(most);
    words(random, count)
}

fn between(kind: crate::Kind, first: Made, mut inside: Vec<Made>, last: Made) -> Made {
    inside.insert(0, first);
    inside.push(last);
    node(kind, inside)
}

pub fn curly(inside: Vec<Made>) -> Made {
    let (opens, closes) = (token(TokenLBrace, "{"), token(TokenRBrace, "}"));
    between(ItemCurly, opens, inside, closes)
}

fn bracket(text: impl Into<String>) -> Made {
    let (opens, closes) = (token(TokenLBracket, "["), token(TokenRBracket, "]"));
    between(ItemBracket, opens, vec![token(TokenWord, text)], closes)
}

pub fn formula(inside: Vec<Made>) -> Made {
    let dollar = || token(TokenDollar, "$");
    between(ItemFormula, dollar(), inside, dollar())
}

/// A command whose arguments are groups.
pub fn command(name: &str, groups: Vec<Made>) -> Made {
    let mut children = vec![token(ClauseCommandName, format!("\\{name}"))];
    let argument = |group| node(ClauseArgument, vec![group]);
    children.extend(groups.into_iter().map(argument));
    node(ItemCmd, children)
}

pub fn environment(name: &str, group: Option<Made>, inside: Vec<Made>) -> Made {
    let name = || token(TokenCommandSym, name);
    let mut begin = vec![name()];
    begin.extend(group.map(|group| node(ClauseArgument, vec![group])));
    let end = node(ItemEnd, vec![name()]);
    between(ItemEnv, node(ItemBegin, begin), inside, end)
}

/// Letters, signs and symbols of a formula.
fn terms(random: &mut Random, most: usize) -> Vec<Made> {
    let count = 1 + random.below(most);
    let term = |_| {
        let term = match random.below(4) {
            0 => token(TokenCommandSym, "\\alpha"),
            1 => token(TokenWord, *random.pick(&["=", "+", "-", "1", "42"])),
            _ => token(TokenWord, letters(random, 1, 3)),
        };
        [term, space()]
    };
    (0..count).flat_map(term).collect()
}

fn formula_part(random: &mut Random) -> Vec<Made> {
    let ends = [
        (TokenDollar, "$", TokenDollar, "$"),
        (TokenDollar, "$$", TokenDollar, "$$"),
        (TokenBeginMath, "\\(", TokenEndMath, "\\)"),
        (TokenBeginMath, "\\[", TokenEndMath, "\\]"),
    ];
    let (first, opens, last, closes) = *random.pick(&ends);
    let (first, last) = (token(first, opens), token(last, closes));
    vec![between(ItemFormula, first, terms(random, 4), last), space()]
}

/// `x^2`, `x_{ij}` and one on top of the other.
fn attachment(random: &mut Random, base: Made, depth: usize) -> Made {
    let (kind, text) = *random.pick(&[(TokenCaret, "^"), (TokenUnderscore, "_")]);
    let attached = token(TokenWord, letters(random, 1, 2));
    let attached = match random.chance(400) {
        true => curly(vec![attached]),
        false => attached,
    };
    let whole = node(ItemAttachComponent, vec![base, token(kind, text), attached]);
    match depth > 0 && random.chance(250) {
        true => attachment(random, whole, depth - 1),
        false => whole,
    }
}

fn attachment_part(random: &mut Random) -> Vec<Made> {
    let mut inside = Vec::new();
    for _ in 0..1 + random.below(3) {
        let base = token(TokenWord, letters(random, 1, 2));
        inside.push(attachment(random, base, 1));
        inside.push(space());
    }
    vec![formula(inside), space()]
}

fn left_right_part(random: &mut Random) -> Vec<Made> {
    let sides = [
        (TokenLParen, "(", TokenRParen, ")"),
        (TokenLBracket, "[", TokenRBracket, "]"),
        (TokenWord, "|", TokenWord, "|"),
        (TokenWord, ".", TokenRParen, ")"),
    ];
    let (first, opens, last, closes) = *random.pick(&sides);
    let side = |name, kind, text| {
        let name = token(ClauseCommandName, name);
        node(ClauseLR, vec![name, token(kind, text)])
    };
    let inside = terms(random, 3);
    let (left, right) = (side("\\left", first, opens), side("\\right", last, closes));
    vec![formula(vec![between(ItemLR, left, inside, right)]), space()]
}

/// `\textbf{x}`, one in the other, `$\frac{x}{y}$`, `$\alpha$` and `${\rm x}$`.
fn command_part(random: &mut Random) -> Vec<Made> {
    let element = match random.below(5) {
        0 => command("textbf", vec![curly(vec![word(random)])]),
        1 => {
            let inner = command("textbf", vec![curly(vec![word(random)])]);
            command("textbf", vec![curly(vec![inner, space(), word(random)])])
        }
        2 => {
            let [over, under] = [2, 1].map(|most| curly(terms(random, most)));
            formula(vec![command("frac", vec![over, under])])
        }
        3 => formula(vec![token(TokenCommandSym, "\\alpha")]),
        _ => formula(vec![curly(vec![command("rm", vec![word(random)])])]),
    };
    vec![element, space()]
}

/// Braces up to four deep, in text and in formulas.
fn brace_part(random: &mut Random) -> Vec<Made> {
    let mut group = curly(vec![word(random)]);
    for _ in 0..random.below(4) {
        group = match random.chance(500) {
            true => curly(vec![group]),
            false => curly(vec![word(random), space(), group]),
        };
    }
    let group = match random.chance(500) {
        true => formula(vec![group]),
        false => group,
    };
    vec![group, space()]
}

fn list(random: &mut Random, depth: usize) -> Made {
    let mut inside = vec![line_break()];
    for _ in 0..1 + random.below(4) {
        inside.extend([command("item", vec![]), space()]);
        inside.extend(some_words(random, 3));
        inside.push(line_break());
        if depth > 0 && random.chance(150) {
            inside.push(list(random, depth - 1));
        }
    }
    environment("itemize", None, inside)
}

fn table_part(random: &mut Random) -> Vec<Made> {
    let columns = *random.pick(&["lc", "|l|c|", "lcr", "|c|c||r|"]);
    let count = columns.chars().filter(char::is_ascii_alphabetic).count();
    let mut inside = vec![line_break()];
    for _ in 0..1 + random.below(3) {
        if random.chance(300) {
            inside.extend([command("hline", vec![]), line_break()]);
        }
        for i in 0..count {
            inside.extend([word(random), space()]);
            if i + 1 < count {
                inside.extend([token(TokenAmpersand, "&"), space()]);
            }
        }
        inside.extend([token(ItemNewLine, "\\\\"), line_break()]);
    }
    let columns = curly(vec![token(TokenWord, columns)]);
    vec![environment("tabular", Some(columns), inside), line_break()]
}

fn quote_part(random: &mut Random) -> Vec<Made> {
    let quote = environment("quote", None, some_words(random, 6));
    vec![quote, line_break()]
}

/// A picture, a caption and most times a label.
fn figure_part(random: &mut Random) -> Vec<Made> {
    let mut inside = vec![
        command("centering", vec![]),
        line_break(),
        image(random),
        line_break(),
        command("caption", vec![curly(some_words(random, 4))]),
        line_break(),
    ];
    if random.chance(750) {
        inside.extend([label("fig", random), line_break()]);
    }
    vec![environment("figure", None, inside), line_break()]
}

/// `\textcolor{red}{x}`, with a model, `\colorbox`, and `{\color{red} x}` in text and in formulas.
fn colour_part(random: &mut Random) -> Vec<Made> {
    let colour = *random.pick(&["red", "blue", "green", "black"]);
    let colour = curly(vec![token(TokenWord, colour)]);
    let body = some_words(random, 2);
    let element = match random.below(5) {
        0 => command("textcolor", vec![colour, curly(body)]),
        1 => {
            let values = curly(vec![token(TokenWord, "0.5 0 1")]);
            command("textcolor", vec![bracket("rgb"), values, curly(body)])
        }
        2 => command("colorbox", vec![colour, curly(body)]),
        choice => {
            let mut inside = vec![colour, space()];
            inside.extend(body);
            let name = token(ClauseCommandName, "\\color");
            let rest = node(ClauseArgument, inside);
            let group = curly(vec![node(ItemCmd, vec![name, rest])]);
            match choice {
                3 => group,
                _ => formula(vec![group]),
            }
        }
    };
    vec![element, space()]
}

pub fn label(prefix: &str, random: &mut Random) -> Made {
    let text = format!("{prefix}:{}", letters(random, 2, 12));
    command("label", vec![curly(vec![token(TokenWord, text)])])
}

/// A label that is written where it stands, in text and in a quote; in an equation, which takes it; and in a formula, where it waits.
fn label_part(random: &mut Random) -> Vec<Made> {
    let element = match random.below(4) {
        0 => label("sec", random),
        1 => {
            let inside = vec![word(random), space(), label("quo", random)];
            environment("quote", None, inside)
        }
        2 => {
            let mut inside = terms(random, 3);
            inside.push(label("eq", random));
            environment("equation", None, inside)
        }
        _ => formula(vec![curly(vec![label("tab", random)])]),
    };
    vec![element, line_break()]
}

fn image(random: &mut Random) -> Made {
    let path = format!("{}.png", letters(random, 3, 12));
    let path = curly(vec![token(TokenWord, path)]);
    let options = [
        "width=0.5\\textwidth",
        "width=4cm, height=3cm",
        "height=0.25\\textheight,angle=90",
        "scale=2",
    ];
    let groups = match random.below(options.len() + 1) {
        0 => vec![path],
        i => vec![bracket(options[i - 1]), path],
    };
    command("includegraphics", groups)
}

/// A paragraph with a formula, a command and an environment.
fn paragraph(random: &mut Random) -> Vec<Made> {
    let mut blocks = words(random, 12);
    let letter = || token(TokenWord, "x");
    let power = vec![letter(), token(TokenCaret, "^"), token(TokenWord, "2")];
    blocks.push(formula(vec![
        node(ItemAttachComponent, power),
        space(),
        token(TokenCommandSym, "\\alpha"),
        command(
            "frac",
            vec![curly(vec![letter()]), curly(vec![word(random)])],
        ),
    ]));
    blocks.push(space());
    blocks.push(command("textbf", vec![curly(vec![word(random)])]));
    blocks.extend(words(random, 3));
    let cell = || token(TokenAmpersand, "&");
    let line = || token(ItemNewLine, "\\\\");
    blocks.push(match random.below(4) {
        0 => environment("quote", None, words(random, 6)),
        1 => {
            let item = |_| [command("item", vec![]), space(), word(random), line_break()];
            environment("itemize", None, (0..3).flat_map(item).collect())
        }
        2 => {
            let row = |_| [letter(), cell(), letter(), line()];
            environment("matrix", None, (0..2).flat_map(row).collect())
        }
        _ => {
            let row = |_| [word(random), cell(), word(random), line()];
            let columns = token(TokenWord, "{|l|c|}");
            environment("tabular", Some(columns), (0..2).flat_map(row).collect())
        }
    });
    blocks.push(line_break());
    blocks
}
